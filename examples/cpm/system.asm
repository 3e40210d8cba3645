; A stand-in for CP/M: its first page, and a system with the calls 0, 1, 2, 9, 10, 11, 12, 15 and 20,
; over the ports of SIMH's altairz80. The page is the data segment: --data 0 puts it there.

        NAME    SYSTEM

STATUS  EQU     10H     ; bit 0: a key was pressed
SCREEN  EQU     11H     ; and the keyboard
TAPE    EQU     13H     ; the reader of paper tape, which gives the text of each file

        DSEG
        JMP     WARM    ; 0
        DS      2
        JMP     BDOS    ; 5; its address is the word at 6
        DS      54H
        DB      0, 'NOTES   TXT'        ; 5CH: what CP/M makes of the first word after the program's name
        DS      18H
        DB      10, ' NOTES.TXT'        ; 80H: the length of what was typed there, and its characters
        DS      75H     ; up to 100H

        CSEG
WARM:   HLT

BDOS:   MOV     A,C
        CPI     0       ; ends the program
        JZ      WARM
        CPI     1       ; reads a character, and shows it
        JZ      KEY
        CPI     2       ; shows the character E
        JZ      SHOW
        CPI     9       ; shows the text at DE, up to a dollar sign
        JZ      TEXT
        CPI     10      ; reads a line into the buffer at DE: its room, its length, its characters
        JZ      LINE
        CPI     11      ; 0FFH if a key was pressed, else 0
        JZ      PRESSED
        CPI     12      ; the version
        JZ      VERSION
        CPI     15      ; opens the file of the FCB at DE
        JZ      OPEN
        CPI     20      ; reads 128 bytes of it to 80H
        JZ      READ
        OUT     2       ; all others show C, D and E
        MOV     A,D
        OUT     3
        MOV     A,E
        OUT     4
        MVI     A,5AH   ; the result as a byte
        LXI     H,1234H ; the result as a word
        RET

SHOW:   MOV     A,E
        OUT     SCREEN
        RET

TEXT:   LDAX    D
        CPI     '$'
        RZ
        OUT     SCREEN
        INX     D
        JMP     TEXT

OPEN:   INX     D
        LDAX    D       ; the first character of the name
        SUI     ' '
        JZ      NONE
        XRA     A       ; 0: the file is there
        RET
NONE:   DCR     A       ; 0FFH: it is not
        RET

READ:   LXI     H,80H
BYTE:   IN      TAPE
        MOV     M,A
        CPI     1AH     ; ^Z is the end: what is after it does not matter
        JZ      DONE
        INX     H
        DCR     H       ; H is 1 where the buffer is full
        JZ      DONE
        INR     H
        JMP     BYTE
DONE:   XRA     A       ; 0: bytes were read
        RET

KEY:    IN      STATUS
        RRC
        JNC     KEY
        IN      SCREEN
        ANI     7FH
        OUT     SCREEN
        RET

LINE:   LDAX    D
        MOV     B,A     ; the room
        INX     D
        MOV     H,D
        MOV     L,E     ; where the length is
        MVI     M,0
NEXT:   MOV     A,M
        CMP     B
        RZ              ; no more room
        CALL    KEY
        CPI     0DH
        RZ              ; the end of the line
        INX     D
        STAX    D
        INR     M
        JMP     NEXT

PRESSED:
        IN      STATUS
        RRC
        SBB     A       ; 0FFH if the bit was 1
        RET

VERSION:
        MVI     A,22H
        RET
        END
