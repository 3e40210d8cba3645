; The calls of CP/M 2: MON1(F, A), MON2(F, A) BYTE, MON3(F, A) ADDRESS and BOOT,
; where F is a BYTE and A an ADDRESS; and the places of the first page.

        NAME    CPM
        PUBLIC  MON1, MON2, MON3, BOOT, MAXB, FCB, TBUFF, BUFF

BDOS    EQU     5       ; the system, with the function in C and its value in DE
MAXB    EQU     6       ; a word
FCB     EQU     5CH     ; 36 bytes
TBUFF   EQU     80H     ; 128 bytes
BUFF    EQU     80H     ; the same

MON1:                   ; A is in HL; above the return address, a word with F as its high byte
MON2:
MON3:   XCHG            ; A
        POP     H       ; the return address
        POP     B       ; F, in B
        PUSH    H
        MOV     C,B
        JMP     BDOS    ; returns to who called MON1, with a byte in A or a word in HL

BOOT:   JMP     0
        END
