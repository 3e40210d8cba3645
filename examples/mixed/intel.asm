; Glue between the calls of plm and those of Intel's PL/M-80, in both directions.
; All parameters are ADDRESS; a BYTE of Intel's is the low half of one.

        NAME    INTEL
        PUBLIC  INTEL1, INTEL1B, INTEL1A, INTEL2, INTEL2B, INTEL2A
        PUBLIC  INTEL3, INTEL3B, INTEL3A, INTEL4, INTEL4B, INTEL4A
        PUBLIC  OURS1, OURS2, OURS3, OURS4

; A module of plm calls INTELn(P1, .., Pn, .ROUTINE), which calls ROUTINE(P1, .., Pn) as
; Intel's modules do. INTELnB has the result of a routine that gives a BYTE, INTELnA of one
; that gives an ADDRESS.

INTEL1:                 ; ROUTINE in HL; on the stack: the return address, P1
INTEL1B:
INTEL1A:
        POP     D       ; the return address
        POP     B       ; P1
        PUSH    D
        PCHL

INTEL2:                 ; ROUTINE in HL; on the stack: the return address, Pn, Pn-1, ..
INTEL2B:
INTEL2A:
INTEL3:
INTEL3B:
INTEL3A:
INTEL4:
INTEL4B:
INTEL4A:
        POP     B       ; the return address
        POP     D       ; Pn
        XTHL            ; Pn-1 in HL, ROUTINE on the stack
        PUSH    H
        MOV     H,B
        MOV     L,C     ; the return address
        POP     B       ; Pn-1
        XTHL            ; ROUTINE in HL, the return address on the stack
        PCHL            ; P1 to Pn-2 are above it, as Intel's convention has them

; Code with Intel's convention calls a place where CALL OURSn stands, and after it the word
; of the address of a procedure of plm, which is then called.

OURS1:                  ; P1 in BC; on the stack: the address of the word, the return address
        POP     H
        MOV     E,M
        INX     H
        MOV     D,M     ; the procedure
        MOV     H,B
        MOV     L,C     ; P1
        PUSH    D
        RET             ; to the procedure

OURS2:                  ; Pn-1 in BC, Pn in DE; on the stack: those two, Pn-2, ..
OURS3:
OURS4:
        POP     H
        PUSH    B       ; Pn-1
        MOV     C,M
        INX     H
        MOV     B,M     ; the procedure
        POP     H       ; Pn-1
        XTHL            ; takes the place of the return address,
        PUSH    H       ; which comes below it
        XCHG            ; Pn
        PUSH    B
        RET             ; to the procedure
        END
