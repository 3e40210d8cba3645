; Routines with Intel's convention, as old assembler modules have them.

        NAME    OLD
        PUBLIC  PUT, DIFF, WEIGH3, WEIGH4

PUT:    MOV     A,C     ; PUT(C): shows the BYTE C
        OUT     1
        RET

DIFF:   MOV     A,C     ; DIFF(C, E) BYTE: C - E
        SUB     E
        RET

WEIGH3: POP     H       ; WEIGH3(P, Q, R) ADDRESS: 4P + 2Q + R, with P on the stack, Q in BC, R in DE
        XTHL            ; P
        DAD     H
        DAD     B
        DAD     H
        DAD     D
        RET

WEIGH4: POP     H       ; WEIGH4(P, Q, R, S) ADDRESS: 8P + 4Q + 2R + S
        XTHL            ; Q
        DAD     H
        DAD     B
        DAD     H
        DAD     D       ; 4Q + 2R + S
        XCHG
        POP     H
        XTHL            ; P
        DAD     H
        DAD     H
        DAD     H
        DAD     D
        RET
        END
