; A main program that calls procedures by Intel's convention, as old assembler programs
; do, and shows their results and then SP.

        NAME    OLDMAIN
        EXTRN   PUT, DIFF, WEIGH3, WEIGH4

START:  LXI     SP,STACK
        LXI     B,772AH ; the BYTE 2AH in C; B is anything
        CALL    PUT     ; PUT(2AH)
        MVI     C,9
        MVI     E,2
        CALL    DIFF    ; DIFF(9, 2)
        OUT     2
        LXI     H,1000H
        PUSH    H
        LXI     B,200H
        LXI     D,30H
        CALL    WEIGH3  ; WEIGH3(1000H, 200H, 30H)
        MOV     A,H
        OUT     3
        MOV     A,L
        OUT     3
        LXI     H,1000H
        PUSH    H
        LXI     H,200H
        PUSH    H
        LXI     B,30H
        LXI     D,4
        CALL    WEIGH4  ; WEIGH4(1000H, 200H, 30H, 4)
        MOV     A,H
        OUT     4
        MOV     A,L
        OUT     4
        LXI     H,0
        DAD     SP
        MOV     A,H
        OUT     5
        MOV     A,L
        OUT     5
        HLT
        END     START
