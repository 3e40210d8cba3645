; A place that jump.plm goes to: it shows SP, and halts.

        NAME    PLACE
        PUBLIC  PLACE

PLACE:  LXI     H,0
        DAD     SP
        MOV     A,H
        OUT     3
        MOV     A,L
        OUT     4
        HLT
        END
