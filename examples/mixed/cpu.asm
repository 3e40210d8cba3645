; INT$ON and INT$OFF let interrupts in and keep them out. JUMP(WHERE) goes to an address
; for good: nothing of the call is left on the stack.

        NAME    CPU
        PUBLIC  INTON, INTOFF, JUMP

INTON:  EI              ; from the end of the next instruction on
        RET

INTOFF: DI
        RET

JUMP:   POP     D       ; the return address, which is not used
        PCHL            ; WHERE is in HL
        END
