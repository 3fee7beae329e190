; Vectors of an AVRxt chip with 4 bytes each, up to the timer's, and the start: stack, zero register, cleared variables.
    .section .vectors, "ax"
    jmp start
    .rept 7
    jmp unexpected
    .endr
    jmp __vector_8

    .text
    .weak __vector_8
    .set __vector_8, unexpected
unexpected:
    break
    rjmp unexpected

start:
    clr r1
    ldi r28, lo8(stack_top)
    ldi r29, hi8(stack_top)
    out 0x3D, r28
    out 0x3E, r29
    ldi r26, lo8(variables_start)
    ldi r27, hi8(variables_start)
    ldi r18, hi8(variables_end)
    rjmp 2f
1:  st X+, r1
2:  cpi r26, lo8(variables_end)
    cpc r27, r18
    brne 1b
    jmp main
