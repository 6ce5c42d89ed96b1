// Runs the words of words.inc on the registers that x0 points at: X0 to X27, NZCV, an empty place, P0 to P15.
// The words name no register above X27 but 31, so that x28 and x29 keep the pointers.
        .arch armv8-a+sve2
        .text

        .macro  each_x do
        .irp n, 0,1,2,3,4,5,6,7,8,9,10,11,12,13,14,15,16,17,18,19,20,21,22,23,24,25,26,27
        \do     x\n, [x28, #\n * 8]
        .endr
        .endm

        .macro  each_p do
        .irp n, 0,1,2,3,4,5,6,7,8,9,10,11,12,13,14,15
        \do     p\n, [x29, #\n, mul vl]
        .endr
        .endm

        .global run_words
        .type run_words, %function
run_words:
        stp     x19, x20, [sp, #-96]!
        stp     x21, x22, [sp, #16]
        stp     x23, x24, [sp, #32]
        stp     x25, x26, [sp, #48]
        stp     x27, x28, [sp, #64]
        stp     x29, x30, [sp, #80]
        mov     x28, x0
        add     x29, x28, #240
        ldr     x30, [x28, #224]
        msr     nzcv, x30
        each_p  ldr
        each_x  ldr
        .include "words.inc"
        each_x  str
        each_p  str
        mrs     x30, nzcv
        str     x30, [x28, #224]
        ldp     x21, x22, [sp, #16]
        ldp     x23, x24, [sp, #32]
        ldp     x25, x26, [sp, #48]
        ldp     x27, x28, [sp, #64]
        ldp     x29, x30, [sp, #80]
        ldp     x19, x20, [sp], #96
        ret
        .size run_words, . - run_words

        .section .rodata
        .global start
        .balign 8
start:
        .include "start.inc"
