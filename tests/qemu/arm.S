// execute_word(memory): loads the registers from memory, executes the word at 'place', and stores them back. No word that is tried here
// names the stack pointer, so that it keeps the address of the memory. The places are those of arm.c.
        .arch   armv8-a+sve2
        .equ    X, 544
        .equ    NZCV, X + 31 * 8

        .macro  each_x do
        .irp    n, 0,1,2,3,4,5,6,7,8,9,10,11,12,13,14,15,16,17,18,19,20,21,22,23,24,25,26,27,28,29,30
        \do     x\n, [sp, #X + \n * 8]
        .endr
        .endm

        .macro  each_p do
        .irp    n, 0,1,2,3,4,5,6,7,8,9,10,11,12,13,14,15
        \do     p\n, [sp, #\n, mul vl]
        .endr
        .endm

        .text
        .global execute_word
        .type   execute_word, %function
execute_word:
        stp     x19, x20, [sp, #-96]!
        stp     x21, x22, [sp, #16]
        stp     x23, x24, [sp, #32]
        stp     x25, x26, [sp, #48]
        stp     x27, x28, [sp, #64]
        stp     x29, x30, [sp, #80]
        mov     x1, sp
        adrp    x2, stack
        str     x1, [x2, #:lo12:stack]
        mov     sp, x0
        ldr     x0, [sp, #NZCV]
        msr     nzcv, x0
        ldr     p0, [sp, #16, mul vl]
        wrffr   p0.b
        each_p  ldr
        each_x  ldr
        b       place
back:   each_x  str
        each_p  str
        rdffr   p0.b
        str     p0, [sp, #16, mul vl]
        mrs     x0, nzcv
        str     x0, [sp, #NZCV]
        adrp    x2, stack
        ldr     x1, [x2, #:lo12:stack]
        mov     sp, x1
        ldp     x21, x22, [sp, #16]
        ldp     x23, x24, [sp, #32]
        ldp     x25, x26, [sp, #48]
        ldp     x27, x28, [sp, #64]
        ldp     x29, x30, [sp, #80]
        ldp     x19, x20, [sp], #96
        ret
        .size   execute_word, . - execute_word

// On a page of its own, since what is written to makes QEMU forget the page's code.
        .data
        .balign 4096
        .global place
place:  nop
        b       back
        .balign 4096
stack:  .quad   0
        .section .note.GNU-stack, "", %progbits
