# The machine starts at the image's first byte, with the stack pointer set and all memory zero.
    .section .text.start
    .globl start
start:
    call main
    li a7, 93
    ecall
