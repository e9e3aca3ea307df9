# Where a program begins, as an ELF executable and as a raw image: the stack pointer is set, and the global pointer is
# what the linker's relaxed code expects. What main gives back is the status of the program.
    .section .text.start, "ax"
    .globl _start
_start:
    .option push
    .option norelax
    la gp, __global_pointer$
    .option pop
    call main
    call exit
