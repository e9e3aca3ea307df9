/* A raw image: the program from 0x10000 on, whose first bytes are the start code. All memory behind the image reads as
   zeros, so variables without a value need no bytes. An executable that is linked by this script has one segment, which
   may be read, written and run, so a program that writes code can run it under Linux too. */
ENTRY(_start)
PHDRS { all PT_LOAD FLAGS(7); }
SECTIONS
{
    . = 0x10000;
    .text : { *(.text.start) *(.text .text.*) *(.rodata .rodata.*) *(.srodata .srodata.*) } :all
    .data : { *(.data .data.*) __global_pointer$ = . + 0x800; *(.sdata .sdata.*) . = ALIGN(4); } :all
    .bss : { *(.sbss .sbss.*) *(.bss .bss.*) *(COMMON) . = ALIGN(4); } :all
    /DISCARD/ : { *(.comment) *(.riscv.attributes) *(.eh_frame) *(.note*) }
}
