/* A raw image: the program from 0x10000 on, its bytes a multiple of 4. What follows the image reads as zeros, so the
   variables without a value need no bytes. */
ENTRY(start)
SECTIONS
{
    . = 0x10000;
    .text : { *(.text.start) *(.text .text.*) *(.rodata .rodata.*) *(.srodata .srodata.*) }
    .data : { *(.data .data.*) *(.sdata .sdata.*) . = ALIGN(4); }
    .bss : { *(.bss .bss.*) *(.sbss .sbss.*) *(COMMON) . = ALIGN(4); }
    /DISCARD/ : { *(.comment) *(.riscv.attributes) *(.eh_frame) *(.note*) }
}
