/* The program's image, which begins at 1000H in its memory. */
SECTIONS {
    . = 0x1000;
    .text : { *(.text.first) *(.text*) *(.rodata*) }
    .data : { *(.data*) }
    _bss_start = .;
    .bss : { *(.bss*) *(COMMON) }
    _end = .;
    /DISCARD/ : { *(.comment) *(.note*) *(.eh_frame*) }
}
