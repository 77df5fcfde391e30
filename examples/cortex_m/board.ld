/* The board mps2-an385 of QEMU, a Cortex-M3. RAM is what the Makefile gives: 16 KB, or 8. PAGE stands for a page of
 * flash that is written to: it is other RAM of the board, which a reset leaves as it is. */
ENTRY(reset)
MEMORY {
    FLASH (rx) : ORIGIN = 0x00000000, LENGTH = 256K
    RAM (rwx) : ORIGIN = 0x20000000, LENGTH = RAM_SIZE
    PAGE (r) : ORIGIN = 0x21000000, LENGTH = 1K
}
SECTIONS {
    .text : { KEEP(*(.vectors)) *(.text*) *(.rodata*) } > FLASH
    .ARM.exidx : { *(.ARM.exidx*) } > FLASH
    data_in_flash = LOADADDR(.data);
    .data : { data_begin = .; *(.data*) . = ALIGN(4); data_end = .; } > RAM AT> FLASH
    .bss (NOLOAD) : { bss_begin = .; *(.bss*) *(COMMON) . = ALIGN(8); bss_end = .; } > RAM
    end = .;
    stack_top = ORIGIN(RAM) + LENGTH(RAM);
    page = ORIGIN(PAGE);
    page_end = ORIGIN(PAGE) + LENGTH(PAGE);
}
