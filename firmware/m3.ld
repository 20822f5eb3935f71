/*
 * A controller with 512 KB of flash and 128 KB of RAM, at the addresses of QEMU's mps2-an385. That machine has more of
 * both: the linker refuses a program that would not fit the controller.
 */
ENTRY(reset)

MEMORY
{
    FLASH (rx)  : ORIGIN = 0x00000000, LENGTH = 512K
    RAM   (rwx) : ORIGIN = 0x20000000, LENGTH = 128K
}

stack_size = 16K;
heap_least = 4K;

SECTIONS
{
    .text : { KEEP(*(.vectors)) *(.text .text.*) *(.rodata .rodata.*) . = ALIGN(8); } > FLASH
    .ARM.exidx : { *(.ARM.exidx .ARM.exidx.*) } > FLASH
    .data : { . = ALIGN(8); data_start = .; *(.data .data.*) . = ALIGN(8); data_end = .; } > RAM AT > FLASH
    data_from = LOADADDR(.data);
    .bss (NOLOAD) : { bss_start = .; *(.bss .bss.* COMMON) . = ALIGN(8); bss_end = .; } > RAM
    end = .; /* where newlib's heap begins */
    stack_top = ORIGIN(RAM) + LENGTH(RAM);
    stack_low = stack_top - stack_size;
    ASSERT(end + heap_least <= stack_low, "no room for the stack and the heap")
}
