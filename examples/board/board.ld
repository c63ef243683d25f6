/*
 * Where things lie. The sizes are those of a micro:bit (nRF51822), 256 KiB of flash at 0 and 16 KiB of RAM; put your chip's here. The stack
 * begins at the top of the RAM and grows down.
 */
MEMORY
{
    FLASH (rx) : ORIGIN = 0x00000000, LENGTH = 256K
    RAM (rwx) : ORIGIN = 0x20000000, LENGTH = 16K
}

/* For the calls, for main and for interrupts. What is left between `end` and the top must be at least this much. */
stack_room = 2K;
stack_top = ORIGIN(RAM) + LENGTH(RAM);

ENTRY(reset)

SECTIONS
{
    .text :
    {
        KEEP(*(.vectors))
        *(.text .text.*)
        *(.rodata .rodata.*)
        . = ALIGN(4);
    } > FLASH

    /* Tables for unwinding, which come with some functions of the C library and are never read. */
    .ARM.exidx :
    {
        *(.ARM.exidx .ARM.exidx.*)
        . = ALIGN(4);
    } > FLASH

    .data : ALIGN(4)
    {
        data_start = .;
        *(.data .data.*)
        . = ALIGN(4);
        data_end = .;
    } > RAM AT > FLASH
    data_from = LOADADDR(.data);

    .bss (NOLOAD) :
    {
        bss_start = .;
        *(.bss .bss.* COMMON)
        . = ALIGN(8);
        bss_end = .;
    } > RAM

    end = .;
    ASSERT(end + stack_room <= stack_top, "too little RAM is left for the stack")
}
