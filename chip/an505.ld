/* The memory of qemu's board mps2-an505: one Cortex-M33 that starts in its secure state, with its vectors at 0x10000000. For an STM32H563 the
 * two regions are its flash, 2 MB at 0x08000000, and its RAM, 640 KB at 0x20000000; programs keep to these sizes here too. */
ENTRY(reset)

MEMORY {
    CODE (rx) : ORIGIN = 0x10000000, LENGTH = 2M
    RAM (rw) : ORIGIN = 0x38000000, LENGTH = 640K
}

/* The stack stands at the top of RAM and grows down to its limit, which MSPLIM guards. check.c and stored.c keep whole calls on it; firmware
 * adds what docs/TRUST.md says of the library to its own. */
PROVIDE(stack_size = 64K);

SECTIONS {
    .text : {
        KEEP(*(.vectors))
        *(.text .text.*)
        *(.rodata .rodata.*)
    } > CODE
    .ARM.exidx : { *(.ARM.exidx .ARM.exidx.* .ARM.extab .ARM.extab.*) } > CODE

    .data : ALIGN(8) {
        data_begin = .;
        *(.data .data.*)
        . = ALIGN(8);
        data_end = .;
    } > RAM AT > CODE
    data_stored = LOADADDR(.data);

    .bss (NOLOAD) : ALIGN(8) {
        bss_begin = .;
        *(.bss .bss.* COMMON)
        . = ALIGN(8);
        bss_end = .;
    } > RAM

    end = .; /* where the C library's heap begins */
    stack_top = ORIGIN(RAM) + LENGTH(RAM);
    stack_limit = stack_top - stack_size;
    ASSERT(end <= stack_limit, "the stack has no room above the data")
}
