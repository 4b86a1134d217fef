/* Where the firmware is. Each board gives flash_begin, memory_begin and stack_size, as in tools/board. The stack is the lowest of the memory:
 * what grows past its end leaves it, and meets the guard. */
ENTRY(start)
SECTIONS
{
    . = flash_begin;
    .text : {
        KEEP(*(.vectors))
        *(EXCLUDE_FILE(*.entries.o) .text EXCLUDE_FILE(*.entries.o) .text.*)
        /* the entries, and what they call, by themselves: what they take is counted */
        entries_begin = .;
        *.entries.o(.text .text.*)
        entries_end = .;
        *(.rodata .rodata.*)
        . = ALIGN(4);
    }
    .data_kept : { data_kept = .; }
    . = memory_begin;
    .stack (NOLOAD) : {
        stack_bottom = .;
        . += stack_size;
        stack_top = .;
    }
    .data : AT(ADDR(.data_kept)) {
        data_begin = .;
        *(.data .data.* .sdata .sdata.*)
        . = ALIGN(4);
        data_end = .;
    }
    .bss (NOLOAD) : {
        bss_begin = .;
        *(.bss .bss.* .sbss .sbss.* COMMON)
        . = ALIGN(4);
        bss_end = .;
    }
    /DISCARD/ : { *(.ARM.exidx*) *(.ARM.extab*) *(.eh_frame*) *(.comment) *(.note*) *(.riscv.attributes) *(.ARM.attributes) }
}
