/* The board mps2-an386 as qemu has it: 4 MB of code at 0, 4 MB of RAM at 0x20000000. qemu loads each segment where it stands. */
MEMORY
{
    code (rx) : ORIGIN = 0x00000000, LENGTH = 4M
    ram (rwx) : ORIGIN = 0x20000000, LENGTH = 4M
}

ENTRY(reset)

SECTIONS
{
    .text : { KEEP(*(.vectors)) *(.text .text.*) KEEP(*(.init)) KEEP(*(.fini)) *(.rodata .rodata.*) . = ALIGN(8); } > code
    .ARM.extab : { *(.ARM.extab*) } > code
    .ARM.exidx : { __exidx_start = .; *(.ARM.exidx*) __exidx_end = .; } > code
    .init_array :
    {
        __preinit_array_start = .; KEEP(*(.preinit_array*)) __preinit_array_end = .;
        __init_array_start = .; KEEP(*(.init_array*)) __init_array_end = .;
        __fini_array_start = .; KEEP(*(.fini_array*)) __fini_array_end = .;
    } > code
    .data : { *(.data .data.*) . = ALIGN(8); } > ram
    .bss (NOLOAD) : { bss_start = .; *(.bss .bss.*) *(COMMON) . = ALIGN(8); bss_end = .; } > ram
    end = .;
    stack_bottom = ORIGIN(ram) + LENGTH(ram) - 256K;
    stack_top = ORIGIN(ram) + LENGTH(ram);
}
