/* Where things stand in the memory of the emulator's board mps2-an386, a Cortex-M4. */
MEMORY
{
    flash (rx) : ORIGIN = 0x00000000, LENGTH = 4M
    ram (rwx) : ORIGIN = 0x20000000, LENGTH = 4M
}
ENTRY(reset)
SECTIONS
{
    .text : { KEEP(*(.vectors)) *(.text*) *(.rodata*) . = ALIGN(8); } > flash
    .ARM.exidx : { *(.ARM.exidx*) . = ALIGN(8); } > flash
    .data : { data_start = .; *(.data*) . = ALIGN(8); data_end = .; } > ram AT > flash
    data_kept = LOADADDR(.data);
    .bss : { bss_start = .; *(.bss*) *(COMMON) . = ALIGN(8); bss_end = .; } > ram
    end = .;
    top_of_stack = ORIGIN(ram) + LENGTH(ram);
}
