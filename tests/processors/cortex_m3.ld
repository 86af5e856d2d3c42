/* A microcontroller's memory: code and constants in flash, all else in so many bytes from `ram` on (both given to the linker), the stack at their end. */
MEMORY
{
    FLASH (rx) : ORIGIN = 0, LENGTH = 256K
    RAM (rwx) : ORIGIN = ram, LENGTH = ram_bytes
}
ENTRY(reset)
SECTIONS
{
    .text : { KEEP(*(.vectors)) *(.text*) *(.rodata*) } > FLASH
    .ARM.exidx : { *(.ARM.exidx*) } > FLASH
    data_from = LOADADDR(.data);
    .data : { data_start = .; *(.data*) . = ALIGN(4); data_end = .; } > RAM AT > FLASH
    .bss (NOLOAD) : { bss_start = .; *(.bss*) *(COMMON) . = ALIGN(8); bss_end = .; end = .; } > RAM AT > RAM
    stack_top = ORIGIN(RAM) + LENGTH(RAM);
}
