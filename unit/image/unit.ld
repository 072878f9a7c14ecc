/* The unit: 256 KB of flash and 32 KB of RAM. What is left of the RAM is the stack, from its end downwards. */
ENTRY(reset)
MEMORY {
    flash (rx) : ORIGIN = 0, LENGTH = 256K
    ram (rw) : ORIGIN = 0x20000000, LENGTH = 32K
}
SECTIONS {
    .text : { KEEP(*(.vectors)) *(.text .text.* .init .fini .rodata .rodata.*) . = ALIGN(4); } > flash
    .ARM.exidx : { *(.ARM.exidx .ARM.exidx.*) } > flash
    .data : ALIGN(4) { __data_start = .; *(.data .data.*) . = ALIGN(4); __data_end = .; } > ram AT > flash
    .bss : ALIGN(4) { __bss_start = .; *(.bss .bss.* COMMON) . = ALIGN(4); __bss_end = .; } > ram
    __data_load = LOADADDR(.data);
    __ram_end = ORIGIN(ram) + LENGTH(ram);
    __flash_end = ORIGIN(flash) + LENGTH(flash);
    end = __bss_end; /* newlib's heap begins there */
}
