/* An AVRxt chip with 16 KB of program and 2 KB of SRAM, as ATtiny1614. Nothing is initialised in data memory but by start.S, to zero. */
LOG_PLACE = 0x400;
REPORT_PLACE = 0x3800;
stack_top = 0x3FFF;

SECTIONS {
    .text 0 : { program_start = .; KEEP(*(.vectors)) *(.text .text.*) }
    .log LOG_PLACE : { KEEP(*(.progmem.*)) program_end = .; }
    .variables (0x800000 + REPORT_PLACE) (NOLOAD) : {
        variables_start = .;
        KEEP(*(.report)) KEEP(*(.timer)) *(.bss .bss.* COMMON)
        variables_end = .;
    }
    .none 0x900000 : { *(.data .data.* .rodata .rodata.*) }
    /DISCARD/ : { *(.comment) }
}
ASSERT(SIZEOF(.text) <= LOG_PLACE, "code reaches the log")
ASSERT(SIZEOF(.none) == 0, "constants in data memory")
