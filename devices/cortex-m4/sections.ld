/* Where the parts of a program stand: what is constant in CODE; what is written, the heap and above it the stack in RAM.
   Included by handheld.ld and emulator.ld, which say where CODE and RAM are. */
ENTRY(reset)
SECTIONS
{
    .text : {
        KEEP(*(.vectors))
        *(.text*)
        *(.rodata*)
    } > CODE
    .ARM.extab : { *(.ARM.extab*) } > CODE
    .ARM.exidx : { __exidx_start = .; *(.ARM.exidx*) __exidx_end = .; } > CODE
    .fini_array : {
        PROVIDE_HIDDEN(__fini_array_start = .); KEEP(*(.fini_array*)) PROVIDE_HIDDEN(__fini_array_end = .);
    } > CODE
    .data : ALIGN(8) { data_begin = .; *(.data*) . = ALIGN(8); data_end = .; } > RAM AT > CODE
    data_kept = LOADADDR(.data);
    /* at its own place alone: else it would count as a part of what is loaded into CODE */
    .bss (NOLOAD) : ALIGN(8) { bss_begin = .; *(.bss*) *(COMMON) . = ALIGN(8); bss_end = .; } > RAM AT > RAM
    end = .;
    stack_top = ORIGIN(RAM) + LENGTH(RAM);
}
