/* A static program from 0x10000 in two segments: read-only code and constants, and from the next
   page of 4,096 bytes on its writable data. Where a program has no data, there is one segment. */
OUTPUT_ARCH(riscv)
ENTRY(_start)

SECTIONS
{
    . = 0x10000 + SIZEOF_HEADERS;
    .text : { *(.text.start) *(.text .text.*) }
    .rodata : { *(.rodata .rodata.* .srodata .srodata.*) }

    /* The same place in the next page: the file needs no gap, and no word is in both segments. */
    . = ALIGN(0x1000) + (. & 0xfff);
    . = ALIGN(16);
    .data : { *(.data .data.*) }

    /* Variables of the one thread, used in place. The linker reckons with .tbss as taking no space. */
    .tdata : { *(.tdata .tdata.*) }
    .tbss : { *(.tbss .tbss.*) }
    PROVIDE(thread_variables = SIZEOF(.tdata) ? ADDR(.tdata) : ADDR(.tbss));
    . += SIZEOF(.tbss);

    __global_pointer$ = . + 0x800;
    .sdata : { *(.sdata .sdata.*) }
    .bss : { *(.sbss .sbss.* .bss .bss.* COMMON) . = ALIGN(4); }

    /DISCARD/ : { *(.comment) *(.note .note.*) *(.eh_frame) *(.riscv.attributes) }
}
