/* A static program from 0x10000 for picolibc: read-only code and constants, and from the next page of 4,096 bytes
   on its writable data. The heap begins after it, and ends where the stacks of eight harts may begin in the 1 MiB
   that `record` gives a program without --memory. */
OUTPUT_ARCH(riscv)
ENTRY(_start)

SECTIONS
{
    . = 0x10000 + SIZEOF_HEADERS;
    .text : { *(.text.start) *(.text .text.*) }
    .rodata : { *(.rodata .rodata.* .srodata .srodata.*) }

    . = ALIGN(0x1000) + (. & 0xfff);
    . = ALIGN(16);
    .data : { *(.data .data.*) }
    __global_pointer$ = . + 0x800;
    .sdata : { *(.sdata .sdata.*) }
    . = ALIGN(16);
    .tdata : { __tdata_start = .; *(.tdata .tdata.*) . = ALIGN(16); }
    /* Thread-local variables that begin as 0. The linker gives .tbss no room of its own, so .bss begins with as much. */
    .tbss : { __tbss_start = .; *(.tbss .tbss.*) . = ALIGN(4); }
    .bss : { . += SIZEOF(.tbss); *(.sbss .sbss.* .bss .bss.* COMMON) . = ALIGN(16); __bss_end = .; }
    __heap_start = .;
    __heap_end = 0x100000 - 8 * 65536;

    /DISCARD/ : { *(.comment) *(.note .note.*) *(.eh_frame) *(.riscv.attributes) }
}
