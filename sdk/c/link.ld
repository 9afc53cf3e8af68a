/* A program's pages: text from 0x10000 on, then its constants, then its data, each in
   pages of its own rights; the stack ends at __stack_top. All lie in the first 4 MiB,
   so one page table is enough. */
OUTPUT_ARCH(riscv)
ENTRY(_start)

PHDRS
{
    text PT_LOAD FLAGS(5);
    rodata PT_LOAD FLAGS(4);
    data PT_LOAD FLAGS(6);
    stack PT_LOAD FLAGS(6);
}

SECTIONS
{
    . = 0x10000;
    .text : { *(.text.start) *(.text .text.*) } :text
    . = ALIGN(4096);
    .rodata : { *(.rodata .rodata.* .srodata .srodata.*) } :rodata
    . = ALIGN(4096);
    /* ('. = .' keeps it, and so its pages' name, where it is empty) */
    .data : { . = .; *(.data .data.*) __global_pointer$ = . + 0x800; *(.sdata .sdata.*) } :data
    .bss (NOLOAD) : { *(.sbss .sbss.*) *(.bss .bss.* COMMON) } :data
    /* ld ... --defsym=__stack_size=8192 makes it greater */
    __stack_top = 0x80000;
    . = __stack_top - (DEFINED(__stack_size) ? __stack_size : 4096);
    .stack (NOLOAD) : { . = ABSOLUTE(__stack_top); } :stack
    /DISCARD/ : { *(.comment) *(.eh_frame .eh_frame.*) *(.note.*) }
}
