/* A C guest in its memory: code from address 1024 on, constants, data, heap; the stack below the top.
   sdk/cc gives __dc_memory, the memory's size in bytes. */
ENTRY(_start)
PHDRS
{
    code PT_LOAD FLAGS(5);
    data PT_LOAD FLAGS(6);
}
SECTIONS
{
    . = 1024;
    .text : { KEEP(*(.init)) *(.text .text.*) } :code
    .rodata : { *(.rodata .rodata.* .srodata .srodata.*) *(.eh_frame .eh_frame.*) } :code
    . = ALIGN(16);
    .data : { *(.data .data.*) . = ALIGN(8); __global_pointer$ = . + 0x800; *(.sdata .sdata.*) . = ALIGN(16); } :data

    /* The one thread's data stands where it is used: what has a first value, then the rest, for which .bss leaves room. */
    __thread_data = .;
    .tdata : { *(.tdata .tdata.*) . = ALIGN(16); } :data
    .tbss : { *(.tbss .tbss.* .tcommon) } :data
    .bss : { . += SIZEOF(.tbss); . = ALIGN(16); *(.sbss .sbss.*) *(.bss .bss.*) *(COMMON) . = ALIGN(16); } :data
    __heap_start = .;

    .constructors : { KEEP(*(.preinit_array* .init_array* .ctors*)) } :data
    ASSERT(SIZEOF(.constructors) == 0, "sdk: a function with the attribute constructor would not be called")
    ASSERT(__heap_start + 4096 <= __dc_memory, "sdk: the guest and 4,096 bytes of stack do not fit the memory: give more with --memory")
    /DISCARD/ : { *(.comment) *(.riscv.attributes) *(.note.*) *(.fini_array*) *(.dtors*) }
}
