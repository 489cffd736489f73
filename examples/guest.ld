/* Lays a guest out: code at 0x401000, constants and variables behind it, each with rights of its own. */
ENTRY(_start)

PHDRS
{
  code PT_LOAD FLAGS(5);
  constants PT_LOAD FLAGS(4);
  variables PT_LOAD FLAGS(6);
}

SECTIONS
{
  . = 0x401000;
  .text : { *(.text .text.*) *(.stubs.*) } :code
  . = ALIGN(0x1000);
  .rodata : { *(.rodata .rodata.*) } :constants
  . = ALIGN(0x1000);
  .data : { *(.data .data.*) } :variables
  .bss : { *(.bss .bss.* COMMON) } :variables
  /DISCARD/ : { *(.comment) *(.note*) *(.eh_frame*) }
}
