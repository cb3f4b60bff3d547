/* The code in pages that can be run and not written, constants in pages that can only be read, data in pages that can be
   written and not run. The addresses differ in their last digits so that the file is small: what is loaded stands in it at
   offsets with the same last three digits. */
ENTRY(_start)
PHDRS
{
  text PT_LOAD FLAGS(5);
  constants PT_LOAD FLAGS(4);
  data PT_LOAD FLAGS(6);
}
SECTIONS
{
  .text 0x10000 : { *(.text) } :text
  . = 0x20100;
  .rodata : { *(.rodata) } :constants
  . = 0x30200;
  .data : { *(.data) } :data
  .bss : { *(.bss) } :data
  /DISCARD/ : { *(.riscv.attributes) *(.comment) *(.note*) }
}
