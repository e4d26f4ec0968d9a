/* All of a program lies in one row of bytes from 0 on. */
ENTRY(_start)
SECTIONS
{
  . = 0;
  .all : { *(.start) *(.text*) *(.rodata*) *(.srodata*) *(.sdata*) *(.data*) *(.sbss*) *(.bss*) }
  /DISCARD/ : { *(.comment) *(.eh_frame*) *(.note*) *(.riscv.attributes) }
}
