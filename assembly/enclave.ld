/* Links a program for an enclave: each section begins a new page, the first at 0x10000000, or at what `--defsym=enclave_base=N` says
   before `-T`. tools/image links sources and objects by it, and takes what ld or gcc linked by it, as docs/TOOLS.md shows. */
SECTIONS {
  . = DEFINED(enclave_base) ? enclave_base : 0x10000000;
  .text : { *(.text .text.*) } =0
  . = ALIGN(4096);
  .rodata : { *(.rodata .rodata.*) }
  . = ALIGN(4096);
  .data : { *(.data .data.*) }
  . = ALIGN(4096);
  .bss : { *(.bss .bss.*) *(COMMON) }
  /DISCARD/ : { *(.note.*) *(.comment) *(.eh_frame*) }
}
