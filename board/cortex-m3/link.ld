/* A Cortex-M3 as QEMU's mps2-an385 has it. */
MEMORY {
  FLASH (rx)  : ORIGIN = 0x00000000, LENGTH = 4M
  RAM   (rwx) : ORIGIN = 0x20000000, LENGTH = 4M
}
ENTRY(Reset_Handler)
SECTIONS {
  .text : { KEEP(*(.vectors)) *(.text*) *(.rodata*) . = ALIGN(8); } > FLASH
  .ARM.exidx : { *(.ARM.exidx*) } > FLASH
  board_data_from = LOADADDR(.data);
  .data : { board_data = .; *(.data*) . = ALIGN(4); board_data_end = .; } > RAM AT > FLASH
  .bss : { board_bss = .; *(.bss*) *(COMMON) . = ALIGN(8); board_bss_end = .; } > RAM
  end = .;
  board_stack_top = ORIGIN(RAM) + LENGTH(RAM);
  board_stack_painted = board_stack_top - 8192;
  board_paint_end = board_stack_top - 64;
}
