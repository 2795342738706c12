/* For bench/run under an emulator: the archive's functions with the loops over the words lie in one page of memory, and those over the nodes begin another. */
SECTIONS
{
  .text.scans : ALIGN(4096)
  {
    *(.text.scan_pass*)
    . = ALIGN(4096);
    *(.text.scan_rounds*)
  }
}
INSERT AFTER .text;
