/* The recorder's zeros: in one piece (base/own_zeros.h), small variables first, which share pages, and then tables
   (AS_TABLE in base/platform.h). */
SECTIONS
{
  .dynbss :
  {
    *own_zeros_begin.o(.dynbss)
    *(EXCLUDE_FILE(*own_zeros_end.o) .dynbss)
    *(.dynbss.table)
    *own_zeros_end.o(.dynbss)
  }
  .bss :
  {
    *own_zeros_begin.o(.bss)
    *(EXCLUDE_FILE(*own_zeros_end.o) .bss)
    *(.bss.table)
    *own_zeros_end.o(.bss)
  }
}
