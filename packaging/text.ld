/* All code in one section, with a name for its end, from which packaging/unwind counts. */
SECTIONS
{
  .text : { *(.text .text.*) ertime_end_of_text = .; }
}
