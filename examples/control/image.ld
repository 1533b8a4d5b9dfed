/* One segment, at logical address 0, where the program is translated as it starts. */
OUTPUT_ARCH(powerpc)
PHDRS { image PT_LOAD; }
SECTIONS
{
    . = 0;
    .text : { *(.text) } :image
    /DISCARD/ : { *(*) }
}
