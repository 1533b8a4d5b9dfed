/* One segment: the text at the front of it, and room behind, which no byte of the file fills. */
OUTPUT_ARCH(powerpc)
ENTRY(start)
PHDRS { image PT_LOAD; }
SECTIONS
{
    . = 0xC0000000;
    .text : AT(0) { *(.text) } :image
    .bss : { *(.bss) } :image
    /DISCARD/ : { *(*) }
}
