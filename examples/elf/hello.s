# Sends "Hi" on handle 1 from an address of its own: the image lies at logical address 0, and is linked to run
# at 0xC0000000.

        .section .text
        .globl  start
start:  lis     11, 1               # the token of send
        ori     11, 11, 1
        li      3, 1                # on handle 1
        li      4, 2                # two bytes
        lis     5, 0x4869           # "Hi"
        .long   0x44000022          # sc 1, the hypercall
        b       .

        .section .bss
        .skip   36
