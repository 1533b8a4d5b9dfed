# A system that runs a user program in pages that it translates as they are missed.
#
# The system runs in address space 0, in the area that is mapped at the start. The user program runs as
# process 5 in space 1, where nothing is mapped: its code at 0x10000000 and its data at 0x20000000 both lie
# in the first 64 KiB of memory.

start:  li      3, miss             # handlers: TLB errors of loads and stores, of fetches, and system calls
        mtspr   413, 3              # IVOR13
        mtspr   414, 3              # IVOR14
        li      3, call
        mtspr   408, 3              # IVOR8
        li      3, 0x100            # what a miss takes: TLB0, pages of 4 KiB
        mtspr   628, 3              # MAS4
        li      3, 5
        mtspr   48, 3               # PID
        lis     3, 0x1000           # to the user program at its own address
        ori     3, 3, user
        mtspr   26, 3               # SRR0
        li      3, 0x4030           # user mode, both address spaces 1
        mtspr   27, 3               # SRR1
        rfi

# The MAS registers say which page is missing, for whom, and which way of TLB0 is next.
        .balign 16
miss:   mtspr   272, 10             # SPRG0 keeps r10
        mfspr   10, 626             # MAS2: the page
        rlwinm  10, 10, 0, 16, 19   # it lies where its low 16 bits say,
        ori     10, 10, 0x3F        # and all may do everything there
        mtspr   627, 10             # MAS3
        tlbwe
        mfspr   10, 272
        rfi

# Sends (r4) bytes of r5 for a user program.
        .balign 16
call:   lis     11, 1               # the token of send
        ori     11, 11, 1
        li      3, 1                # on handle 1
        sc      1
        rfi

user:   lis     6, 0x2000           # in a page of data
        ori     6, 6, text
        lwz     5, 0(6)
        li      4, 2                # two bytes
        sc
        b       .

text:   .ascii  "Hi\0\0"
