# Gives a worker each letter that is typed at its console, and says there what the worker makes of it. The worker rings when it
# has answered. Where it doesn't ring in time, it is stopped, the console is told what it noted last, and it begins anew.
#
# Handle 1 is the channel to the worker, handle 2 the one to the console, handle 3 the doorbell that the worker rings, with the
# interrupt 4, and handle 4 manages the worker. Interrupts stay disabled: a wait ends where one is pending, and the next
# instruction is done.

        .equ    note, 0x100         # where the worker keeps its note, in its own memory

start:  lis     4, 0x0400
        mtspr   340, 4              # TCR[DIE]: the decrementer's interrupt ends a wait
        lis     11, 1               # interrupt set mask
        ori     11, 11, 6
        li      3, 4                # the doorbell's
        li      4, 0                # unmasked
        sc      1

ask:    lis     11, 1               # byte channel receive
        ori     11, 11, 2
        li      3, 2                # from the console,
        li      4, 1                # one byte, to r5
        sc      1
        cmpwi   4, 0
        beq     ask
        lis     11, 1               # byte channel send
        ori     11, 11, 1
        li      3, 1                # to the worker,
        li      4, 1                # that byte
        sc      1
        li      3, 60
        mtspr   22, 3               # DEC: so many steps
        lis     11, 1               # idle
        ori     11, 11, 16
        sc      1
        lis     11, 1               # interrupt acknowledge
        ori     11, 11, 9
        sc      1
        cmpwi   4, 4
        bne     late
        lis     11, 1               # end of interrupt
        ori     11, 11, 10
        li      3, 4
        sc      1
        lis     11, 1               # byte channel receive
        ori     11, 11, 2
        li      3, 1                # from the worker,
        li      4, 1                # one byte, to r5
        sc      1
        lis     11, 1               # byte channel send
        ori     11, 11, 1
        li      3, 2                # to the console,
        li      4, 1                # that byte
        sc      1
        b       ask

late:   lis     4, 0x0800
        mtspr   336, 4              # TSR[DIS]: the decrementer's interrupt isn't pending any more
        lis     11, 2               # stop
        ori     11, 11, 7
        li      3, 4
        sc      1
        lis     11, 2               # memcpy
        ori     11, 11, 8
        li      3, 4                # from the worker
        li      4, -1               # to this partition itself,
        li      5, list             # by this list
        li      6, 0
        li      7, 1                # of one entry
        sc      1
        lwz     5, copy(0)
        lis     11, 1               # byte channel send
        ori     11, 11, 1
        li      3, 2                # to the console,
        li      4, 4                # four bytes
        sc      1
        lis     11, 2               # start
        ori     11, 11, 6
        li      3, 4
        li      4, 0                # at its entry,
        li      5, 1                # with its memory loaded anew
        sc      1
        b       ask

        .balign 4
list:   .long   0, note             # source
        .long   0, copy             # target
        .long   0, 4                # size
        .long   0, 0                # reserved
copy:   .long   0
