# The program of bench/peer.sh: sorts, and then stores to an address that isn't mapped. With BARE it starts by itself on
# QEMU's board `virt`, where that store traps to a handler which ends the machine.
    .globl _start, crash
_start:
#ifdef BARE
    la sp, stack_end
    la t0, ended
    csrw mtvec, t0
#endif
    call sorted
crash:
    sw zero, 0(zero)
#ifdef BARE
    .balign 4
ended:
    li t0, 0x100000 # the board's test device
    li t1, 0x5555 # passed
    sw t1, 0(t0)
1:  j 1b
    .bss
    .balign 16
    .skip 65536
stack_end:
#endif
