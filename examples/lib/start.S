# Where each hart begins: its number is in a0, the number of harts in a1, and sp is the end of its
# stack. There are no words at sp: no argc, no arguments, no environment.
#
# Hart 0 calls `main` and every other hart `other_harts`, both with (number, harts); what they
# return is the code that the hart ends with. A program that has no `other_harts` is for one hart,
# and any others end at once.

    .section .text.start, "ax"
    .globl  _start
_start:
    .option push
    .option norelax             # gp can't be found by itself
    la      gp, __global_pointer$
    .option pop
    bnez    a0, 1f
    call    main
    j       2f
1:  call    other_harts
2:  li      a7, 93              # exit: this hart is over
    ecall

    .text
    .weak   other_harts
other_harts:
    li      a0, 0
    ret

# The assembler would name its own temporary object here, another one in each build. (This one is with_names.sh's.)
    .file   "start.o"
