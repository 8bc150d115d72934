# Where each hart begins: its number is in a0, the number of harts in a1, and sp is the end of its stack.
# Hart 0 sets the library up, calls `main` and ends the run by `exit`. Any other hart ends at once: this
# library is built for one hart.

    .section .text.start, "ax"
    .globl  _start
_start:
    bnez    a0, 2f
    .option push
    .option norelax             # gp can't be found by itself
    la      gp, __global_pointer$
    .option pop
    la      tp, __tdata_start   # thread-local variables, as errno, are found from here
    la      t0, __tbss_start    # memory begins as 0 here, but not on every board
    la      t1, __bss_end
1:  bgeu    t0, t1, 3f
    sw      zero, 0(t0)
    addi    t0, t0, 4
    j       1b
2:  li      a0, 0
    li      a7, 93              # exit: this hart is over
    ecall
3:  call    main
    call    exit
