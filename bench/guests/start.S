# Where a program that is built with picolibc begins: it is for one hart. sp is the end of the stack, and there are
# no arguments. The thread's own variables (errno) are used in place, since there is one thread.

    .section .text.start, "ax"
    .globl  _start
_start:
    .option push
    .option norelax             # gp can't be found by itself
    la      gp, __global_pointer$
    .option pop
    la      tp, thread_variables
    call    main
    tail    exit
