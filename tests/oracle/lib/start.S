# Where harts begin: hart 0 to main(hart, harts), and so do the others. What main gives is the exit's code.
    .section .text.start, "ax"
    .globl  _start
    .type   _start, @function
_start:
    .option push
    .option norelax
    la      gp, __global_pointer$
    .option pop
    call    main
    li      a7, 93
    ecall
    .size   _start, .-_start

    .text
    .globl  raw_sum
    .type   raw_sum, @function
raw_sum:                        # no size; its loop jumps to its own first row
    beqz    a1, 1f
    addi    a1, a1, -1
    add     a0, a0, a1
    j       raw_sum
1:  ret

    .globl  sized_sum
    .type   sized_sum, @function
sized_sum:
    beqz    a1, 1f
    addi    a1, a1, -1
    add     a0, a0, a1
    j       sized_sum
1:  ret
    .size   sized_sum, .-sized_sum

    .globl  raw_twice
    .type   raw_twice, @function
raw_twice:                      # ends with a tail call
    add     a0, a0, a0
    beqz    a1, 2f
    addi    a1, a1, -1
    j       raw_twice_tail
2:  ret
    .globl  raw_twice_tail
    .type   raw_twice_tail, @function
raw_twice_tail:
    addi    a0, a0, 1
    ret

    .globl  through
    .type   through, @function
through:                        # a tail call by a register: through(function, argument)
    mv      t1, a0
    mv      a0, a1
    jr      t1
    .size   through, .-through

    .globl  bounce
bounce:                         # a label without a type, which jumps to the function before it
    addi    a1, a1, 1
    j       through
