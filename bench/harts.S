# Harts that compute between their accesses. Each reads three words of the input: how often it goes
# around, how many loops of two quiet instructions it does each time before it loads and stores a
# word, and how many bytes its 256 words lie behind those of the hart before it: with 0 all harts go
# through the same words, and with 1,024 each goes through words of its own.
# bench/build.sh builds it.

    .option norelax             # gp isn't set here, so nothing may be found by it

    .text
    .globl  _start
_start:
    la      s0, words
    la      s1, own
    slli    t0, a0, 5
    add     s1, s1, t0          # s1: this hart's place for what it reads
    mv      s4, a0
    li      a0, 0
    mv      a1, s1
    li      a2, 12
    li      a7, 63              # read
    ecall
    lw      s2, 0(s1)           # s2: how often
    lw      s3, 4(s1)           # s3: how many loops
    lw      t0, 8(s1)
    mul     t0, t0, s4
    add     s0, s0, t0          # s0: the first of the words that it goes through
    beqz    s2, over

again:
    mv      t0, s3
    beqz    t0, access
quiet:
    addi    t0, t0, -1
    bnez    t0, quiet
access:
    slli    t1, s2, 2
    andi    t1, t1, 1020
    add     t1, t1, s0
    lw      t2, 0(t1)
    addi    t2, t2, 1
    sw      t2, 0(t1)
    addi    s2, s2, -1
    bnez    s2, again

over:
    li      a0, 0
    li      a7, 93              # exit: this hart is over
    ecall

    .bss
    .balign 32
own:
    .zero   512
words:
    .zero   16384
