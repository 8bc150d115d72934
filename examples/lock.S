# A spin lock of LR and SC in pure assembly. Each hart takes the lock ROUNDS times, and under it
# adds 1 to a counter by a plain load and store; no count is lost. Hart 0 waits until all are done
# and ends with the counter as its code, ROUNDS times the number of harts; the others end with 0.

    .equ    ROUNDS, 100
    .option norelax             # gp isn't set here, so nothing may be found by it

    .text
    .globl  _start
_start:
    la      s0, lock            # s0: the lock, behind it the counter and how many are done
    li      s1, ROUNDS
    li      s2, 1

next_round:
    lr.w.aq t0, (s0)
    bnez    t0, next_round      # another hart has it
    sc.w    t0, s2, (s0)
    bnez    t0, next_round      # another hart came between
    lw      t1, 4(s0)
    addi    t1, t1, 1
    sw      t1, 4(s0)
    amoswap.w.rl zero, zero, (s0)
    addi    s1, s1, -1
    bnez    s1, next_round

    addi    t2, s0, 8
    amoadd.w.rl zero, s2, (t2)
    bnez    a0, no_code
wait:
    lw      t3, 8(s0)
    bltu    t3, a1, wait
    fence   r, rw
    lw      a0, 4(s0)
    j       over
no_code:
    li      a0, 0
over:
    li      a7, 93              # exit: this hart is over
    ecall

    .bss
    .balign 32
lock:
    .zero   12
