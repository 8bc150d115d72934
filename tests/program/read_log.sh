#!/usr/bin/env bash
# Compares what examples/read_log.py says of logs with what the program's `check` and `list` say:
# tests/program/read_log.sh PROGRAM LOG.. , or without logs of recordings that it makes of the examples.
. "$(dirname "$0")/../asserts.sh"
type -P python3 >/dev/null || end_skipped "python3 isn't here"
program=$(readlink -f "$1")
shift

# Records a program in both formats; those that leave a log are looked at.
records() { # NAME SEED ELF
    local format log
    for format in 1 2; do
        log=$work/$1.$2.$format
        "$program" record --format $format --seed "$2" --harts 2 --log-size 16384 --interval 500 --limit 20000 \
            "$3" "$log" "$work/book" >"$work/said" 2>&1
        [ -e "$log" ] && logs+=("$log")
    done
}

# lock.elf with `jal zero,2` at its entry, which is no multiple of 4: a fault that no other example has.
misaligned() {
    python3 -c '
import sys
elf = bytearray(open(sys.argv[1], "rb").read())
elf[0x74:0x78] = (0x0020006f).to_bytes(4, "little")
open(sys.argv[2], "wb").write(elf)' "$top/examples/lock.elf" "$work/misaligned.elf"
}

logs=("$@")
if [ $# = 0 ]; then
    for name in counter hand_over lock sort two_locks wild_store; do
        for seed in 1 2; do
            records $name $seed "$top/examples/$name.elf"
        done
    done
    what="a jump that is misaligned"
    misaligned
    records misaligned 1 "$work/misaligned.elf"
    "$program" list "$work/misaligned.1.1" | grep -q "TargetMisaligned" || fails "no jump was misaligned"
fi
for log in "${logs[@]}"; do
    what=${log##*/}
    "$program" check "$log" >"$work/program" 2>/dev/null && "$program" list "$log" >>"$work/program"
    python3 "$top/examples/read_log.py" "$log" >"$work/reader" 2>/dev/null
    equals "$work/program" "$work/reader"
done
echo "${#logs[@]} logs"
[ ${#logs[@]} -gt 0 ] || fails "there are no logs"
end
