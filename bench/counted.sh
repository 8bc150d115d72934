#!/usr/bin/env bash
# Counts what commands cost in instructions of the processor, by callgrind: other work doesn't change them, so a machine
# with the same C library repeats them. Harts in threads take turns by the system's choice, so theirs vary a little.
#
# bench/counted.sh PROGRAM..: takes some three minutes for each program. If ZELKUMA_GUESTS is a folder of bench/guests.sh,
# the first 6 million instructions of bzip2 and TinyScheme are counted, too.
set -eu
top=$(cd "$(dirname "$0")/.." && pwd)
work=$(mktemp -d)
trap 'rm -rf "$work"' EXIT
. "$top/bench/harts.sh"
[ $# -gt 0 ] || { echo "bench/counted.sh: it takes the programs whose commands are counted" >&2 && exit 2; }

# Prints the instructions of a command, which leaves its text in out.
count() { # WORD..
    valgrind --tool=callgrind --callgrind-out-file=/dev/null "$program" "$@" >"$work/out" 2>"$work/err" || [ $? -le 11 ]
    sed -n 's/^==[0-9]*== Collected : //p' "$work/err"
}

turns() { sed -n 's/^bugnet: turns \([0-9]*\).*/\1/p' "$work/err"; }

tell() { # WHAT COUNT PARTS UNIT [BESIDE]
    awk -v what="$1" -v count="$2" -v parts="$3" -v unit="$4" -v beside="${5-}" 'BEGIN {
        printf "%s: %.0f %s", what, count / parts, unit
        if (beside) printf ", %.3f of the line before", count / parts / beside
        print ""
    }'
}

for program; do
    echo "$program"
    first=$(count record --seed 1 "$top/examples/sort.elf" "$work/LOG" "$work/BOOK")
    taken=$(turns)
    tell "record, sort" "$first" "$taken" "a turn"
    audit=$(count audit "$work/LOG" "$top/examples/sort.elf" "$work/BOOK")
    tell "audit of it" "$audit" "$taken" "a turn" "$((first / taken))"
    for name in bzip2 tinyscheme; do
        guest=${ZELKUMA_GUESTS-}/$name
        [ -e "$guest.elf" ] || continue
        first=$(count record --seed 1 --memory 4194304 --limit 6000000 --input "$guest.input" "$guest.elf" "$work/LOG" "$work/BOOK")
        tell "record, $name" "$first" "$(turns)" "a turn"
    done
    second=$(count record --seed 1 --format 2 "$top/examples/sort.elf" "$work/LOG" "$work/BOOK")
    tell "record in format 2" "$second" "$(turns)" "a turn"
    "$program" record --seed 1 --limit 1000000 --interval 1000000 --log-size 16777216 "$top/examples/sort.elf" "$work/LOG" "$work/BOOK" 2>/dev/null || true
    replay=$(count replay "$work/LOG" "$top/examples/sort.elf" 0 0)
    tell "replay of its first million rows" "$replay" "$(wc -l <"$work/out")" "a row"
    joint=$(count joint "$work/LOG" "$top/examples/sort.elf")
    tell "joint of them" "$joint" "$(wc -l <"$work/out")" "a row"
    harts_input 8 12500 0 0 >"$work/input"
    harts=$(count record --seed 1 --format 2 --harts 8 --input "$work/input" "$top/bench/harts.elf" "$work/LOG" "$work/BOOK")
    tell "record, eight harts on the same words" "$harts" "$(turns)" "a turn"
    harts_input 4 12500 0 0 >"$work/input"
    harts=$(count record --seed 1 --format 2 --harts 4 --input "$work/input" "$top/bench/harts.elf" "$work/LOG" "$work/BOOK")
    tell "record, four harts on the same words" "$harts" "$(turns)" "a turn"
    each=$((harts / $(turns)))
    harts=$(count record --format 2 --harts 4 --input "$work/input" "$top/bench/harts.elf" "$work/LOG" "$work/BOOK")
    tell "the same in threads" "$harts" "$(turns)" "a turn" "$each"
done
