#!/usr/bin/env bash
# Times a turn of a recording by a seed: of one hart in runs of ever more turns, and of eight harts that all load and store the
# same words. With format 2 one of sixteen harts stands beside one of eight, each on words of its own. Of one hart's runs the
# most memory is printed too, beside the list of turns, which has a byte for each.
# With an earlier program beside it, each is timed with that too, in turns. It prints ratios; the times beside them are
# those of the machine and of the moment.
#
# bench/turns.sh [RUNS]: each is run RUNS times (3), and the least processor time counts. ZELKUMA_TURNS are the numbers
# of turns (1000000 10000000 100000000), ZELKUMA_BEFORE is the earlier program.
set -eu
top=$(cd "$(dirname "$0")/.." && pwd)
work=$(mktemp -d)
trap 'rm -rf "$work"' EXIT
. "$top/bench/harts.sh"
runs=${1:-3}
zelkuma=${ZELKUMA_PROGRAM:-$("$top/zelkuma" build)} # the program itself
before=${ZELKUMA_BEFORE:-}

# Records HARTS harts, each with TIMES loads and stores of words that lie so many bytes APART from those of the hart before
# it. It adds the processor time to the file of the name, and leaves turns and most memory (in KiB) beside it.
once() { # PROGRAM NAME HARTS TIMES APART OPTION..
    local program=$1 name=$2 count=$3
    harts_input "$count" "$4" 0 "$5" >"$work/input"
    /usr/bin/time -f '%U %S %M' -o "$work/time" "$program" record --seed 1 --harts "$count" --input "$work/input" \
        "${@:6}" "$top/bench/harts.elf" "$work/LOG" "$work/BOOK" >/dev/null 2>"$work/err"
    cat "$work/time" >>"$work/$name"
    sed -n 's/^bugnet: turns \([0-9]*\).*/\1/p' "$work/err" >"$work/$name.turns"
}

# A turn's nanoseconds, by the least time of all runs.
turn() { awk -v turns="$(cat "$work/$1.turns")" '{ s = $1 + $2; if (NR == 1 || s < least) least = s } END { print least * 1e9 / turns }' "$work/$1"; }
memory() { awk -v turns="$(cat "$work/$1.turns")" '{ if ($3 > most) most = $3 } END { printf "%d\n", most - turns / 1024 }' "$work/$1"; }

measured() { # NAME HARTS TIMES APART OPTION..
    local run
    for run in $(seq "$runs"); do
        once "$zelkuma" "$@"
        [ -z "$before" ] || once "$before" "$1.before" "${@:2}"
    done
}

beside() { # NAME: the end of its line
    [ -z "$before" ] || awk -v now="$(turn "$1")" -v then="$(turn "$1.before")" 'BEGIN { printf ", %.2f times as fast as before (%.0f)", then / now, then }'
}

first=
for turns in ${ZELKUMA_TURNS:-1000000 10000000 100000000}; do
    measured "$turns" 1 $((turns / 2)) 0
    first=${first:-$turns}
    awk -v turns="$(cat "$work/$turns.turns")" -v ns="$(turn "$turns")" -v one="$(turn "$first")" -v memory="$(memory "$turns")" \
        -v beside="$(beside "$turns")" 'BEGIN {
        printf "one hart, %d turns: %.0f ns a turn, %.2f of the first; %d KiB at the peak without the list of turns%s\n", turns, ns, ns / one, memory, beside
    }'
done

# Says what a turn takes beside one of OTHER.
tell() { # WHAT NAME OTHER OF_WHOM
    awk -v what="$1" -v turns="$(cat "$work/$2.turns")" -v ns="$(turn "$2")" -v one="$(turn "$3")" -v whose="$4" -v beside="$(beside "$2")" 'BEGIN {
        printf "%s, %d turns: %.0f ns a turn, %.2f of %s%s\n", what, turns, ns, ns / one, whose, beside
    }'
}
measured eight 8 125000 0
tell "eight harts on the same words" eight "$first" "one hart's"
own=(1024 --format 2 --memory 2097152)
measured own8 8 125000 "${own[@]}"
measured own16 16 62500 "${own[@]}"
tell "sixteen harts on words of their own, format 2" own16 own8 "eight harts'"
