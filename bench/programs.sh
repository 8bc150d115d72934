#!/usr/bin/env bash
# Times the whole program, beside what is like it. It prints ratios; the times beside them are those of the machine and
# of the moment.
#
# - a demonstration, beside its parts by single commands
# - the reading of a full log of 64 MiB, with the memory that it takes, beside sha256sum on the same log
# - the memory of the list of turns
# - harts in threads beside harts by a seed, by the clock
# - the joint replay beside single replays of the same intervals, the race report beside the joint replay, and a slice
#   beside a replay
# - a replay and a joint replay into a pipe
# - how far back a log of 1 MiB reaches in each example
# - six programs beside qemu-riscv32, one instruction at a time: sort, and the five of bench/guests.sh
#
# bench/programs.sh [RUNS]: each is run RUNS times (3), and the least processor time counts. ZELKUMA_GUESTS is a folder
# of bench/guests.sh (else the programs are built), and ZELKUMA_THREAD_TURNS the turns of a long recording of harts in
# threads (100000000), which is made once.
set -eu
top=$(cd "$(dirname "$0")/.." && pwd)
work=$(mktemp -d)
trap 'rm -rf "$work"' EXIT
. "$top/bench/harts.sh"
runs=${1:-3}
elf=$top/examples/sort.elf
[ -x /usr/bin/time ] || { echo "bench/programs.sh: /usr/bin/time (Debian's time) isn't installed" >&2 && exit 1; }
zelkuma=${ZELKUMA_PROGRAM:-$("$top/zelkuma" build)} # the program itself

# seconds STATUS WORD..: runs the words, which have to end with this status, and prints the least
# processor time of all the runs. What they write to err last is in $work/err.
seconds() { timed '%U %S' "$@"; }

# The same by the clock.
elapsed() { timed '%R' "$@"; }

timed() { # WHICH STATUS WORD..
    local run which=$1 wanted=$2
    shift 2
    : >"$work/times"
    for run in $(seq "$runs"); do
        once "$which" "$wanted" "$work/times" "$@"
    done
    least "$work/times"
}

# Runs the words, which have to end with this status, and adds their time to TIMES. What they write goes to $into.
once() { # WHICH STATUS TIMES WORD..
    local which=$1 wanted=$2 times=$3 status=0
    shift 3
    { TIMEFORMAT=$which; time "$@" >"$into" 2>"$work/err"; } 2>>"$times" || status=$?
    if [ "$status" -ne "$wanted" ]; then
        echo "'$*' ended with $status, and not with $wanted:" >&2
        cat "$work/err" >&2
        exit 1
    fi
}
into=/dev/null

least() { # TIMES
    awk '{ s = $1 + $2; if (NR == 1 || s < least) least = s }
        END { print least < 0.001 ? 0.001 : least }' "$1"
}

# The least processor time of the words alone, with what they write going into a pipe.
piped() { # WORD..
    local run
    : >"$work/times"
    for run in $(seq "$runs"); do
        into=/dev/stdout once '%U %S' 0 "$work/times" "$@" | cat >/dev/null
        [ "${PIPESTATUS[0]}" -eq 0 ] || exit 1
    done
    least "$work/times"
}

# The number after a word of the summary that was last on err.
told() { sed -n "s/^bugnet: .*$1 \([0-9]*\).*/\1/p" "$work/err"; }

peak() { # WORD..: the most memory that they took, in KiB; a recording may end with the limit's 11
    local status=0
    /usr/bin/time -f %M -o "$work/peak" "$@" >/dev/null 2>"$work/err" || status=$?
    if [ "$status" -ne 0 ] && [ "$status" -ne 11 ]; then
        cat "$work/err" >&2
        exit 1
    fi
    tail -1 "$work/peak"
}

# rate WHAT COUNT UNIT SECONDS, then pairs of OTHER OTHER_SECONDS: how many a second, and beside
# the others how many times their speed.
rate() {
    awk 'BEGIN {
        printf "%s: %.0f %s in %.3f seconds", ARGV[1], ARGV[2], ARGV[3], ARGV[4]
        printf ", %.0f a second", ARGV[2] / ARGV[4]
        for (i = 5; i + 1 < ARGC; i += 2) printf ", %.3g of %s", ARGV[i + 1] / ARGV[4], ARGV[i]
        printf "\n"
    }' "$@"
}

# A demonstration, beside the same by single commands: the recording, the reading of the log, the replay
# of each interval that it keeps, and the joint replay.
python3 "$top/bench/guest.py" 7 >"$work/guest.elf"
apart=$(seconds 11 "$zelkuma" record --seed 7 --harts 4 --interval 10000 --limit 200000 \
    --sets 16 --ways 2 --line 4 "$work/guest.elf" "$work/LOG" "$work/BOOK")
all=$(told instructions)
"$zelkuma" list "$work/LOG" >"$work/list"
apart="$apart $(seconds 0 "$zelkuma" check "$work/LOG")"
while read -r hart interval _; do
    apart="$apart $(seconds 0 "$zelkuma" replay "$work/LOG" "$work/guest.elf" "$hart" "$interval")"
done <"$work/list"
apart="$apart $(seconds 0 "$zelkuma" joint "$work/LOG" "$work/guest.elf")"
apart=$(awk -v RS=' ' '{ sum += $1 } END { print sum }' <<<"$apart")
shown=$(seconds 0 "$zelkuma" demo 7)
rate demo "$all" instructions "$shown" "single commands" "$apart"

# A full log: intervals of 20 instructions make more than 64 MiB of Headers, Ends and FirstLoads.
runs=1 seconds 0 "$zelkuma" record --seed 1 --interval 20 --log-size 67108864 \
    --sets 1 --ways 1 --line 1 "$elf" "$work/LOG" "$work/BOOK" >/dev/null
if [ "$(told dropped)" -eq 0 ]; then
    echo "the log is not full" >&2
    exit 1
fi
kept=$(told kept)
digested=$(seconds 0 sha256sum "$work/LOG")
checked=$(seconds 0 "$zelkuma" check "$work/LOG")
listed=$(seconds 0 "$zelkuma" list "$work/LOG")
rate check "$kept" bytes "$checked" sha256sum "$digested"
rate list "$kept" bytes "$listed" "check" "$checked"
for command in check list; do
    most=$(peak "$zelkuma" "$command" "$work/LOG")
    awk -v what="$command" -v most="$most" -v bytes="$(stat -c %s "$work/LOG")" \
        'BEGIN { printf "%s: %.2f bytes of memory at the peak for a byte of log\n", what, most * 1024 / bytes }'
done

# What a turn takes is the difference between a recording and one of half as many instructions. Both fill their logs, which are
# of one size then.
record=(record --seed 1 --interval 1000000)
most=$(peak "$zelkuma" "${record[@]}" "$elf" "$work/LOG" "$work/BOOK")
instructions=$(told instructions)
turns=$(told turns)
"$zelkuma" list "$work/LOG" >"$work/list"
# The sort ends with its checksum as its code, and a process has the lower 8 bits of that.
code=$((16#$(awk '$5 == "exit" { print $6 }' "$work/list") % 256))
less=$(peak "$zelkuma" "${record[@]}" --limit $((instructions / 2)) "$elf" "$work/LOG" "$work/BOOK")
fewer=$(told turns)
awk -v most="$most" -v less="$less" -v turns="$turns" -v fewer="$fewer" 'BEGIN {
    printf "list of turns: %.1f bytes a turn", (most - less) * 1024 / (turns - fewer)
    printf ", %d KiB at the peak of %d turns, %d KiB of %d\n", most, turns, less, fewer
}'

# harts COUNT TIMES LOOPS [APART]: sets `harts` to the words that record COUNT harts of bench/harts.elf. Each does TIMES
# loads and stores, with LOOPS loops of two instructions before each, on the same words or APART bytes apart.
harts() {
    harts_input "$1" "$2" "$3" "${4:-0}" >"$work/input"
    harts=(record --harts "$1" --input "$work/input")
}

# Harts in threads beside the same harts by a seed, by the clock: WHAT TIMES LOOPS.
threads() {
    local what=$1 seeded threaded lean
    harts 4 "$2" "$3"
    seeded=$(elapsed 0 "$zelkuma" "${harts[@]}" --seed 1 "$top/bench/harts.elf" "$work/LOG" "$work/BOOK")
    threaded=$(elapsed 0 "$zelkuma" "${harts[@]}" "$top/bench/harts.elf" "$work/LOG" "$work/BOOK")
    lean=$(elapsed 0 "$zelkuma" "${harts[@]}" --lean "$top/bench/harts.elf" "$work/LOG" -)
    awk -v what="$what" -v turns="$(told turns)" -v n="$(told instructions)" -v s="$seeded" -v t="$threaded" -v l="$lean" 'BEGIN {
        printf "4 harts, %s, %d instructions in %d turns, by the clock: %.3f seconds with a seed", what, n, turns, s
        printf ", in threads %.2f of that, with --lean %.2f\n", t / s, l / s
    }'
}
threads "40,000 quiet instructions before each access" 1000 20000
threads "fighting at each access" 100000 0

# What a turn of harts in threads takes, as above.
for lean in "" --lean; do
    harts 4 100000 0
    most=$(peak "$zelkuma" "${harts[@]}" $lean "$top/bench/harts.elf" "$work/LOG" "$work/BOOK")
    turns=$(told turns)
    harts 4 50000 0
    less=$(peak "$zelkuma" "${harts[@]}" $lean "$top/bench/harts.elf" "$work/LOG" "$work/BOOK")
    awk -v how="${lean:+, $lean}" -v most="$most" -v less="$less" -v turns="$turns" -v fewer="$(told turns)" 'BEGIN {
        printf "harts in threads%s: %.1f bytes a turn, %d KiB at the peak of %d turns\n",
            how, (most - less) * 1024 / (turns - fewer), most, turns
    }'
done

# A long recording of harts in threads, made once, and with 2 GB of address space so that it can't take the machine's.
long=${ZELKUMA_THREAD_TURNS:-100000000}
harts 4 $((long / 8)) 0
if most=$(ulimit -v 2000000 && peak "$zelkuma" "${harts[@]}" "$top/bench/harts.elf" "$work/LOG" "$work/BOOK"); then
    awk -v most="$most" -v turns="$(told turns)" 'BEGIN {
        printf "harts in threads, %d turns: %.0f MB at the peak\n", turns, most * 1024 / 1e6
    }'
else
    echo "harts in threads, $long turns: not recorded in 2 GB"
fi

# The joint replay of so many harts, 800,000 instructions together, beside single replays of all their intervals.
joint() { # HARTS
    local hart interval alone=0 rows joined one
    harts "$1" $((800000 / $1 / 18)) 4
    "$zelkuma" "${harts[@]}" --seed 1 --log-size 67108864 "$top/bench/harts.elf" "$work/LOG" "$work/BOOK" 2>/dev/null
    "$zelkuma" list "$work/LOG" >"$work/list"
    while read -r hart interval _; do
        one=$(seconds 0 "$zelkuma" replay "$work/LOG" "$top/bench/harts.elf" "$hart" "$interval")
        alone=$(awk -v a="$alone" -v b="$one" 'BEGIN { print a + b }')
    done <"$work/list"
    joined=$(seconds 0 "$zelkuma" joint "$work/LOG" "$top/bench/harts.elf")
    rows=$("$zelkuma" joint "$work/LOG" "$top/bench/harts.elf" | grep -c '^[0-9]')
    rate "joint, $1 harts" "$rows" rows "$joined" "single replays" "$alone"
}
for count in 1 2 4 8; do
    joint "$count"
done

# Ways back in a session, after all steps of four harts, a million instructions together: how long one takes, beside
# 65,536 of the steps. Each is done so many times, since one is soon done.
harts 4 $((1000000 / 4 / 18)) 4
"$zelkuma" "${harts[@]}" --seed 1 --log-size 67108864 "$top/bench/harts.elf" "$work/LOG" "$work/BOOK" 2>/dev/null
session() { printf '%s\n' "$@" | "$zelkuma" debug "$work/LOG" "$top/bench/harts.elf"; }
steps=$(($(session go "back 1" | sed -n 's/^at //p') + 1))
gone=$(seconds 0 session go)
back() { # TIMES WORD..
    local n=$1 all=()
    shift
    for _ in $(seq "$n"); do
        all+=("$@")
    done
    awk -v what="${*: -1}" -v n="$n" -v steps="$steps" -v g="$gone" -v s="$(seconds 0 session go "${all[@]}")" 'BEGIN {
        one = (s - g) / n
        printf "debug, %s after %d steps in %.3f seconds: %.4f seconds, %.2f of 65,536 steps\n", what, steps, g, one, one / (g * 65536 / steps)
    }'
}
back 40 "back 1"
back 8 "back 100000"
back 1 "break 10054" rgo

# The race report of four harts, 800,000 instructions together, beside their joint replay: each on words of its
# own, which has no race, and all on the same words.
races() { # WHAT APART STATUS
    local joined reported
    harts 4 $((800000 / 4 / 18)) 4 "$2"
    "$zelkuma" "${harts[@]}" --seed 1 --log-size 67108864 "$top/bench/harts.elf" "$work/LOG" "$work/BOOK" 2>/dev/null
    joined=$(seconds 0 "$zelkuma" joint "$work/LOG" "$top/bench/harts.elf")
    reported=$(seconds "$3" "$zelkuma" races "$work/LOG" "$top/bench/harts.elf" 1000000)
    rate "races, $1" "$("$zelkuma" joint "$work/LOG" "$top/bench/harts.elf" | grep -c '^[0-9]')" rows "$reported" \
        "the joint replay" "$joined"
}
races "4 harts on words of their own, none" 1024 0
races "4 harts on the same words, more than 1,000,000" 0 20

# The slice of the last row of an interval of a million rows, beside the interval's replay with its text, and what
# memory it takes beyond that of the replay.
"$zelkuma" "${record[@]}" --log-size 67108864 "$elf" "$work/LOG" "$work/BOOK" 2>/dev/null
read -r hart interval rows last < <("$zelkuma" list "$work/LOG" | awk '
    { n = $4 - $3; if (n > most) { most = n; which = $1 " " $2; last = $4 - 1 } }
    END { print which, most, last }')
sliced=$(seconds 0 "$zelkuma" slice "$work/LOG" "$elf" "$hart" "$interval" "$last")
replayed=$(seconds 0 "$zelkuma" replay "$work/LOG" "$elf" "$hart" "$interval")
rate slice "$rows" rows "$sliced" "the replay with its text" "$replayed"
awk -v most="$(peak "$zelkuma" slice "$work/LOG" "$elf" "$hart" "$interval" "$last")" \
    -v less="$(peak "$zelkuma" replay "$work/LOG" "$elf" "$hart" "$interval")" -v rows="$rows" \
    'BEGIN { printf "  %.1f bytes of memory a row beyond those of the replay\n", (most - less) * 1024 / rows }'

# The text of that replay, and that of a joint replay of one hart, into a pipe.
rate "replay into a pipe" "$rows" rows "$(piped "$zelkuma" replay "$work/LOG" "$elf" "$hart" "$interval")"
harts 1 $((2000000 / 18)) 4
"$zelkuma" "${harts[@]}" --seed 1 --log-size 67108864 "$top/bench/harts.elf" "$work/LOG" "$work/BOOK" 2>/dev/null
rows=$("$zelkuma" joint "$work/LOG" "$top/bench/harts.elf" | grep -c '^[0-9]')
rate "joint, 1 hart, into a pipe" "$rows" rows "$(piped "$zelkuma" joint "$work/LOG" "$top/bench/harts.elf")"

# How many of an example's instructions go into 1 MiB of records, by those of the whole run.
reach() { # NAME WORD..
    local name=$1 status=0
    shift
    "$zelkuma" record --seed 1 --log-size 268435456 "$@" "$top/examples/$name.elf" "$work/LOG" "$work/BOOK" \
        >/dev/null 2>"$work/err" || status=$?
    if [ "$status" -ne 0 ] && [ "$status" -ne 10 ]; then
        cat "$work/err" >&2
        exit 1
    fi
    awk -v what="$name $*" -v n="$(told instructions)" -v kept="$(told kept)" -v turns="$(told turns)" 'BEGIN {
        printf "%s: 1 MiB of log holds %.0f instructions (%.2f bytes an instruction, %.2f turns an instruction)\n",
            what, n / kept * 1048576, kept / n, turns / n
    }'
}
reach sort
reach wild_store
reach word_count --input "$top/LICENSE"
reach counter --harts 2
reach counter --harts 8
reach lock --harts 2

# A program's recordings with both formats and the audit beside the emulator, in turns. Emulator and recording have to
# write the same. INPUT is a file, CODE what the program ends with in the emulator, and WORD.. options of `record`.
beside_emulator() { # NAME ELF INPUT CODE WORD..
    local name=$1 elf=$2 input=$3 code=$4 run
    shift 4
    local words=(record --seed 1 "$@" --input "$input")
    rm -f "$work"/beside.*
    for run in $(seq "$runs"); do
        into=$work/emulated once '%U %S' "$code" "$work/beside.emulator" qemu-riscv32 "$single" "$elf" <"$input"
        once '%U %S' 0 "$work/beside.2" "$zelkuma" "${words[@]}" --format 2 "$elf" "$work/LOG" "$work/BOOK"
        into=$work/recorded once '%U %S' 0 "$work/beside.1" "$zelkuma" "${words[@]}" "$elf" "$work/LOG" "$work/BOOK"
        instructions=$(told instructions)
        once '%U %S' 0 "$work/beside.audit" "$zelkuma" audit --input "$input" "$work/LOG" "$elf" "$work/BOOK"
    done
    cmp "$work/emulated" "$work/recorded"
    awk -v name="$name" -v n="$instructions" -v how="$single" -v emulated="$(least "$work/beside.emulator")" \
        -v one="$(least "$work/beside.1")" -v two="$(least "$work/beside.2")" -v audit="$(least "$work/beside.audit")" 'BEGIN {
        printf "%s: %d instructions recorded in %.3f seconds, %.2f of the speed of qemu-riscv32 %s (%.3f)", name, n, one, emulated / one, how, emulated
        printf "; format 2 in %.3f of the time; audit in %.2f of it\n", two / one, audit / one
    }'
}

if command -v qemu-riscv32 >/dev/null; then
    single=-singlestep
    ! qemu-riscv32 -help | grep -q one-insn-per-tb || single=-one-insn-per-tb
    guests=${ZELKUMA_GUESTS:-$work/guests}
    [ -e "$guests/SOURCES" ] || "$top/bench/guests.sh" "$guests" >/dev/null
    cat "$guests/SOURCES"
    : >"$work/none"
    beside_emulator sort "$elf" "$work/none" "$code"
    for name in bzip2 mujs tinyscheme lua sqlite; do
        [ ! -e "$guests/$name.elf" ] ||
            beside_emulator "$name" "$guests/$name.elf" "$guests/$name.input" 0 --memory 4194304
    done
else
    echo "qemu-riscv32 (Debian's qemu-user) is not installed: nothing stands beside the recording"
fi
