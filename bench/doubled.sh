#!/usr/bin/env bash
# Counts the instructions of the processor that commands take over a log, and over one of twice the run: at most 2.2 times
# as many. So it sees a search that begins again at each step, which changes no answer: no clause speaks of that. Other
# work doesn't change the counts. The harts hand words around, so that nearly each access has an Edge.
#
# bench/doubled.sh PROGRAM: takes a minute, and valgrind. The status is 1 if a command takes more.
set -eu
top=$(cd "$(dirname "$0")/.." && pwd)
program=$(readlink -f "$1")
work=$(mktemp -d)
trap 'rm -rf "$work"' EXIT
. "$top/bench/harts.sh"
cd "$work"
cp "$top/bench/harts.elf" ELF

# Prints the instructions of a command, after its name. There are more races than it lists (20).
count() { # WORD..
    valgrind --tool=callgrind --callgrind-out-file=/dev/null "$program" "$@" >/dev/null 2>err || [ $? = 20 ]
    echo "$1 $(sed -n 's/^==[0-9]*== Collected : //p' err)"
}

# Prints those of each command over the log of so many rounds.
counts() { # ROUNDS
    harts_input 4 "$1" 0 0 >input
    "$program" record --seed 1 --format 2 --harts 4 --input input ELF LOG BOOK 2>err
    count joint LOG ELF
    count races LOG ELF 1000
    count list LOG
    count convert LOG NEW
    count audit LOG ELF BOOK --input input
}

counts 500 >once
counts 1000 >twice
paste -d ' ' once twice | awk '
    { print $1 ": " $2 ", of twice the run " $4 }
    $4 > 2.2 * $2 { print "bench/doubled.sh: failed: " $1; failed = 1 }
    END { exit failed || NR != 5 }'
