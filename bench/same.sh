#!/usr/bin/env bash
# Whether two programs do the same: each example is recorded by both, for so many seeds, 1 to 16 harts and both
# formats. Their logs, lists of turns, out, err and status have to be equal byte for byte, and so have the answers
# of list, joint, audit and the replay of each hart's last interval. It prints what differs, and ends with 1 then.
#
# bench/same.sh OLD NEW [SEEDS]: the two programs (files), and how many seeds (20).
set -eu
top=$(cd "$(dirname "$0")/.." && pwd)
old=$(realpath "$1")
new=$(realpath "$2")
seeds=${3:-20}
work=$(mktemp -d)
trap 'rm -rf "$work"' EXIT
cd "$work"
differing=0
pairs=0

# both NAME WORD..: runs the words by both programs, each in a folder of its own, and compares what they print.
both() {
    local name=$1 side status
    shift
    for side in old new; do
        status=0
        (cd "$side" && exec "${!side}" "$@" >"$name.out" 2>"$name.err") || status=$?
        echo "$status" >"$side/$name.status"
    done
    alike "$name.out" "$name.err" "$name.status" || tell "$@"
    pairs=$((pairs + 1))
}

alike() { # FILE..
    local file
    for file in "$@"; do
        cmp -s "old/$file" "new/$file" || return
    done
}

tell() { # WORD..
    echo "differs: $*"
    differing=$((differing + 1))
}

# replays ELF: what the log in both folders holds, as all commands that read it tell it.
replays() {
    local hart interval
    both list list LOG
    both joint joint LOG "$1"
    both audit audit LOG "$1" BOOK
    awk '{ last[$1] = $2 } END { for (hart in last) print hart, last[hart] }' old/list.out >last
    while read -r hart interval; do
        both replay replay LOG "$1" "$hart" "$interval"
    done <last
}

record() { # ELF WORD..
    local elf=$1
    shift
    rm -rf old new
    mkdir old new
    both record record "$@" --limit 20000 "$elf" LOG BOOK
    # (a run out of range or refused leaves no files on either side)
    [ -e old/LOG ] || [ -e new/LOG ] || return 0
    alike LOG BOOK || tell record "$@" "$elf"
    replays "$elf"
}

for elf in "$top"/examples/*.elf; do
    for seed in $(seq "$seeds"); do
        for harts in 1 2 4 8 16; do
            for format in 1 2; do
                [ "$harts" -le 8 ] || [ "$format" -eq 2 ] || continue
                record "$elf" --seed "$seed" --harts "$harts" --format "$format" --log-size 16384 --interval 1000
            done
        done
    done
done
echo "$pairs calls of each program, $differing of them differ"
[ "$differing" -eq 0 ]
