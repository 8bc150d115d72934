#!/usr/bin/env bash
# Makes docs/view.png: the page that `zelkuma view` draws of examples/filters.elf by the order that `zelkuma shrink` finds, in
# Chromium. The sources that it shows are without the comments that tell their bugs.
#
# tests/companions/lib/picture.sh [PROGRAM [PICTURE [FOLDER]]]: PROGRAM is that of ZELKUMA_PROGRAM, else the one that the companions find.
# In FOLDER are made, to look at, the pages of a crash, a hang and a byte of the output, each in light and dark.
# Without Chromium nothing is made.
set -eu
top=$(cd "$(dirname "$0")/../../.." && pwd)
ZELKUMA_PROGRAM=${1:-${ZELKUMA_PROGRAM:-$(cd "$top" && python3 -B -c 'from companion.call import program; print(program.path())')}}
export ZELKUMA_PROGRAM
picture=${2:-$top/docs/view.png}
folder=${3:-}

library=$top/tests/companions/lib

python3 -c 'import sys; sys.path.insert(0, sys.argv[1]); import chromium; sys.exit(not chromium.find())' "$library" ||
    { echo "skipped: chromium isn't installed"; exit 0; }
work=$(mktemp -d)
trap 'rm -rf "$work"' EXIT
mkdir "$work/examples"
cp "$top/examples/filters.elf" "$work"
cp -r "$top/examples/lib" "$work/examples"
sed 's| */\* the bug.*\*/||' "$top/examples/filters.c" >"$work/examples/filters.c"
# (turns of hart 0 and of hart 3: docs/GUIDE.md)
printf '\0%.0s' {1..26} >"$work/turns" && printf '\3%.0s' {1..14} >>"$work/turns" && printf '\0%.0s' {1..14} >>"$work/turns"
printf '\3%.0s' {1..3} >>"$work/turns"
status=0
ZELKUMA_SCHEDULE=book:$work/turns "$ZELKUMA_PROGRAM" record --format 2 --harts 4 "$work/filters.elf" "$work/filters.log" "$work/book" 2>/dev/null || status=$?
[ "$status" -eq 10 ] || { echo "filters.elf ended with $status, not with its fault" >&2; exit 1; }
(cd "$work" && python3 "$top/companion" view filters.log filters.elf >page.html)
python3 "$library/picture.py" "$work/page.html" "$picture"

# Pictures of the page of one of tests/crashes: draws NAME STATUS [OPTION..] -- [OPTION OF VIEW..]
draws() {
    local name=$1 ends=$2 options=() status=0
    shift 2
    while [ "$1" != -- ]; do options+=("$1") && shift; done
    shift
    local elf=$top/tests/crashes/$name.elf
    "$ZELKUMA_PROGRAM" record --format 2 --seed 1 "${options[@]}" "$elf" "$work/$name.log" "$work/book" >"$work/said" 2>&1 || status=$?
    [ "$status" -eq "$ends" ] || { echo "$name.elf ended with $status, not with $ends" >&2; exit 1; }
    python3 "$top/companion" view "$work/$name.log" "$elf" "$@" >"$work/$name.html"
    python3 "$library/picture.py" "$work/$name.html" "$folder/$name.png" "$folder/$name-dark.png"
}

if [ -n "$folder" ]; then
    mkdir -p "$folder"
    draws race_settings 10 --harts 2 --
    draws hang_wakeup 11 --harts 2 --limit 60000 --
    draws wrong_total 0 -- --output 0:29
fi
[ "$(head -c 8 "$picture" | od -An -tx1 | tr -d ' \n')" = 89504e470d0a1a0a ] || { echo "$picture is no picture" >&2; exit 1; }
echo "made $picture"
