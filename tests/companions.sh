#!/usr/bin/env bash
# Tries the companions: tests/companions.sh [PROGRAM [FILE..]]. Without PROGRAM it is the one that the companions find
# by themselves. A file is one of tests/companions; without one all are run, as many side by side as there are
# processors. Each says what it skips, and why. The last line is 'N passed, N failed, N skipped'.
set -u
top=$(cd "$(dirname "$0")/.." && pwd)
program=${1:-$(cd "$top" && python3 -B -c 'from companion.call import program; print(program.path())' 2>/dev/null)}
[ -x "$program" ] || { echo "companions: there is no program ${program:-in this repository}" >&2; exit 1; }
ZELKUMA_PROGRAM=$(readlink -f "$program")
export ZELKUMA_PROGRAM
[ $# -gt 0 ] && shift
type -P python3 >/dev/null || { echo "skipped: python3 isn't here" && exit 77; }
work=$(mktemp -d)
trap 'rm -rf "$work"' EXIT
. "$top/tests/compiled.sh" "$work/compiled"
passed=0 failed=0 skipped=0

# Runs the tests of a file, and keeps what they say. (A job in the background begins with signals ignored.)
runs() { # FILE
    bash tests/fresh_start.sh python3 -m unittest -v "$1" >"$work/${1//\//.}" 2>&1
}

number() { [[ $2 =~ $1([0-9]+) ]] && echo "${BASH_REMATCH[1]}" || echo 0; } # BEFORE TEXT

# Tells what the tests of a file said, and counts them.
counts() { # FILE
    local said=$work/${1//\//.} end ran bad without
    echo "== $1"
    cat "$said"
    sed -n "s/^\(.*\) \.\.\. skipped \(.*\)/skipped: \1: \2/p" "$said"
    end=$(grep -E '^(Ran [0-9]+ test|OK|FAILED)' "$said" | tail -n 2) # (what a test prints can follow it)
    ran=$(number "Ran " "$end") bad=$(($(number failures= "$end") + $(number errors= "$end"))) without=$(number skipped= "$end")
    [[ $end == *OK* || $bad -gt 0 ]] || bad=1
    failed=$((failed + bad)) skipped=$((skipped + without))
    passed=$((passed + (ran > bad + without ? ran - bad - without : 0)))
}

[ $# -gt 0 ] || set -- "$top"/tests/companions/*/*_test.py
mapfile -t files < <(realpath --relative-to="$top" "$@")
cd "$top" || exit 1
for file in "${files[@]}"; do
    while [ "$(jobs -pr | wc -l)" -ge "$(nproc)" ]; do
        wait -n
    done
    runs "$file" &
done
wait
for file in "${files[@]}"; do
    counts "$file"
done
echo "$passed passed, $failed failed, $skipped skipped"
[ "$failed" -eq 0 ] && [ "$passed" -gt 0 ]
