#!/usr/bin/env bash
# Runs all scripts of the gate on a program, side by side: tests/quick.sh [--setup] [PROGRAM], the shipped one unless another is
# named. It needs no toolchain. Measured on four processors beside other work, at a load of 13: 8 minutes by the clock.
#
# With --setup it first installs the Debian packages that are missing. Without, a line at the beginning and at the end says which.
#
# Each script runs to its end, which is told at once. All that a failed one said is shown in the end, and of the others what they
# skipped, and why. The last line is 'N passed, N failed, N skipped', of scripts: one is skipped if it can try nothing on this
# machine (status 77). If more are skipped than pass, the status is 77. A signal ends all, and what had ended is told.
# However it is started, it passes: tests/fresh_start.sh.
set -um # each script is a group of its own, so that all of it can be ended
top=$(cd "$(dirname "$0")/.." && pwd)
. "$top/tools/doctor.sh"
setup=
[ "${1-}" != --setup ] || { setup=1 && shift; }
program=${1-"$top/release/zelkuma-x86_64-linux"}
work=$(mktemp -d)
trap 'rm -rf "$work"' EXIT
scripts=() groups=()

# Starts a script; what it says and its status are kept.
tries() { # SCRIPT WORD..
    local kept=$work/${#scripts[@]}
    scripts+=("$1")
    if [[ $1 == *.py ]] && ! type -P python3 >/dev/null; then
        echo "skipped: python3 isn't here" >"$kept.said"
        echo "status 77, 0 s" >"$kept.status"
        return
    fi
    {
        bash tests/fresh_start.sh "$@" >"$kept.said" 2>&1
        echo "status $?, $SECONDS s" >"$kept.status"
        case $(<"$kept.status") in
        "status 0,"*) echo "passed: $1, $SECONDS s" ;;
        "status 77,"*) echo "skipped: $1" ;;
        *) echo "failed: $1, $(<"$kept.status")" ;;
        esac
    } &
    groups+=($!)
}

# Says how each has ended, with what is to be known of it.
tell() {
    local place status passed=0 failed=0 skipped=0 left=0
    for place in "${!scripts[@]}"; do
        [ -e "$work/$place.status" ] || { echo "not over: ${scripts[place]}" && left=$((left + 1)) && continue; }
        status=$(<"$work/$place.status")
        case $status in
        "status 0,"*) passed=$((passed + 1)) ;;
        "status 77,"*) skipped=$((skipped + 1)) ;;
        *)
            cat "$work/$place.said"
            echo "failed: ${scripts[place]}, $status"
            failed=$((failed + 1))
            continue
            ;;
        esac
        sed -n "s|^skipped|    ${scripts[place]}: &|p" "$work/$place.said"
    done
    echo "not shown: the proofs, the mutants that have to be refused, the tests and cases in Rattle ('rt ci')," \
        "and that the shipped program is what these sources give ('tests/release.sh', after a build)"
    tell_missing
    echo "$passed passed, $failed failed, $skipped skipped$([ "$left" -eq 0 ] || echo ", $left not over")"
    [ "$failed" -eq 0 ] || return 1
    [ "$passed" -ge "$skipped" ] || return 77
}

tell_missing() {
    [ ${#packages[@]} -eq 0 ] || echo "something will be skipped for want of tools: tests/quick.sh --setup, or: apt-get install -y ${packages[*]}"
}

# Installs what is missing.
set_up() {
    local as=()
    [ ${#packages[@]} -gt 0 ] || return 0
    [ "$(id -u)" = 0 ] || as=(sudo)
    echo "apt-get install -y ${packages[*]}"
    "${as[@]}" apt-get update -q && "${as[@]}" apt-get install -y -q --no-install-recommends "${packages[@]}" || exit 1
    find_missing tests >/dev/null
}

# Ends all scripts, and tells those that had ended. Each has a moment to clear up.
stop_all() { # NUMBER
    local signal group
    trap '' HUP INT TERM
    exec 2>/dev/null # bash says of each that it was ended
    for signal in TERM KILL; do
        for group in "${groups[@]}"; do
            kill "-$signal" -- "-$group"
        done
        [ "$signal" = KILL ] || sleep 2
    done
    wait
    tell
    exit $((128 + $1))
}

[ $# -le 1 ] || { echo "tests/quick.sh: it takes --setup, and one word, the program" >&2 && exit 2; }
[ -x "$program" ] || { echo "tests/quick.sh: there is no program $program" >&2 && exit 1; }
program=$(readlink -f "$program")
cd "$top" || exit 1
find_missing tests >/dev/null
[ -z "$setup" ] || set_up
tell_missing
. tests/compiled.sh "$work/compiled"
trap 'stop_all 1' HUP
trap 'stop_all 2' INT
trap 'stop_all 15' TERM
tries tests/script/zelkuma.sh
tries tests/script/shipped.sh
tries tests/script/setting_up.sh
tries tests/script/calls.sh
tries tests/script/launcher.sh "$program"
tries tests/script/slips.py "$program"
tries tests/script/own_program.sh "$program"
tries tests/script/action.sh "$program"
tries tests/pages/help.sh "$program"
tries tests/sources/definitions.sh
tries tests/sources/contracts.py
tries tests/pages/prose.py
tries tests/script/completion.sh
tries tests/script/install.sh "$program"
tries tests/program/by_definition.py
tries tests/program/read_log.sh "$program"
tries tests/program/limits.sh "$program"
tries tests/program/threads.py "$program"
tries tests/pages/documents.py "$program" README.md examples/README.md docs/COMMANDS.md tests/pages/examples.md
if [[ " ${packages[*]} " != *" binutils "* ]]; then
    tries tests/pages/documents.py "$program" docs/{GUIDE,WHY,SHRINK,ORDERS,VIEW,GDB,PYTHON,AT,RUN}.md
else
    echo "skipped: the examples of docs/, which show lines: there is no addr2line: apt-get install binutils"
fi
for missing in addr2line gdb addr2line,gdb; do
    tries tests/pages/documents.py --without "$missing" "$program" README.md docs/COMMANDS.md
done
tries tests/sources/checkers.sh
tries tests/sources/named.py
tries tests/sources/stale.py
tries tests/sources/promised.py
tries tests/sources/examples.sh
tries tests/companions.sh "$program"
ZELKUMA_PROGRAM=$program tries tests/hostile/signals.py
ZELKUMA_PROGRAM=$program tries tests/hostile/limits.py 2
ZELKUMA_PROGRAM=$program tries tests/hostile/forged_dwarf.py 16 1 3
tries tests/oracle/quick.sh "$program"
wait
tell
