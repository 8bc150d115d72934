#!/usr/bin/env bash
# Tries what tests/quick.sh says and does of missing tools and of its scripts, in a tree whose scripts are stubs, and the word doctor.
. "$(dirname "$0")/../asserts.sh"
tree=$work/tree
mkdir -p "$tree/tools" "$tree/tests" "$work/few" "$work/all"
cp "$top"/tools/{doctor.sh,tools.txt} "$tree/tools"
cp "$top"/tests/{quick.sh,fresh_start.sh,compiled.sh} "$tree/tests"
printf '#!/bin/bash\n' >"$work/program"
chmod +x "$work/program"
mapfile -t scripts < <(grep -oE 'tests/[a-z_]+(/[a-z_]+)?\.(sh|py)' "$tree/tests/quick.sh" | grep -vE 'quick\.sh|release|fresh_start|compiled' | sort -u)
scripts+=(tests/oracle/quick.sh)
what="the scripts"
[ "${#scripts[@]}" -gt 20 ] || fails "there are ${#scripts[@]} scripts"

# A script that does this.
stub() { # SCRIPT LINE
    mkdir -p "$tree/${1%/*}"
    printf '#!/bin/bash\n%s\n' "$2" >"$tree/$1"
    chmod +x "$tree/$1"
}

# Tools that do nothing, in a folder: those of the system that quick.sh itself needs, and these.
tools() { # FOLDER NAME..
    local name
    for name in bash env cat sed mktemp rm dirname readlink id grep sleep; do
        ln -sf "$(type -P "$name")" "$1/$name"
    done
    for name in "${@:2}"; do
        ln -sf /bin/true "$1/$name"
    done
}

mapfile -t commands < <(awk -F'|' '!/^#/ { split($3, names, " "); if (names[1] !~ "/") print names[1] }' "$top/tools/tools.txt")
tools "$work/few"
tools "$work/all" "${commands[@]}"
for script in "${scripts[@]}"; do
    stub "$script" "exit 0"
done

what="all is here and passes"
path=$work/all runs 0 bash "$tree/tests/quick.sh" "$work/program"
has out "passed: tests/script/zelkuma.sh, "
last=$(tail -n 1 "$work/out")
[[ $last =~ ^[0-9]+" passed, 0 failed, 0 skipped"$ ]] || fails "another last line"

what="one that fails, and one that skips a part"
stub tests/script/calls.sh 'echo "the reason"; exit 1'
stub tests/script/install.sh 'echo "skipped: a part"'
path=$work/all runs 1 bash "$tree/tests/quick.sh" "$work/program"
has out "the reason"
has out "failed: tests/script/calls.sh, status 1"
has out "    tests/script/install.sh: skipped: a part"
stub tests/script/calls.sh 'exit 0'

what="nearly nothing can be tried"
for script in "${scripts[@]}"; do
    [[ $script == tests/script/zelkuma.sh ]] || stub "$script" "exit 77"
done
path=$work/few runs 77 bash "$tree/tests/quick.sh" "$work/program"
said="something will be skipped for want of tools: tests/quick.sh --setup, or: apt-get install -y python3 binutils gdb-multiarch"
[[ $(head -n 1 "$work/out") == "$said"* ]] || fails "it doesn't begin with what is missing"
[[ $(tail -n 2 "$work/out") == "$said"*$'\n1 passed, 0 failed, '* ]] || fails "it doesn't end with what is missing"

what="it installs what is missing"
printf '#!/bin/bash\necho "$*" >>%s\n[[ $1 == update ]] || /bin/ln -sf /bin/true %s/python3\n' "$work/installed" "$work/few" >"$work/few/apt-get"
printf '#!/bin/bash\necho sudo; exec "$@"\n' >"$work/few/sudo"
chmod +x "$work/few/apt-get" "$work/few/sudo"
path=$work/few runs 77 bash "$tree/tests/quick.sh" --setup "$work/program"
[[ $(<"$work/installed") == "update -q"$'\n'"install -y -q --no-install-recommends python3 binutils gdb-multiarch "* ]] || fails "apt-get got $(<"$work/installed")"
has out "apt-get install -y binutils gdb-multiarch"

what="a signal ends all, and what has passed is told"
for script in "${scripts[@]}"; do
    stub "$script" "exit 0"
done
stub tests/script/install.sh "trap '' TERM; : >'$work/begun'; sleep 613.$$"
PATH=$work/all bash "$tree/tests/quick.sh" "$work/program" >"$work/out" 2>"$work/err" &
process=$!
until [ -e "$work/begun" ] && [ "$(grep -c '^passed: ' "$work/out")" -eq $((${last%% *} - 1)) ]; do
    sleep 0.1
    kill -0 "$process" 2>/dev/null || { fails "it has ended" && end; }
done
kill -TERM "$process"
status=0
wait "$process" || status=$?
[ "$status" -eq 143 ] || fails "status $status, and not 143"
has out "not over: tests/script/install.sh"
[[ $(tail -n 1 "$work/out") =~ " passed, 0 failed, 0 skipped, 1 not over"$ ]] || fails "another last line"
! grep -lzxF "613.$$" /proc/[0-9]*/cmdline >"$work/out" 2>/dev/null || fails "a process is left"

what="the word doctor"
runs 0 "$top/zelkuma" doctor
has out "here     the program: "
path=$work/none runs 0 /bin/bash "$top/zelkuma" doctor
has out "missing  python3"
has out "apt-get install -y python3 binutils gdb-multiarch"
ZELKUMA_PROGRAM=$work/bad
printf '#!/bin/bash\nexit 127\n' >"$ZELKUMA_PROGRAM" && chmod +x "$ZELKUMA_PROGRAM"
export ZELKUMA_PROGRAM
runs 1 "$top/zelkuma" doctor
has out "missing  the program can't run here"
runs 2 "$top/zelkuma" doctor now
end
