#!/usr/bin/env bash
# Tries how the script zelkuma proves and builds: tests/script/zelkuma.sh. It takes some seconds, and needs no toolchain.
. "$(dirname "$0")/small_tree.sh"

what="words of the script"
runs 2 "$zelkuma"
has err "zelkuma record .OPTION"
for word in help --help -h; do
    runs 0 "$zelkuma" "$word"
    has out "zelkuma record .OPTION"
done
for words in a --cpu "--cpu x86-64-v4" "--cpu=x86-64-v3" "--cpu x86-64-v3 a" "x86-64-v3 --cpu"; do
    # shellcheck disable=SC2086
    runs 2 "$zelkuma" build $words
    says "zelkuma: build takes no word, or --cpu NAME, where NAME is one of: x86-64 x86-64-v2 x86-64-v3"
done
runs 2 "$zelkuma" build --cpu ''
runs 2 "$zelkuma" build --cpu 'x86-64 x86-64-v2'
builds_nothing

what="no toolchain, and nothing is built"
path=$without runs 1 "$zelkuma" build
has err "no command rt of a Rattle kit.*rattle-kit-13f or rattle-kit-13b"

# Whether the program was built, says where it is, and isn't run.
is_built() {
    runs 0 "$zelkuma" build
    [ "$(cat "$work/out")" = "$built" ] || fails "out isn't the place of the program"
    hasnt calls ^ran
}
built=$tree/crates/bugnet_main/out/bugnet_main

what="the first build"
RT_SLEEP=0.3 is_built
has err " of 5, low; now or next: mid" # (side may end before it)
has err "4 of 5, bugnet; now or next: bugnet_main$"
has err "there is no shipped program in release/ to compare with"
hasnt err note
[ "$(grep -c " of 5, " "$work/err")" -eq 5 ] || fails "not one line a crate"

what="the crates that nothing can be proved beside"
jobs=$(sed -n 's/^proves bugnet_main, \(.*\) jobs/\1/p' "$calls")
[ "$(grep -c ^proves "$calls")" -eq 5 ] || fails "not one call a crate"
has calls "^proves bugnet, $jobs jobs$"
has calls "^proves side, $((jobs > 1 ? jobs / 2 : 1)) jobs$"

what="the program that was built"
runs 4 env ZELKUMA_PROGRAM="$built" "$zelkuma" list "a LOG"
answers list a LOG

what="the second build"
is_built
builds_nothing
[ "$(wc -l <"$work/err")" -eq 1 ] || fails "err isn't the one line on the shipped program"

what="no toolchain, and the program is there"
path=$without is_built
builds_nothing

what="a file that was written again"
touch "$source"
is_built
builds_nothing

what="a crate that the program doesn't stand on"
echo changed >"$tree/crates/apart/src/lib.rt"
sed -i 's/^apart: low/apart: mid/' "$tree/crates.txt"
is_built
builds_nothing

what="a change"
echo changed >"$source"
is_built
builds
hasnt calls "^proves low"
has err "1 of 5, low"
grep -q changed "$tree/crates/bugnet_main/out/bugnet_main" || fails "the old program is there"

what="a change that leaves the library as it was"
mkdir "$tree/crates/mid/proofs"
echo "a proof" >"$tree/crates/mid/proofs/Lib.antt"
is_built
has calls "^proves mid"
hasnt calls "^proves bugnet,"
builds
rm -r "$tree/crates/mid/proofs"

what="the change taken back, and what the toolchain knows is as it was"
echo "mid as it was" >"$source"
is_built
builds
touch "$source" "$tree/crates.txt"
rm "$tree/crates/bugnet_main/out/zelkuma.stamp"
is_built
[ "$(grep -c ^proves "$calls")" -eq 1 ] || fails "a library is proved again"
is_built
builds_nothing

what="a file more"
echo more >"$tree/crates/low/src/more.rt"
is_built
builds
rm "$tree/crates/low/src/more.rt"

what="another program in its place"
is_built
echo "# another" >>"$tree/crates/bugnet_main/out/bugnet_main"
is_built
builds

what="a proof that fails"
echo wrong >"$source"
runs 1 "$zelkuma" build
has err "fn mid::loud: not proved"
has err "not built; not proved: mid"
hasnt err quiet
runs 1 "$zelkuma" build
has calls "^proves mid"
hasnt calls "^proves bugnet"
echo "mid as it was" >"$source"

what="a compiler that stops at once"
mv "$work/kit/bin/rattle" "$work/kit/bin/kept"
printf '#!/bin/sh\necho "--statements: it stops"\n[ "$2" = --help ]\n' >"$work/kit/bin/rattle"
chmod +x "$work/kit/bin/rattle"
runs 1 "$zelkuma" build
has err "it stops"
has err "the program was not built; not proved: mid$"
mv "$work/kit/bin/kept" "$work/kit/bin/rattle"

what="a toolchain of another layout"
mv "$work/kit/toolchain" "$work/kit/other"
is_built
has err "note: this kit isn't laid out as is known here"
has calls "^run --jobs [0-9]* -- check data/example.log$"
hasnt calls ^proves
mv "$work/kit/other" "$work/kit/toolchain"

what="another kit"
is_built
echo "rattle-kit-99 logic 0" >"$work/kit/named"
is_built
has err "note: rt is of rattle-kit-99; .*rattle-kit-13f or rattle-kit-13b"
echo "rattle-kit-13b logic 0" >"$work/kit/KIT-ID"
is_built
builds
hasnt err note
hasnt calls version

what="a program for newer processors"
runs 0 "$zelkuma" build --cpu x86-64-v3
[ "$(cat "$work/out")" = "$built" ] || fails "out isn't the place of the program"
has err "it was built for x86-64-v3, and isn't the shipped program"
has calls "^proves bugnet_main for x86-64-v3"
[ "$(grep -c ^proves "$calls")" -eq 1 ] || fails "a library is proved again"
grep -q "for x86-64-v3" "$built" || fails "another program is there"
runs 0 "$zelkuma" build --cpu x86-64-v3
builds_nothing
runs 1 "$tree/tools/release.sh"
[ ! -e "$shipped" ] || fails "it is shipped"
is_built
builds
hasnt calls "for x86-64-v3"
hasnt err x86-64-v3
! grep -q "for x86-64-v3" "$built" || fails "it is the program for others"

# (no fixed times here, since the machine may be busy: what is waited for is that the toolchain begins, and it lasts until
# it is told to end)
begins='until grep -q ^proves "$RT_CALLS"; do sleep 0.05; done'
export RT_HOLD=$work/hold

what="two builds at once"
echo "changed again" >"$source"
: >"$calls"
: >"$RT_HOLD"
PATH=$path "$zelkuma" build >"$work/one" 2>"$work/one_err" &
eval "$begins"
PATH=$path "$zelkuma" build >"$work/out" 2>"$work/err" &
until grep -q "waiting for another call" "$work/err"; do sleep 0.05; done
rm "$RT_HOLD"
wait
[[ $(cat "$work/one") = "$built" && $(cat "$work/out") = "$built" ]] || fails "not both say where the program is"
[ "$(grep -c "^proves mid" "$calls")" -eq 1 ] || fails "both built"

what="a build that is stopped"
: >"$RT_HOLD"
for signal in TERM HUP INT; do
    echo "changed by $signal" >"$source"
    # (a job in the background would not hear INT, but for -m)
    runs 130 bash -c "set -m; \"\$0\" build & $begins; kill -s $signal \$!; wait \$!" "$zelkuma"
    has err "stopped"
    [ ! -e "$tree/crates/bugnet_main/out/zelkuma.stamp" ] || fails "it says what was built"
    for process in $(sed -n 's/^process //p' "$calls"); do
        ! grep -q '^State:.[^Z]' "/proc/$process/status" 2>/dev/null || fails "the toolchain went on"
    done
done
runs 137 bash -c "\"\$0\" build & $begins; kill -s KILL \$!; wait \$!" "$zelkuma"
rm "$RT_HOLD"
is_built
builds

what="a tree that can't be written to"
rm -r "$tree"/crates/*/out
touch "$tree/crates/low/out" # (so that there can be no folder, also for root)
runs 3 "$zelkuma" build
has err "low can't be proved: there can be no folder"

ends
