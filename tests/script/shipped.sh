#!/usr/bin/env bash
# Tries which program a call runs, and how the shipped one is made and compared: tests/script/shipped.sh
# It takes some ten seconds, and needs no toolchain.
. "$(dirname "$0")/small_tree.sh"

stamp=$tree/release/STAMP
built=$tree/crates/bugnet_main/out/bugnet_main
mkdir -p "$tree/crates/bugnet_main/data"
# All that is in the tree, with times and contents.
everything() { (cd "$tree" && find . -printf '%p %m %T@ %C@\n' && find . -type f -exec sha256sum {} +) | LC_ALL=C sort; }

what="nothing is shipped"
runs 1 "$zelkuma" list LOG
says "zelkuma: there is no program '$shipped' that can be run; 'zelkuma build' makes one from the sources"
runs 0 "$zelkuma" build
runs 1 "$tree/tests/release.sh"
has err "there is no shipped program in release/; tools/release.sh renews release/"
runs 1 "$zelkuma" list LOG
builds_nothing

what="the program is shipped"
runs 2 "$tree/tools/release.sh" a
runs 0 "$tree/tools/release.sh"
[ "$(grep ^kit "$stamp")" = "kit rattle-kit-13f logic 0" ] || fails "the stamp names another kit than the one that is here"
runs 0 "$tree/tools/release.sh" rattle-kit-13b
cmp -s "$shipped" "$built" || fails "it isn't the program that was built"
[ -x "$shipped" ] || fails "it can't be executed"
[ "$(grep ^kit "$stamp")" = "kit rattle-kit-13f logic 0
kit rattle-kit-13b" ] || fails "the stamp names other kits"
runs 0 bash -c 'cd "$0/release" && sha256sum --check SHA256SUMS' "$tree"
grep -qx "## $(<"$top/VERSION"), $(date -u +%F)" "$tree/CHANGELOG.md" || fails "the changes have no version"
runs 0 "$tree/tests/release.sh"
has out "the shipped program is the one that rattle-kit-13f logic 0 has built, byte for byte"
runs 0 "$zelkuma" build
has err "what was built is the shipped program, byte for byte"

# Whether a call runs the shipped program, says nothing of its own, and leaves the tree as it was.
is_run() { # WORD.. that call the script
    everything >"$work/before"
    runs 4 "$@" list LOG
    answers list LOG
    [ ! -s "$work/err" ] || fails "err isn't empty"
    builds_nothing
    everything >"$work/after"
    equals "$work/before" "$work/after"
}

what="a clone, with bash, stat and readlink"
rm -r "$tree/crates/bugnet_main/out"
only bash stat readlink
is_run "$zelkuma"

what="sources that have changed, or are gone"
cp -rp "$tree/crates" "$work/kept"
echo changed >"$source"
is_run "$zelkuma"
rm -r "$tree/crates/"*
is_run "$zelkuma"
rm -r "$tree/crates"
mv "$work/kept" "$tree/crates"

what="odd times"
find "$tree" -exec touch -h -d 2099-01-01 {} +
is_run "$zelkuma"
find "$tree" -exec touch -h -d 1970-01-02 {} +
is_run "$zelkuma"

what="a checkout that can't be written to, and one of another user"
chmod -R a-w,a+rX "$tree" "$work/few" "$work/call"
chmod a+rx "$work" "$work/kit/"
: >"$calls" && chmod a+w "$calls"
is_run "$zelkuma"
if [ "$(id -u)" -eq 0 ] && type -P setpriv >/dev/null; then
    is_run "$(type -P setpriv)" --reuid 65534 --regid 65534 --clear-groups env -u TMPDIR "$zelkuma"
    chown -R 65534 "$tree"
    is_run "$zelkuma"
    chown -R 0 "$tree"
else
    skips "another user's checkout: only root can make it, with setpriv"
fi
chmod -R u+w "$tree"

what="links to the script"
mkdir "$work/bin"
ln -s "$tree/zelkuma" "$work/bin/zelkuma"
ln -s ../bin/zelkuma "$work/bin/short"
cd / || exit 1
is_run "$work/bin/short"
cd "$tree" || exit 1
is_run ./zelkuma
is_run bash zelkuma
cd "$work" || exit 1

what="another program"
printf '#!/bin/sh\necho "another: $*"\nexit 6\n' >other
chmod +x other
for name in other ./other "$work/other"; do
    ZELKUMA_PROGRAM=$name runs 6 "$zelkuma" slice a "b c"
    [ "$(cat "$work/out")" = "another: slice a b c" ] || fails "$name isn't run"
done
ZELKUMA_PROGRAM='' runs 4 "$zelkuma" list LOG
for name in nowhere "$work" "$top/LICENSE"; do
    ZELKUMA_PROGRAM=$name runs 1 "$zelkuma" list LOG
    has err "^zelkuma: there is no program .* that can be run; 'zelkuma build' makes one from the sources$"
done

what="a shipped program that can't run here"
runs 1 env HOSTTYPE=aarch64 "$zelkuma" list LOG
says "zelkuma: the program is for Linux on x86-64, as 'zelkuma build' is, and this is $OSTYPE on aarch64"
ZELKUMA_PROGRAM=other HOSTTYPE=aarch64 runs 6 "$zelkuma" list LOG
chmod -x "$shipped"
runs 1 "$zelkuma" list LOG
has err "that can be run; 'zelkuma build'"
chmod +x "$shipped"
# (a file for another machine, one whose interpreter isn't there, a loader that refuses, and a processor that does)
printf '\x7fELF\x02\x01\x01%057d' 0 >foreign-126
printf '#!/nowhere/sh\n' >foreign-127
printf '#!/bin/sh\nexit 1\n' >foreign-1
printf '#!/bin/sh\nkill -s ILL $$\n' >foreign-132
err_is_terminal
for name in foreign-*; do
    chmod +x "$name"
    ZELKUMA_PROGRAM=$name runs "${name#foreign-}" bash -c '"$0" list LOG; exit $?' "$zelkuma"
    has err "^zelkuma: './$name' can't run here: it is for Linux on x86-64-v2 with glibc 2.34 or later; see 'zelkuma build --help'$"
    [ "$(grep -c ^zelkuma: "$work/err")" -eq 1 ] || fails "it says more"
done
terminal=()

what="what it says of itself"
path=$PATH
runs 0 "$tree/zelkuma" --version
printf '%s\n' "zelkuma $(<"$top/VERSION")" "program $(sha256sum <"$shipped" | cut -d ' ' -f 1) $shipped" \
    "kit rattle-kit-13f logic 0" "kit rattle-kit-13b" "commit unknown" >"$work/wanted"
equals "$work/wanted" "$work/out"
ZELKUMA_PROGRAM=other runs 0 "$tree/zelkuma" --version
has out "^kit unknown"
runs 0 "$zelkuma" --version
has out "^program unknown"
if type -P git >/dev/null; then
    cp -r "$top/"{companion,python,.gitattributes} "$tree"
    (cd "$tree" && git init -q . && git add -A && git -c user.name=a -c user.email=a@b.c commit -qm a) >/dev/null 2>&1
    runs 0 "$tree/zelkuma" --version
    has out "^commit [0-9a-f]*$"
    commit=$(git -C "$tree" rev-parse HEAD)
    runs 0 "$tree/zelkuma" install "$work/prefix"
    runs 0 "$work/prefix/bin/zelkuma" --version
    has out "^commit $commit$"
    mkdir "$work/exported"
    git -C "$tree" archive HEAD | tar -C "$work/exported" -x
    runs 0 "$work/exported/zelkuma" --version
    has out "^commit $commit$"
    echo "$(<"$source") changed" >"$source"
    runs 0 "$tree/zelkuma" --version
    has out "^commit [0-9a-f]*, changed since$"
    (cd "$tree" && git checkout -q .)
    rm -r "$tree/.git"
else
    skips "the commit: git isn't here"
fi
path=$work/kit/bin:$without
zelkuma=$tree/zelkuma

what="a shipped program that was changed"
runs 0 "$zelkuma" build
cp -p "$shipped" "$work/kept"
echo "# changed" >>"$shipped"
runs 1 "$tree/tests/release.sh"
has err "release/zelkuma-x86_64-linux isn't the file that its stamp says; tools/release.sh renews release/"
cp -p "$work/kept" "$shipped"
sed -i s/^./x/ "$tree/release/SHA256SUMS"
runs 1 "$tree/tests/release.sh"
has err "release/SHA256SUMS is of another file; tools/release.sh renews release/"
runs 0 "$tree/tools/release.sh" rattle-kit-13b
runs 0 "$tree/tests/release.sh"

what="the gate, after a change"
echo changed >"$source"
runs 0 "$zelkuma" build
has err "what was built is not the shipped program"
runs 1 "$tree/tests/release.sh"
has err "the shipped program is not the one that rattle-kit-13f logic 0 has built; tools/release.sh renews release/"
rm "$tree/crates/bugnet_main/out/zelkuma.stamp" # as the gate leaves it
runs 0 "$tree/tools/release.sh" rattle-kit-13b
runs 0 "$tree/tests/release.sh"

what="a change of the sources by which the program stays as it is"
mkdir "$tree/crates/mid/proofs"
echo "a proof" >"$tree/crates/mid/proofs/Lib.antt"
runs 0 "$zelkuma" build
runs 0 "$tree/tests/release.sh"

what="a version that the changes don't tell"
echo 99.0.0 >"$tree/VERSION"
runs 1 "$tree/tests/release.sh"
has err "CHANGELOG.md says nothing of version 99.0.0"
sed -i '2a## Unreleased\n' "$tree/CHANGELOG.md"
runs 0 "$tree/tests/release.sh"
runs 0 "$tree/tools/release.sh" rattle-kit-13b
grep -q "^## 99.0.0, " "$tree/CHANGELOG.md" || fails "the changes have no version"
sed -i '2a## Unreleased\n' "$tree/CHANGELOG.md"
runs 0 "$tree/tools/release.sh" rattle-kit-13b
[ "$(grep -c '^## ' "$tree/CHANGELOG.md")" -eq 3 ] && grep -qx "## Unreleased" "$tree/CHANGELOG.md" || fails "a version has two headings"

# The gate's comparison, by a kit.
compares_by() { # STATUS KIT
    echo "$2" >"$work/kit/named"
    runs "$1" "$tree/tests/release.sh"
}

what="the same program by another kit"
for kit in "rattle-kit-13b logic 7" "rattle-kit-99 logic 0"; do
    compares_by 0 "$kit"
    has out "the shipped program is the one that $kit has built, byte for byte"
done

what="another program"
echo "# another" >>"$built"
for kit in "rattle-kit-13f logic 0" "rattle-kit-13b logic 7"; do
    compares_by 1 "$kit"
    has err "the shipped program is not the one that $kit has built; tools/release.sh renews release/"
done
for kit in "rattle-kit-99 logic 0" "rattle-kit-13f logic 1" "rattle-kit-13"; do
    compares_by 0 "$kit"
    has out "note: $kit has built another program than the shipped one, and release/STAMP doesn't name this kit"
done
path=$without runs 1 "$tree/tests/release.sh"
echo "rattle-kit-13f logic 0" >"$work/kit/named"

what="a program that is older than a source"
touch -d '1 hour ago' "$built"
runs 1 "$tree/tools/release.sh"
has err "the sources have changed since the program was built"
rm "$built"
runs 1 "$tree/tools/release.sh"
has err "there is no program"

ends
