#!/usr/bin/env bash
# Tries packaging/Containerfile and packaging/action.yml without podman and without a CI service: what they run is run in a root
# file system that debootstrap makes. It needs root, the network and some minutes, so it is no part of tests/quick.sh.
#
# packaging/image.sh [MIRROR]
set -euo pipefail
top=$(dirname "$(dirname "$(readlink -f "${BASH_SOURCE[0]}")")")
name=packaging/image.sh
. "$top/tools/say.sh"
[ "$(id -u)" = 0 ] || stop 1 "debootstrap and chroot need root"
type -P debootstrap >/dev/null || stop 1 "there is no debootstrap here"
work=$(mktemp -d)
root=$work/root
trap 'rm -rf "$work"' EXIT
inside() { chroot "$root" env -i PATH=/usr/local/bin:/usr/bin:/bin:/usr/sbin:/sbin "$@"; }

# What the Containerfile says, line by line.
build() {
    local word rest
    while read -r word rest; do
        case $word in
        '' | '#'*) ;;
        FROM) [[ $rest == debian:*-slim ]] && rest=${rest#debian:} && debootstrap --variant=minbase "${rest%-slim}" "$root" "$@" >&2 ;;
        RUN) inside bash -ec "$rest" >&2 ;;
        COPY) mkdir -p "$root${rest#. }" && git -C "$top" archive HEAD | tar x -C "$root${rest#. }" ;;
        WORKDIR) mkdir -p "$root$rest" && cd "$root$rest" ;;
        ENTRYPOINT) [ "$rest" = '["zelkuma"]' ] ;;
        *) stop 1 "the Containerfile has a line that isn't known here: $word $rest" ;;
        esac
    done <"$top/packaging/Containerfile"
}

# The script of each step of the action that has one.
steps() { awk '/^ +run: \|/ { on = 1; print "#"; next } on && /^        / { print substr($0, 9); next } { on = 0 }' "$top/packaging/action.yml"; }

build "$@"
cp "$top/examples/filters.elf" "$root/work"
inside bash -c 'cd /work && zelkuma record --format 2 --harts 4 --seed 10 filters.elf LOG BOOK >/dev/null 2>&1'  || [ $? = 10 ]
inside bash -c 'cd /work && zelkuma why LOG filters.elf' | grep -q 'filters.c:93' || stop 1 "why tells no line in the image"
inside bash -c 'cd /work && type -P gdb-multiarch >/dev/null' || stop 1 "the image has no gdb"
steps >"$root/work/steps"
inside PROGRAM=filters.elf OPTIONS='--format 2 --harts 4' NUMBERS='1 12' PART=1/1 FAIL=true GITHUB_STEP_SUMMARY=/work/summary \
    bash -c 'cd /work && bash --noprofile --norc -eo pipefail steps' >&2 || [ $? = 23 ] # as the service does
grep -q 'LoadOutside apply filters.c:93' "$root/work/found/table.txt" || stop 1 "the action found no crash"
grep -q 'SUSPECTS' "$root/work/summary" || stop 1 "the action explained none"
ls "$root"/work/found/*.short.log "$root"/work/found/{junit.xml,table.html} "$root"/work/found/*-[0-9]*.html >/dev/null
[ ! -e "$root/work/found/seed-1.html" ] || stop 1 "the action explained a run that ended well"
echo "the image's commands and the action's run in a root file system of $(du -sm "$root" | cut -f 1) MB"
