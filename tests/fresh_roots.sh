#!/usr/bin/env bash
# Tries the pages as a new user has them: in fresh Debian roots, with nothing installed, then with python3, binutils, gdb and at last
# all that tests/quick.sh --setup installs. It needs root, debootstrap, a mirror and up to an hour, so it isn't part of
# tests/quick.sh.
#
# tests/fresh_roots.sh [--whole] [SUITE..]: bookworm and trixie. With --whole tests/quick.sh is run, too. ROOTS names a folder in
# which the roots of debootstrap are kept for the next call.
set -u
top=$(cd "$(dirname "$0")/.." && pwd)
whole=
[ "${1-}" != --whole ] || { whole=1 && shift; }
[ $# -gt 0 ] || set -- bookworm trixie
[ "$(id -u)" = 0 ] && type -P debootstrap chroot unshare >/dev/null || { echo "skipped: it needs root, debootstrap and unshare" && exit 77; }
kept=${ROOTS:-$(mktemp -d)}
work=$(mktemp -d)
trap 'rm -rf "$work"; [ -n "${ROOTS-}" ] || rm -rf "$kept"' EXIT
failures=0
pages=(README.md docs/COMMANDS.md examples/README.md tests/pages/examples.md)
line_pages=(docs/{GUIDE,WHY,SHRINK,VIEW,GDB,PYTHON,AT,RUN,MEMORY}.md)

# Runs words in the root, as a new user has them, at the top of a checkout. The root is the whole file system then: in one of chroot
# no test could mount anything.
inside() { # WORD..
    unshare --mount --pid --fork bash -c 'mount --bind "$0" "$0" && mkdir -p "$0/before" && cd "$0" && pivot_root . before &&
        exec chroot . /usr/bin/env -i HOME=/root LANG=C.UTF-8 PATH=/usr/sbin:/usr/bin:/sbin:/bin DEBIAN_FRONTEND=noninteractive "$@"' "$work/root" \
        /bin/bash -c 'mount -t proc proc /proc && umount -l /before && mkdir -p /dev/shm /dev/pts &&
            mount -t devpts -o newinstance,ptmxmode=0666 devpts /dev/pts &&
            ln -sf pts/ptmx /dev/ptmx && ln -sfn /proc/self/fd /dev/fd && cd /zelkuma && exec "$@"' bash "$@" </dev/null
}

# Tries that words end with a status, and print these texts.
tries() { # WHAT STATUS TEXT.. -- WORD..
    local what="$suite, $1" wanted=$2 texts=() status=0 text
    shift 2
    while [ "$1" != -- ]; do
        texts+=("$1")
        shift
    done
    inside "${@:2}" >"$work/said" 2>&1 || status=$?
    for text in "${texts[@]}"; do
        grep -qF -- "$text" "$work/said" || status="$status, without '$text'"
    done
    if [ "$status" = "$wanted" ]; then
        echo "passed: $what: $(tail -n 1 "$work/said")"
    else
        sed 's/^/    /' "$work/said"
        echo "failed: $what: status $status, and not $wanted"
        failures=$((failures + 1))
    fi
}

# The examples of pages; those that need more are skipped, and told.
tries_pages() { # WHAT PAGE..
    tries "$1" 0 "examples, 0 fail" -- python3 tests/pages/documents.py release/zelkuma-x86_64-linux "${@:2}"
}

install() { inside apt-get install -y -q --no-install-recommends "$@" >"$work/said" 2>&1 || { cat "$work/said" && exit 1; }; } # PACKAGE..

# The commands of a page's block, by its number.
block() { awk -v n="$1" '/^```sh/ { on = ++at == n; next } /^```/ { on = 0 } on' "$top/README.md"; } # NUMBER

lay_root() { # SUITE
    [ -e "$kept/$1/bin/bash" ] || debootstrap --variant=minbase "$1" "$kept/$1" "${MIRROR:-http://deb.debian.org/debian}" >"$work/said" 2>&1 ||
        { tail -n 5 "$work/said" && echo "skipped: $1: debootstrap can't make it here" && return 1; }
    rm -rf "$work/root" && cp -a "$kept/$1" "$work/root" && mkdir "$work/root/zelkuma" && git -C "$top" archive HEAD | tar x -C "$work/root/zelkuma"
    ! [ -e /etc/apt/apt.conf.d ] || cp -n /etc/apt/apt.conf.d/*proxy* "$work/root/etc/apt/apt.conf.d/" 2>/dev/null
    cp /etc/resolv.conf "$work/root/etc/"
}

for suite; do
    lay_root "$suite" || continue
    tries "nothing: it records" 10 "end fault" -- ./zelkuma record --format 2 --seed 1 examples/heap.elf /tmp/LOG /tmp/BOOK
    tries "nothing: it replays" 0 "fault LoadOutside" -- ./zelkuma replay /tmp/LOG examples/heap.elf 0 0
    tries "nothing: what a companion needs" 1 "needs python3" "apt-get install -y python3" -- ./zelkuma run examples/heap.elf
    tries "nothing: doctor" 0 "missing  python3" "apt-get install -y python3 binutils gdb-multiarch" -- ./zelkuma doctor
    tries "nothing: the tests" 77 "apt-get install -y python3" -- timeout 900 tests/quick.sh
    inside apt-get update -q >"$work/said" 2>&1 || { cat "$work/said" && echo "skipped: $suite: there are no packages here" && continue; }
    install python3
    tries_pages "python3 alone" "${pages[@]}"
    tries "python3 alone: what lines need" 139 "no addr2line is here" "LoadOutside" "binutils" -- ./zelkuma run examples/heap.elf
    install binutils
    tries_pages "with binutils" "${pages[@]}" "${line_pages[@]}"
    tries "README's first block" 0 -- bash -ec "$(block 1)"
    tries_pages "with gdb" "${pages[@]}" "${line_pages[@]}"
    tries "README's second block" 139 "In tidy heap.c:106:  if (!(*header & 1))" "keep heap.c:75" -- bash -ec "$(block 2)"
    install make gcc-riscv64-unknown-elf picolibc-riscv64-unknown-elf
    tries "a program of one's own" 0 "too large: yes" -- bash -ec './zelkuma new own && make -s -C own && ./zelkuma run own/program.elf'
    tries_pages "with a compiler" "${line_pages[@]}"
    [ -z "$whole" ] || tries "all tests" 0 " 0 failed, 0 skipped" -- tests/quick.sh --setup
done
echo "$failures failed"
[ "$failures" -eq 0 ]
