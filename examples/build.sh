#!/usr/bin/env bash
# Builds the examples again.
#
# examples/build.sh [FOLDER [NAMES]]: the ELF files go to FOLDER, else to this one. To NAMES go the
# same programs with the names and lines of their sources, for objdump. Those are other files, and a
# log is only for the very file that was recorded; but the addresses are the same.
# The programs of docs/GUIDE.md are kept with their names, as a program that is to be recorded should be.
#
# The ELF files that are kept here were built with Debian 12's packages gcc-riscv64-unknown-elf
# (GCC 12.2.0) and binutils-riscv64-unknown-elf (2.40), with which the same bytes come out again.
set -eu
here=$(cd "$(dirname "$0")" && pwd)
to=$(realpath -m "${1:-$here}")
names=$(realpath -m "${2:-$(mktemp -d)}")
[ $# -ge 2 ] || trap 'rm -rf "$names"' EXIT
mkdir -p "$to" "$names"
flags=(-march=rv32ima -mabi=ilp32 -mstrict-align -O2 -g -Wall -Wextra -Werror
    -ffreestanding -fno-pic -fno-tree-loop-distribute-patterns -nostdlib -static
    -I "$here/lib" -T "$here/lib/program.ld"
    -z max-page-size=4096 -Wl,--build-id=none -Wl,--fatal-warnings)

build() { # NAME SOURCE..
    local name=$1
    shift
    riscv64-unknown-elf-gcc "${flags[@]}" -o "$names/$name.elf" "$@"
    riscv64-unknown-elf-strip -o "$to/$name.elf" "$names/$name.elf"
}

for name in wild_store counter word_count sort hand_over two_locks tills; do
    build "$name" "$here/lib/start.S" "$here/lib/machine.c" "$here/$name.c"
done
build lock "$here/lock.S"

cd "$here/.."
. examples/lib/with_names.sh
for name in heap filters table buffers prices; do
    build_with_names "$names/$name.elf" "examples/$name.c"
    cp "$names/$name.elf" "$to/$name.elf"
done
