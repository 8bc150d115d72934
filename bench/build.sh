#!/usr/bin/env bash
# Builds bench/harts.elf again, with the compiler and the flags of examples/build.sh.
set -eu
top=$(cd "$(dirname "$0")/.." && pwd)
object=$(mktemp)
trap 'rm -f "$object"' EXIT
riscv64-unknown-elf-gcc -march=rv32ima -mabi=ilp32 -nostdlib -static -T "$top/examples/lib/program.ld" \
    -z max-page-size=4096 -Wl,--build-id=none -Wl,--fatal-warnings -o "$object" "$top/bench/harts.S"
riscv64-unknown-elf-strip -o "$top/bench/harts.elf" "$object"
