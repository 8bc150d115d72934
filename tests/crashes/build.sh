#!/usr/bin/env bash
# Builds the crashing programs, with their names and lines: tests/crashes/build.sh [FOLDER]. Without a folder they
# replace those that are kept here. The compiler is the one that examples/build.sh names; programs called libc_* are
# linked with picolibc, whose own names of lines are left out, as they are larger than the programs.
set -eu
here=$(cd "$(dirname "$0")" && pwd)
to=$(realpath -m "${1:-$here}")
mkdir -p "$to"
cd "$here/../.."
. examples/lib/with_names.sh
library=$(mktemp -d)
trap 'rm -rf "$library"' EXIT

link_with_picolibc() { # ELF OBJECT..
    local elf=$1 gcc=(riscv64-unknown-elf-gcc -mabi=ilp32 -march=rv32im)
    shift
    [ -e "$library/libc.a" ] || riscv64-unknown-elf-objcopy --strip-debug \
        "/usr/lib/picolibc/riscv64-unknown-elf/lib/$("${gcc[@]}" -print-multi-directory)/libc.a" "$library/libc.a"
    "${gcc[@]}" --specs=picolibc.specs -static -nostartfiles -T examples/picolibc/program.ld -Wl,--build-id=none \
        -z max-page-size=4096 -o "$elf" "$@" "$library/libc.a"
}

# Sets `objects`, those of sources in a folder; what several programs share is compiled once.
compile() { # FOLDER "SOURCE.." [OPTION..]
    local source
    objects=()
    mkdir -p "$library/$1"
    for source in $2; do
        objects+=("$library/$1/$(basename "${source%.*}").o")
        [ -e "${objects[-1]}" ] || compile_with_names "${objects[-1]}" "$source" "${@:3}"
    done
}

for source in tests/crashes/*.c; do
    name=$(basename "$source" .c)
    case $name in
        heap) ;;
        libc_*)
            compile libc "examples/picolibc/start.S examples/picolibc/machine.c $source" --specs=picolibc.specs -fhosted
            link_with_picolibc "$to/$name.elf" "${objects[@]}"
            ;;
        *)
            compile own "examples/lib/start.S examples/lib/machine.c tests/crashes/heap.c $source"
            link_with_names "$to/$name.elf" "${objects[@]}"
            ;;
    esac
done
