# shellcheck shell=bash
# Read by the scripts that build programs with names and lines, which run it at the top of the repository. Paths in the
# ELF files begin there, and objects have fixed names: each machine builds the same bytes.

compile_with_names() { # OBJECT SOURCE [OPTION..]
    riscv64-unknown-elf-gcc -march=rv32ima -mabi=ilp32 -mstrict-align -O2 -g -Wall -Wextra -Werror -ffreestanding -fno-pic \
        -fno-tree-loop-distribute-patterns "-ffile-prefix-map=$PWD=." "-Wa,--debug-prefix-map,$PWD=." -I examples/lib -c -o "$1" "${@:2}"
}

link_with_names() { # ELF OBJECT..
    riscv64-unknown-elf-gcc -march=rv32ima -mabi=ilp32 -nostdlib -static -T examples/lib/program.ld -z max-page-size=4096 \
        -Wl,--build-id=none -Wl,--fatal-warnings -o "$@"
}

# Links the sources with the start and the system calls of the examples. OPTIONS can be more options of the compiler.
build_with_names() ( # ELF SOURCE..
    set -e
    elf=$1 objects=()
    shift
    work=$(mktemp -d)
    trap 'rm -rf "$work"' EXIT
    for source in examples/lib/start.S examples/lib/machine.c "$@"; do
        objects+=("$work/$(basename "${source%.*}").o")
        # shellcheck disable=SC2086
        compile_with_names "${objects[-1]}" "$source" ${OPTIONS-}
    done
    link_with_names "$elf" "${objects[@]}"
)
