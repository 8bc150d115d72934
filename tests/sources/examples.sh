#!/usr/bin/env bash
# Are the ELF files of examples/ those that its script builds? That holds for one version of the compiler.
. "$(dirname "$0")/../asserts.sh"
version=$(riscv64-unknown-elf-gcc -dumpfullversion 2>/dev/null) || version=no
[ "$version" = 12.2.0 ] || end_skipped "the ELF files of examples/ were built by GCC 12.2.0, here is $version"

what="the ELF files of examples/"
runs 0 "$top/examples/build.sh" "$work/built"
for elf in "$top"/examples/*.elf; do
    equals "$elf" "$work/built/${elf##*/}"
done

what="the guide's line, by which the same file comes twice" # (the assembler names its objects each time otherwise)
cd "$top" || exit 1
line=$(sed -n '/^riscv64-unknown-elf-gcc /,/heap\.c$/p' docs/GUIDE.md)
for name in once twice; do
    runs 0 bash -c "$(sed -E "s# -o [^ ]+# -o $work/$name#" <<<"$line")"
done
equals "$work/once" "$work/twice"
end
