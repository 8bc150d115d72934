#!/bin/bash
# run.sh [FOLDER | FOLDER/FILE.exp]..: GDB's own test suite over `zelkuma gdb`, and the same files with gdb's own recorder
# (`record full`) on this machine as the control; gdb.reverse if nothing is named. It prints a table by files.
#
# Of gdb.base those files are run that base.txt names. Needs of Debian: dejagnu, gdb, gdb-multiarch, gcc,
# gcc-riscv64-unknown-elf, picolibc-riscv64-unknown-elf, and apt-get, which gets gdb's sources. Everything that is made is
# kept in $GDB_SUITE_WORK, or /tmp/zelkuma_gdb_suite.
set -eu
SUITE=$(cd "$(dirname "$0")" && pwd)
ZELKUMA=$(cd "$SUITE/../.." && pwd)/zelkuma
export SUITE ZELKUMA
work=${GDB_SUITE_WORK:-/tmp/zelkuma_gdb_suite}
sources=$work/sources/gdb/testsuite
mkdir -p "$work"

for tool in runtest gdb gdb-multiarch gcc riscv64-unknown-elf-gcc apt-get dpkg; do
    command -v "$tool" >/dev/null || { echo "run.sh: $tool isn't installed" >&2; exit 1; }
done

if [ ! -d "$sources" ]; then
    (cd "$work" && apt-get download gdb-source && dpkg -x gdb-source_*.deb .)
    mkdir -p "$work/sources.new"
    tar xf "$work"/usr/src/gdb.tar.* -C "$work/sources.new" --strip-components=1
    mv "$work/sources.new" "$work/sources"
fi
# GDB's test of watchpoints backwards sets them while hardware watchpoints are off, so both of its parts try software
# watchpoints. A copy sets them while they are on.
sed 's/set can-use-hw-watchpoints 0/set can-use-hw-watchpoints 1/; s/disable hw watchpoints/hw watchpoints from the beginning/' \
    "$sources/gdb.reverse/watch-reverse.exp" >"$sources/gdb.reverse/watch-reverse-hw.exp"
cp "$sources/gdb.reverse/watch-reverse.c" "$sources/gdb.reverse/watch-reverse-hw.c"

# What a recording of a static program for one core hasn't: gdb's own way to save a recording, signals, shared libraries,
# other processes, Linux's calls, other processors and languages.
SKIPPED='precsave|rerun-prec|sigall|syn-frame|multi-commands|solib|shlib|attach|fork|exec|async|interrupt|nonstop|-ns|new-ui|catch|corefile|pthreads'
SKIPPED=$SKIPPED'|fstatat|getrandom|getresuid|pipe-rev|readv|recvmsg|ioctl|time-rev|waitpid|available|info-os|file-transfer'
SKIPPED=$SKIPPED'|amd64|i38[67]|ppc|s390|insn-reverse|thunk|singlejmp|fortran|cpp|-cp\.|rtti|thread-group|user-selected'

# The files that a word names.
files() {
    case $1 in
    *.exp) echo "$1" ;;
    gdb.base) cat "$SUITE/base.txt" ;;
    *) (cd "$sources" && ls "$1"/*.exp) ;;
    esac
}

# run NAME BOARD TARGET GDB FILE..: runs files into the folder NAME.
run() {
    local name=$1 board=$2 target=$3 gdb=$4
    shift 4
    rm -rf "${work:?}/$name"
    mkdir -p "$work/$name"
    cd "$work/$name"
    cat >site.exp <<SITE
set tool gdb
set srcdir "$sources"
set objdir "$work/$name"
set host_triplet x86_64-pc-linux-gnu
set build_triplet x86_64-pc-linux-gnu
set target_triplet $target
set GDB "$gdb"
set GDB_DATA_DIRECTORY ""
lappend boards_dir "$SUITE"
SITE
    echo "lappend boards_dir \"$SUITE\"" >global.exp
    DEJAGNU=$work/$name/global.exp runtest --target_board "$board" "$@" >run.out 2>&1 </dev/null || true
    [ -s gdb.sum ] || { tail -n 5 run.out >&2; exit 1; }
}

[ $# -gt 0 ] || set -- gdb.reverse
mapfile -t names < <(for word in "$@"; do files "$word"; done | grep -vE -- "$SKIPPED")
run bridge zelkuma riscv32-unknown-elf "$(command -v gdb-multiarch)" "${names[@]}" &
# gdb's recorder knows no AVX instruction, which glibc takes if the processor has it.
LD_BIND_NOW=1 GLIBC_TUNABLES=glibc.cpu.hwcaps=-AVX_Fast_Unaligned_Load,-AVX2,-AVX512F,-AVX512VL,-ERMS,-XSAVEC,-XSAVE \
    run control unix x86_64-pc-linux-gnu "$(command -v gdb)" "${names[@]}" &
wait
python3 "$SUITE/table.py" "$work/bridge" "$work/control"
