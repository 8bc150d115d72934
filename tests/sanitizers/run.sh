#!/usr/bin/env bash
# Tries `zelkuma memory` on tests of AddressSanitizer and memcheck: tests/sanitizers/run.sh FOLDER
#
# FOLDER gets the sources of Debian's packages gcc-12-source and valgrind, and then of each test its ELF file and its log. Tests that
# need threads, shared libraries or signals don't build for this machine, which is said. Beside them stand the programs of fresh/, and
# what AddressSanitizer and memcheck tell of each on this machine. Needs apt-get, gcc, valgrind, riscv64-unknown-elf-gcc and picolibc.
# It prints a line for each test, and tests/sanitizers/tables.py FOLDER writes the tables of bench/RESULTS.md.
set -eu
top=$(cd "$(dirname "$0")/../.." && pwd)
to=$(mkdir -p "$1" && cd "$1" && pwd)
cd "$to"
if [ ! -d gcc ]; then
    compgen -G 'gcc-12-source_*.deb' >/dev/null || apt-get download -q gcc-12-source
    dpkg-deb --fsys-tarfile gcc-12-source_*.deb | tar xf - --wildcards './usr/src/gcc-12/gcc-*.tar.xz'
    mkdir gcc
    tar xf usr/src/gcc-12/gcc-*.tar.xz -C gcc --strip-components=3 --wildcards '*/gcc/testsuite/c-c++-common/asan/*' \
        '*/gcc/testsuite/gcc.dg/asan/*'
    rm -r usr
fi
if [ ! -d valgrind ]; then
    mkdir -p lists/partial valgrind
    echo "deb-src [signed-by=/usr/share/keyrings/debian-archive-keyring.gpg] http://deb.debian.org/debian bookworm main" >sources.list
    apt=(apt-get -q -o "Dir::Etc::SourceList=$to/sources.list" -o Dir::Etc::SourceParts=/dev/null -o "Dir::State::lists=$to/lists")
    "${apt[@]}" update && "${apt[@]}" source --download-only valgrind
    tar xf valgrind_*.orig.tar.* -C valgrind --strip-components=1 --wildcards '*/memcheck/*' '*/include/*.h' '*/tests/*.h'
fi
python3 "$top/tests/sanitizers/tries.py" "$to"
