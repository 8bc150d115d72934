#!/bin/sh
# serve.sh ELF: records ELF, unless it was, and serves gdb on the recording. A test may write another program to the
# same name, so the log's name has the program's checksum.
elf=$1
log=$elf.$(md5sum <"$elf" | cut -c 1-12).log
record() {
    "$ZELKUMA" record --format 2 --seed 1 --limit 2000000 --log-size 64M "$@" "$elf" "$log" "$elf.book" >>"$elf.recorded" 2>&1 </dev/null
}
[ -s "$log" ] || record
[ -s "$log" ] || record --memory 64M    # a program that doesn't fit into 1 MiB
exec "$ZELKUMA" gdb "$log" "$elf" 2>>"$elf.served"
