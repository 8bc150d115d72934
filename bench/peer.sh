#!/usr/bin/env bash
# Times record and replay of a long run that ends in a fault, beside QEMU's own record/replay (qemu-system-riscv32, icount) of
# the same code on bare metal. QEMU logs inputs alone, and replays from the start; ours logs first loads, and replays what the
# log still holds. Printed are seconds by the clock and of the processor, each the least of RUNS (3): of recording, from the
# log to the last instruction before the fault, and of one step back from there. Other work changes those of the clock most.
#
# bench/peer.sh [ROUNDS [RUNS]]: 463 rounds of examples/sort.c are 10^9 instructions.
# It needs qemu-system-riscv32, qemu-img, gdb-multiarch and riscv64-unknown-elf-gcc.
set -eu
top=$(cd "$(dirname "$0")/.." && pwd)
rounds=${1:-463} runs=${2:-3}
zelkuma=${ZELKUMA_PROGRAM:-$top/release/zelkuma-x86_64-linux}
for tool in qemu-system-riscv32 qemu-img gdb-multiarch riscv64-unknown-elf-gcc; do
    command -v $tool >/dev/null || { echo "skipped: $tool isn't here"; exit 0; }
done
work=$(mktemp -d)
trap 'rm -rf "$work"' EXIT
cd "$work"

link() { # OUTPUT WORD..
    sed "s/define ROUNDS 5/define ROUNDS $rounds/" "$top/examples/sort.c" >sort.c
    riscv64-unknown-elf-gcc -march=rv32ima_zicsr -mabi=ilp32 -O2 -ffreestanding -nostdlib -static -Dmain=sorted -o "$1" "${@:2}" "$top/bench/peer.S" sort.c
}
link hosted.elf
link bare.elf -DBARE -Wl,-Ttext=0x80000000 -mcmodel=medany

# The least seconds of all runs of the words, which end with STATUS: by the clock, and of the processor.
least() { # STATUS WORD..
    local status wanted=$1 run
    : >taken
    shift
    for ((run = 0; run < runs; run++)); do
        status=0
        { TIMEFORMAT='%R %U %S' && time "$@" >out 2>err; } 2>seconds || status=$?
        [ "$status" -eq "$wanted" ] || { echo "'$*' ended with $status, and not with $wanted:" >&2; cat err >&2; exit 1; }
        cat seconds >>taken
    done
    awk '{ busy = $2 + $3 }
        NR == 1 || $1 < clock { clock = $1 }
        NR == 1 || busy < least { least = busy }
        END { print clock, least }' taken
}

# (a machine that doesn't come to its end is stopped)
emulate() { # WORD..
    timeout 600 qemu-system-riscv32 -M virt -m 64M -display none -monitor none -serial none -bios none -kernel bare.elf "$@"
}

states=(-drive "file=states.qcow2,if=none,id=states")

# Leads QEMU's replay to the fault, and one instruction back: prints the seconds of each.
walk() {
    local port=$((20000 + RANDOM % 20000)) emulator
    emulate "${states[@]}" -icount shift=1,rr=replay,rrfile=rr.log,rrsnapshot=start -S -gdb "tcp:127.0.0.1:$port" -pidfile pid &
    emulator=$!
    cat >walk.py <<END
import gdb, os, time
def busy():
    fields = open(f"/proc/{open('pid').read().strip()}/stat").read().rsplit(")", 1)[1].split()
    return (int(fields[11]) + int(fields[12])) / os.sysconf("SC_CLK_TCK")
def seconds(command):
    clock, before = time.perf_counter(), busy()
    gdb.execute(command, to_string=True)
    return f"{time.perf_counter() - clock:.3f} {busy() - before:.3f}"
gdb.execute("set confirm off")
for _ in range(100):
    try:
        gdb.execute("target remote 127.0.0.1:$port", to_string=True)
        break
    except gdb.error:
        time.sleep(0.05)
gdb.execute("break *&crash", to_string=True)
print("to", seconds("continue"), hex(gdb.selected_frame().pc()))
print("back", seconds("reverse-stepi"), hex(gdb.selected_frame().pc()))
gdb.execute("kill")
END
    timeout 600 gdb-multiarch -nx -batch -ex "source walk.py" bare.elf 2>walk.err | grep -E '^(to|back) '
    kill "$emulator" 2>/dev/null || :
    wait "$emulator" 2>/dev/null || :
}

say() { printf '%-44s %8.3f s, processor %8.3f s\n' "$1" "${2% *}" "${2#* }"; } # WHAT "CLOCK PROCESSOR"

debug() { printf '%s\n' "$@" quit | "$zelkuma" debug log hosted.elf; } # COMMAND..

say "zelkuma record --format 2 --seed 1" "$(least 10 "$zelkuma" record --format 2 --seed 1 --limit 2000000000 hosted.elf log book)"
cat err
to=$(least 0 debug go)
say "zelkuma: to the fault" "$to"
back=$(least 0 debug go back back)
say "zelkuma: to the fault, and two steps back" "$back"
qemu-img create -q -f qcow2 states.qcow2 64M
say "qemu-system-riscv32 rr=record" "$(least 0 emulate "${states[@]}" -icount shift=1,rr=record,rrfile=rr.log,rrsnapshot=start)"
say "the same, without a record" "$(least 0 emulate -icount shift=1)"
say "the same, an instruction at a time" "$(least 0 emulate -icount shift=1 -singlestep)"
for ((run = 0; run < runs; run++)); do walk; done | sort -k 1,1r -k 3,3g |
    awk '!seen[$1]++ { printf "%-44s %8.3f s, processor %8.3f s, at %s\n", "qemu-system-riscv32 rr=replay, " ($1 == "to" ? "to the fault" : "a step back"), $2, $3, $4 }'
stat -c '%n: %s bytes' log rr.log
