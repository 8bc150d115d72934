#!/usr/bin/env python3
"""What many logs cost: `triage` of a folder of logs, and `seeds` for each run, in processor time of
all processes.

bench/triage_cost.py [PROGRAM]. Rates are those of four processors that do nothing else: four over
the time of one. A search also takes turns in one process, which can't be faster than its own time
for a run."""
import os
import resource
import subprocess
import sys
import tempfile
import time

TOP = os.path.dirname(os.path.dirname(os.path.realpath(__file__)))
COMPANION, CRASHES, EXAMPLES = (os.path.join(TOP, *name)
                                for name in (["companion"], ["tests", "crashes"], ["examples"]))
PROGRAM = sys.argv[1] if len(sys.argv) > 1 else os.path.join(TOP, "release", "zelkuma-x86_64-linux")
SMALL = (
    "use_after_free null_route overrun_path freed_frame race_ring stack_digits misaligned_pool "
    "libc_points hang race_users".split())
LOGS = 500
RUNS = 400
LARGE = 8
PROCESSORS = 4
TIMED = """import resource, sys
sys.path.insert(0, sys.argv.pop(1))
from companion.orders import seeds
try:
    seeds.main(sys.argv[1:])
finally:
    for who in resource.RUSAGE_SELF, resource.RUSAGE_CHILDREN:
        print(sum(resource.getrusage(who)[:2]))
"""


def record(log, elf, *words):
    subprocess.run([PROGRAM, "record", "--format", "2", *words, elf, log, log + ".book"],
                   stdout=subprocess.DEVNULL, stderr=subprocess.DEVNULL, check=False)
    os.remove(log + ".book")


def spent(*words):
    """The processor seconds of a call and all that it started, the seconds by the clock, and what
    it printed."""
    before = resource.getrusage(resource.RUSAGE_CHILDREN)
    began = time.monotonic()
    said = subprocess.run(words, stdout=subprocess.PIPE, stderr=subprocess.DEVNULL, check=False,
                          env=dict(os.environ, ZELKUMA_PROGRAM=PROGRAM),
                          universal_newlines=True).stdout
    after = resource.getrusage(resource.RUSAGE_CHILDREN)
    return sum(after[:2]) - sum(before[:2]), time.monotonic() - began, said


def triage(folder, logs, what):
    seconds, clock, said = spent(sys.executable, COMPANION, "triage", folder, "--elfs", CRASHES)
    found = said.partition("\n")[0]
    print(f"triage of {logs} {what}: {seconds:.1f} s of processor time, "
          f"so {seconds / PROCESSORS:.1f} s on {PROCESSORS} processors "
          f"({clock:.1f} s by the clock): {found}", flush=True)


def main():
    with tempfile.TemporaryDirectory() as folder:
        os.environ["XDG_CACHE_HOME"] = folder
        for number in range(LOGS):
            name = SMALL[number % len(SMALL)]
            words = ["--harts", "2" if name.startswith("race_") else "1", "--limit",
                     "60000", "--seed", str(number)]
            record(os.path.join(folder, "%d.log" % number),
                   os.path.join(CRASHES, name + ".elf"), *words)
        triage(folder, LOGS, "small logs of ten programs")
    with tempfile.TemporaryDirectory() as folder:
        for number in range(LARGE):
            record(os.path.join(folder, "%d.log" % number), os.path.join(CRASHES, "hang.elf"),
                   "--limit", str(1000000 + number), "--seed", "1")
        triage(folder, LARGE, "logs of a million rows")
    for name, harts in (("counter", "1"), ("counter", "2"), ("hand_over", "2")):
        with tempfile.TemporaryDirectory() as folder:
            said = spent(sys.executable, "-c", TIMED, TOP, "--only", "seeds", "--all", folder,
                         "1", str(RUNS), "--", "--harts", harts,
                         os.path.join(EXAMPLES, name + ".elf"))[2].split("\n")
        own, others = map(float, said[-3:-1])
        print("seeds on %s.elf, %s hart(s): %.1f ms of processor time a run, so %.0f runs a second "
              "on %d processors; of it %.2f ms in the one process, so at most %.0f"
              % (name, harts, 1000 * (own + others) / RUNS, PROCESSORS * RUNS / (own + others),
                 PROCESSORS, 1000 * own / RUNS, RUNS / own), flush=True)


if __name__ == "__main__":
    main()
