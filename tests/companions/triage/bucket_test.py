"""`bucket`: one line, the same for the same cause."""

import case
from common import CRASHES, companion, example, record


def bucket(log, elf, *more):
    status, text, err = companion("bucket", log, elf, *more)
    return (text if status == 0 and text.count("\n") == 1
            else "status %d: %s%s" % (status, text, err))


class BucketTest(case.Case):
    def test_causes(self):
        self.needs_addr2line()
        ring = CRASHES + "/race_ring.elf"
        lines = {bucket(record("ring" + seed, ring, "--harts", "2", "--seed", seed), ring)
                 for seed in ("3", "5", "8")}
        self.check("three schedules, one line", len(lines) == 1
                   and min(lines).startswith("LoadOutside other_harts race_ring.c:51 "), lines)
        hang = CRASHES + "/hang.elf"
        lines = {bucket(record("hang" + limit, hang, "--seed", "1", "--limit", limit), hang)
                 for limit in ("60000", "60001", "60007")}
        self.check("a hang that is cut elsewhere, one line",
                   len(lines) == 1 and min(lines).startswith("limit fire - "), lines)
        locks = example("two_locks")
        lines = {bucket(record("locks" + limit, locks, "--seed", "8", "--harts", "2", "--limit",
                               limit), locks) for limit in ("20000", "1500000")}
        self.check("a hang whose calls are from before the last million rows, one line",
                   len(lines) == 1, lines)
        seen = bucket(*self.crash("lock_left_held")), bucket(*self.crash("use_after_free"))
        self.check("two causes, two lines", seen[0].startswith("limit acquire - ")
                   and seen[1].startswith("LoadOutside serve "), seen)
        line = bucket(record("tills", example("tills"), "--harts", "2", "--seed", "1"),
                      example("tills"))
        self.check("a stripped program has its addresses",
                   line.startswith("LoadOutside 00010194 - "), line)
        line = bucket(record("count", example("word_count"), "--seed", "1"), example("word_count"))
        self.check("a run that exits is told by its code",
                   line.split()[0] in ("exit", "group") and line.endswith(" - -\n"), line)
