"""One line for each cause."""
from __future__ import annotations

from ..call import streams
from ..call.help import Help
from ..call.options import read_words
from ..recording.answers import put_answer
from ..recording.cause import bucket_of, cause_of_file
from ..recording.opened import opened

HELP = Help(
    "bucket LOG ELF [--names ELF] [--json]", "one line by which logs are sorted by their cause",
    """Prints one line that is the same for logs that ended for the same cause, for sorting many
logs: `sort | uniq -c` over the lines groups them. It has how the run ended, the function, FILE:LINE
and a digest: of the address, and of the functions on the call stack by ELF's own symbols, each
once. So the digest is the same on each machine, with and without --names and addr2line. Values,
counts and the schedule aren't in it.""", {},
    """A run that came to its limit is told by the outermost function of its last rows, since any
row of a loop can be last. Of a large log the last million rows are read, of such a run 20 million,
and calls from before them aren't known.""")


def main(words: list[str]) -> int:
    (log_name, elf_name), given = read_words(words, HELP.form)
    with opened(log_name, elf_name, given) as found:
        bucket = bucket_of(cause_of_file(found.source, elf_name), found.elf, found.places)
    if "--json" in given:
        put_answer("bucket", line=bucket.line(), **bucket._asdict())
    else:
        streams.put(bucket.line() + "\n")
    return 0
