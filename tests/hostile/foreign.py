#!/usr/bin/env python3
"""Gives each word that saves a file of somebody else as its target: all are to be refused, and to
stay as they are.

tests/hostile/foreign.py [EACH [SEED]]: of each kind so many files (5), drawn. The script's words
are called for each file. What a companion does with a target before it begins is done for each file
and each kind that it saves, and the word itself is called for each kind of file once. It ends with
1 if one was taken or has changed."""
import collections
import gzip
import io
import os
import random
import struct
import subprocess
import sys
import tarfile
import tempfile
import zipfile

import forked
from tried import TOP, read, write

sys.path.insert(0, TOP)
from companion.call import kinds, saving                      # noqa: E402
from companion.call.errors import CompanionError              # noqa: E402
from companion.questions import export                        # noqa: E402
from companion.triage import forms, store                     # noqa: E402

SCRIPT = f"{TOP}/zelkuma"
ELF = f"{TOP}/examples/hand_over.elf"
KINDS = {"LOG": kinds.LOG, "BOOK": kinds.TURNS, "page": kinds.PAGE, "json": forms.JSON,
         "junit": forms.JUNIT, "cache": store.CACHE, **export.KINDS}
SECONDS = 600               # after which a call hangs
WORDS = (b"the of and to in is it you that was for on are as with his they at be this "
         b"have from".split())


def text(draw, count=40):
    return b" ".join(draw.choice(WORDS) for _ in range(count)) + b"\n"


def zeros(draw):
    return bytes(draw.choice((600, 5000, 40000)))


def archive(draw, name, data):
    made = io.BytesIO()
    with tarfile.open(fileobj=made, mode="w", format=tarfile.USTAR_FORMAT) as file:
        about = tarfile.TarInfo(name)
        about.size = len(data)
        file.addfile(about, io.BytesIO(data))
    return made.getvalue()


def zipped(draw):
    made = io.BytesIO()
    with zipfile.ZipFile(made, "w") as file:
        file.writestr("notes", text(draw))
    return made.getvalue()


def noise(draw, least=0):
    return bytes(draw.randrange(least, 256) for _ in range(draw.choice((40, 3000))))


# How files of other kinds begin.
HEADS = {"png": b"\x89PNG\r\n\x1a\n", "gif": b"GIF89a", "bmp": b"BM",
         "jpeg": b"\xff\xd8\xff\xe0", "pdf": b"%PDF-1.7\n", "xz": b"\xfd7zXZ\0",
         "zstd": b"\x28\xb5\x2f\xfd", "bzip2": b"BZh9",
         "pcap": b"\xd4\xc3\xb2\xa1\2\0\4\0" + bytes(8), "pcapng": b"\n\r\r\n",
         "sqlite": b"SQLite format 3\0", "class": b"\xca\xfe\xba\xbe", "wasm": b"\0asm\1\0\0\0",
         "midi": b"MThd\0\0\0\6\0\1\0\2", "ogg": b"OggS\0\2", "flac": b"fLaC\0\0",
         "elf64": b"\x7fELF\2\1\1\0", "squashfs": b"hsqs", "pickle": b"\x80\4\x95",
         "icon": b"\0\0\1\0\1\0", "font": b"\0\1\0\0\0\x0c\0\x80"}


def foreign(log, book, page, draw):
    """{kind: the bytes of such a file}"""
    cut = draw.randrange(len(log) - 1) + 1
    made = {name: head + noise(draw, 16) for name, head in HEADS.items()}
    samples = struct.pack("<200h", *(draw.randrange(-9000, 9000) for _ in range(200)))
    made.update({
        "iso": bytes(32768) + b"\1CD001\1\0" + noise(draw, 16),
        "ext4": bytes(1024) + noise(draw, 16), "sparse": zeros(draw) + text(draw),
        "pcm": zeros(draw) + samples, "pcm of turns": book + samples,
        "wav": b"RIFF" + bytes(4) + b"WAVEfmt " + zeros(draw) + samples,
        "tar": archive(draw, "notes", text(draw)), "tar of a log": archive(draw, "BUGNETLG", log),
        "zip": zipped(draw), "gzip": gzip.compress(log),
        "text": text(draw), "notes on turns": book + text(draw),
        "empty lines": b"\n" * draw.randrange(1, 99),
        "lines of DOS": b"\r\n" * draw.randrange(1, 99),
        "lines in UTF-16": b"\n\0" * draw.randrange(1, 99),
        "text in UTF-16": text(draw).decode().encode("utf-16"),
        "tabs": b"\t" * draw.randrange(1, 99) + b"\n",
        "csv": b"0,1,2\n" * 9, "elf": read(ELF), "turns and one more": book + b"\x10",
        "turns before": b"\x7f" + book,
        "log cut": log[:cut], "log and more": log + noise(draw), "log twice": log + log,
        "log damaged": log[:cut] + bytes([log[cut] ^ 1 << draw.randrange(8)]) + log[cut + 1:],
        "log of later": log[:8] + b"\x09" + log[9:], "head of a log": b"BUGNETLG" + noise(draw),
        "named as a log": b"BUGNETLG is a word\n",
        "html": b"<!doctype html>\n<html><body>" + text(draw) + b"</body></html>\n",
        "page cited": b"<!doctype html>\n<p>" + page + b"</html>\n",
        "page twice": page + page, "page cut": page[:-9], "page and more": page + text(draw),
        "mark": kinds.PAGE_MARK.encode() + text(draw),
        "xml": b'<?xml version="1.0" encoding="utf-8"?>\n<a/>\n',
        "junit": b'<?xml version="1.0" encoding="utf-8"?>\n<testsuite name="pytest"></testsuite>\n',
        "json": b'{"answer": "why"}\n', "lcov": b"TN:\nSF:a.c\nDA:1,1\nend_of_record\n",
        "callgrind": b"# callgrind format\nversion: 1\ncreator: callgrind-3.19.0\n",
        "trace": b'{"traceEvents": []}\n',
        "trace of Chrome": b'{"otherData": {"creator": "chrome"}, "traceEvents": []}\n'})
    return made


def script_calls(name, folder):
    log = f"{folder}/LOG"
    other = f"{folder}/other"
    record = [SCRIPT, "record", "--seed", "1", "--harts", "2", ELF]
    return ([*record, name, other], [*record, other, name], [SCRIPT, "convert", log, name],
            [SCRIPT, "salvage", log, name])


def companion_calls(name, folder):
    log = f"{folder}/LOG"
    other = f"{folder}/other"
    yield from (["export", log, ELF, option, name] for option in export.KINDS)
    yield from (["triage", log, "--elfs", ELF, option, name]
                for option in ("--json", "--junit", "--html"))
    yield ["why", log, ELF, "--html", name]
    yield ["again", log, ELF, f"{folder}/BOOK", name]
    for pair in ([name, other], [other, name]):
        yield ["shrink", log, ELF, f"{folder}/BOOK", *pair]
        yield ["seeds", "1", "2", "--", "--harts", "2", ELF, *pair]


def is_refused(call):
    done = subprocess.run(call, stdin=subprocess.DEVNULL, stdout=subprocess.PIPE,
                          stderr=subprocess.PIPE, check=False, timeout=SECONDS)
    return done.returncode == 2 and done.stderr.count(b"\n") == 1 and not done.stdout


def is_refused_here(words, apart):
    ended = forked.companion(words, apart)
    return ended.status == 2 and ended.err.count(b"\n") == 1 and not ended.out


def is_refused_by(kind, name):
    try:
        saving.target(name, kind, [])
    except CompanionError as refused:
        return refused.status == 2
    return False


def tried(name, folder, apart, is_first):
    """What took a file."""
    taken = [" ".join(call) for call in script_calls(name, folder) if not is_refused(call)]
    taken += [f"a target for {of}" for of in KINDS if not is_refused_by(KINDS[of], name)]
    taken += [" ".join(words) for words in companion_calls(name, folder)
              if is_first and not is_refused_here(words, apart)]
    return taken


def main(words):
    each, seed = map(int, [*words, *("5", "1")[len(words):]])
    counts = collections.Counter()
    wrong = []
    with tempfile.TemporaryDirectory() as folder, tempfile.TemporaryDirectory() as apart:
        subprocess.run([SCRIPT, "record", "--format", "2", "--harts", "2", "--seed", "3", ELF,
                        f"{folder}/LOG", f"{folder}/BOOK"], stdout=subprocess.DEVNULL,
                       stderr=subprocess.DEVNULL, check=False)
        forked.companion(["why", f"{folder}/LOG", ELF, "--html", f"{folder}/page"], apart)
        log, book, page = (read(f"{folder}/{name}") for name in ("LOG", "BOOK", "page"))
        for number in range(each):
            for kind, data in foreign(log, book, page, random.Random(seed << 40 | number)).items():
                name = f"{folder}/foreign"
                write(name, data)
                taken = tried(name, folder, apart, not number)
                counts["files"] += 1
                if (taken or read(name) != data
                        or set(os.listdir(folder)) - {"LOG", "BOOK", "page", "foreign"}):
                    wrong.append(f"{kind}, {number}: {'; '.join(taken) or 'it has changed'}")
    print("".join(f"{line}\n" for line in wrong[:40]), end="")
    print(f"{counts['files']} files, {len(wrong)} were taken")
    sys.exit(1 if wrong else 0)


if __name__ == "__main__":
    main(sys.argv[1:])
