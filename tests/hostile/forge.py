"""Makes logs of both versions and small program files, field by field (docs/FORMAT.md; ELF, "ELF
Header" and "Program Header"): for the scripts beside it, which give the program files that nobody
recorded.
"""

import hashlib
import struct

# The settings in the order of a log's head, with their defaults: field 1 to 8.
SETTINGS = {
    "harts": 1,
    "interval": 100_000,
    "limit": 1_000_000_000,
    "log_size": 1_048_576,
    "memory": 1_048_576,
    "sets": 64,
    "ways": 4,
    "line": 8,
}
SIZES = {1: 146, 2: 10, 3: 2, 4: 2, 5: 19, 6: 15}
LENGTH = 1
CALL = 2
EXIT = 3
GROUP = 4
STOPPED = 5
LIMIT = 7


def digest(data):
    return hashlib.sha256(data).digest()


def sealed(signed):
    """Returns the bytes with their digest after them."""
    return signed + digest(signed)


def head(program, n, dropped=0, **settings):
    """Returns the 92 bytes before n bytes of records, with the digest of the program file."""
    values = {**SETTINGS, **settings}
    fields = struct.pack("<IIIQIIIII", 1, *values.values())
    return b"BUGNETLG" + fields + digest(program) + struct.pack("<QI", dropped, n)


def log(program, records, dropped=0, **settings):
    """Returns the log file with these records' bytes."""
    return sealed(head(program, len(records), dropped, **settings) + records)


# ---- version 2


def head2(settings, program, dropped, n):
    """Returns the 104 bytes before a head's digest; the settings are eleven numbers, the last the
    format, sets2 and ways2, and the program is a digest."""
    fields = struct.pack("<IIIQIIIIIIII", 2, *settings)
    return b"BUGNETLG" + fields + program + struct.pack("<QI", dropped, n)


def block(seal, records, before, left):
    """Returns a block of some records' bytes, sealed after a head's digest."""
    body = records + struct.pack("<QII", before % 2**64, left % 2**32, len(records) % 2**32)
    return body + digest(seal + body)


def cut(records):
    """Returns the records of each block."""
    blocks = []
    size = 4_097
    for record in records:
        if size + len(record) > 4_096:
            blocks.append([])
            size = 0
        blocks[-1].append(record)
        size += len(record)
    return blocks


def file2(signed, dropped, blocks):
    """Returns the file of a head and the records of each block."""
    data = sealed(signed)
    before = dropped
    left = sum(len(record) for records in blocks for record in records)
    for records in blocks:
        left -= sum(map(len, records))
        data += block(data[104:136], b"".join(records), before, left)
        before += len(records)
    return data


def log2(program, records, dropped=0, later=(1, 0, 0), **settings):
    """Returns the log file of version 2 with these records' bytes; `later` are format, sets2 and
    ways2."""
    values = (*{**SETTINGS, **settings}.values(), *later)
    return file2(head2(values, digest(program), dropped, len(records)),
                 dropped, cut(split(records)))


def parts2(data):
    """Returns the head of 104 bytes and the records' bytes, before and left of each block of an
    undamaged file."""
    end = len(data)
    blocks = []
    while end > 136:
        before, left, size = struct.unpack_from("<QII", data, end - 48)
        blocks.insert(0, (data[end - 48 - size : end - 48], before, left))
        end -= 48 + size
    return data[:104], blocks


# ---- parts of version 1, records and program files


def parts(data):
    """Returns the head and the records' bytes of a log file."""
    return data[:92], data[92:-32]


def split(records):
    """Returns records one by one, as far as there are any."""
    at = 0
    found = []
    while at < len(records) and at + SIZES.get(records[at], 1 << 32) <= len(records):
        found.append(records[at : at + SIZES[records[at]]])
        at += SIZES[records[at]]
    return found


def header(hart, interval, ic, pc, registers=()):
    """Returns a Header; registers are pairs of a number from 1 on and a value."""
    x = [0] * 32
    for number, value in registers:
        x[number] = value
    return struct.pack("<BBQQI31I", 1, hart, interval, ic, pc, *x[1:])


def begun(hart, harts=1, pc=0x10054, memory=1_048_576):
    """Returns the Header with which a hart begins a run."""
    return header(hart, 0, 0, pc, ((2, memory - 65_536 * hart), (10, hart), (11, harts)))


def first_load(hart, skip, value):
    return struct.pack("<BBII", 2, hart, skip, value)


def sc_ok(hart):
    return bytes((3, hart))


def edge(hart, ic, source, source_ic):
    return struct.pack("<BBQBQ", 5, hart, ic, source, source_ic)


def end(hart, ic, reason, value=0):
    return struct.pack("<BBQBI", 6, hart, ic, reason, value)


def segment(offset, address, file_size, memory_size, flags=5, kind=1):
    """Returns a program header."""
    return struct.pack("<8I", kind, offset, address, address, file_size, memory_size, flags, 4096)


def elf(entry, headers, data):
    """Returns an executable for RV32 with these program headers, and the data after them."""
    ident = b"\x7fELF\x01\x01\x01" + bytes(9)
    fields = (2, 243, 1, entry, 52, 0, 0, 52, 32, len(headers), 0, 0, 0)
    return ident + struct.pack("<HHIIIIIHHHHHH", *fields) + b"".join(headers) + data


def program(*words):
    """Returns the executable of some code words at 00010054."""
    size = 4 * len(words)
    return elf(0x10054, [segment(84, 0x10054, size, size)], struct.pack(f"<{len(words)}I", *words))
