#!/usr/bin/env python3
"""Reads a log file of version 1 or 2, checks it, and prints its intervals, as docs/FORMAT.md says.

    read_log.py LOG             the line of `check`, then those of `list`
    read_log.py --records LOG   each record
    read_log.py --salvage LOG   the same of the last good blocks of a damaged file of version 2
"""
import hashlib
import os
import struct
import sys

sys.path.insert(0, os.path.dirname(os.path.dirname(os.path.abspath(__file__))))
from companion.recording.log import REASONS, SIZES

FIELDS = ((1, 1, 16), (2, 1, 10**7), (3, 1, 2**40), (4, 16384, 2**28), (5, 65536, 2**26),
          (6, 1, 1024), (7, 1, 16), (8, 1, 16), (10, 1, 2), (11, 0, 4096), (12, 0, 16))


def refuse(good, *why):
    if not good:
        sys.exit("log: " + " ".join(str(word) for word in why))


def digest(data):
    return hashlib.sha256(data).digest()


def number(data, at, width):
    return int.from_bytes(data[at:at + width], "little")


def check_settings(values):
    harts = values[0]
    form, sets2, ways2 = values[8:]
    second = form == 2
    for (field, low, high), value in zip(FIELDS, values):
        good = low <= value <= high and not (field == 5 and value % 4096)
        good = good and not (field == 1 and harts > 8 and not second)
        good = good and not (field == 11 and sets2 and not second)
        good = good and not (field == 12 and (sets2 == 0) != (ways2 == 0))
        refuse(good and not (field in (6, 8, 11) and value & (value - 1)), "BadHead", field, value)


def head_of(data, salvage):
    """The version, the format, dropped and n."""
    refuse(len(data) >= 124, "Short", len(data))
    refuse(data[:8] == b"BUGNETLG", "BadMagic")
    version = number(data, 8, 4)
    refuse(version == 2 or (version == 1 and not salvage), "BadVersion", version)
    refuse(version == 1 or len(data) >= 136, "Short", len(data))
    settings = struct.unpack_from("<IIQIIIII", data, 12)
    extra = struct.unpack_from("<III", data, 48) if version == 2 else (1, 0, 0)
    check_settings(settings + extra)
    dropped, n = struct.unpack_from("<QI", data, 92 if version == 2 else 80)
    refuse(n <= settings[3], "BadHead", 9, n)
    return version, extra[0], dropped, n


def good_block(data, seal, n, left):
    """How many bytes of records the block has that ends the data, or None if it is bad."""
    size = number(data, len(data) - 36, 4) if len(data) >= 136 + 48 else 0
    if not (1 <= size <= 4096 and size + 48 <= len(data) - 136 and left + size <= n):
        return None
    body = data[len(data) - 48 - size:len(data) - 32]
    good = number(data, len(data) - 40, 4) == left and data[-32:] == digest(seal + body)
    return size if good else None


def blocks_of(data, n):
    """The good blocks from the end back, first to last, and the place at which the first begins."""
    seal = digest(data[:104])
    blocks = []
    left = 0
    end = len(data)
    while (size := good_block(data[:end], seal, n, left)) is not None:
        start = end - size - 48
        blocks.insert(0, (data[start:start + size], number(data, end - 48, 8), end))
        left = left + size
        end = start
    return blocks, end


def records_of(data, form):
    at = 0
    records = []
    while at < len(data):
        size = SIZES.get(data[at], 0)
        good = size and at + size <= len(data)
        if good and data[at] == 6:
            reason = data[at + 10]
            value = number(data, at + 11, 4)
            good = (reason in REASONS and not (reason in (1, 5, 6, 7, 18) and value)
                    and (reason != 6 or form == 2))
        refuse(good, "BadRecord", at)
        records.append(data[at:at + size])
        at += size
    return records


def check_cut(blocks, records, dropped):
    """The records are cut into blocks from the front, each of at most 4,096 bytes."""
    before = dropped
    left = list(records)
    for body, said, end in blocks:
        cut = b""
        count = 0
        while count < len(left) and len(cut) + len(left[count]) <= 4096:
            cut = cut + left[count]
            count += 1
        refuse(body == cut and said == before % 2**64, "BadBlock", end)
        before = before + count
        left = left[count:]


def read(data, salvage):
    version, form, dropped, n = head_of(data, salvage)
    if version == 1:
        refuse(n == len(data) - 124, "LengthDiffers", n, len(data) - 124)
        refuse(digest(data[:-32]) == data[-32:], "DigestDiffers",
               data[-32:].hex(), digest(data[:-32]).hex())
        return dropped, records_of(data[92:-32], form)
    found = digest(data[:104])
    refuse(found == data[104:136], "DigestDiffers", data[104:136].hex(), found.hex())
    blocks, end = blocks_of(data, n)
    total = sum(len(block[0]) for block in blocks)
    if salvage:
        refuse(n == 0 or blocks, "nothing left")
        dropped = blocks[0][1] if blocks else dropped
    else:
        refuse(end == 136, "BadBlock", end)
        refuse(total == n, "LengthDiffers", n, total)
    records = records_of(b"".join(block[0] for block in blocks), form)
    check_cut(blocks, records, dropped)
    return dropped, records


def said(record):
    hart = record[1]
    if record[0] == 1:
        return "Header %d interval %d ic %d pc %08x" % ((hart,)
                                                        + struct.unpack_from("<QQI", record, 2))
    if record[0] == 2:
        return "FirstLoad %d skip %d value %08x" % ((hart,) + struct.unpack_from("<II", record, 2))
    if record[0] == 5:
        return "Edge %d ic %d from %d from_ic %d" % ((hart,)
                                                     + struct.unpack_from("<QBQ", record, 2))
    if record[0] == 6:
        ic, reason, value = struct.unpack_from("<QBI", record, 2)
        return "End %d ic %d %s %08x" % (hart, ic, REASONS[reason], value)
    return "%s %d" % ("ScOk" if record[0] == 3 else "ScFailed", hart)


def main(words):
    with open(words[-1], "rb") as file:
        dropped, records = read(file.read(), "--salvage" in words)
    if "--records" in words:
        print("\n".join(said(record) for record in records))
        return
    headers = [record for record in records if record[0] == 1]
    print("ok records", len(records), "intervals", len(headers), "dropped", dropped,
          "bytes", sum(map(len, records)))
    for at, record in enumerate(records):
        if record[0] == 1:
            end = next(r for r in records[at:] if r[0] == 6 and r[1] == record[1])
            ic, reason, value = struct.unpack_from("<QBI", end, 2)
            print(record[1], number(record, 2, 8), number(record, 10, 8), ic,
                  REASONS[reason], "%08x" % value)


if __name__ == "__main__":
    main(sys.argv[1:])
