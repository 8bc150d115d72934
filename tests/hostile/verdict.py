"""Says what `check` has to print of a log file, and what `salvage` has to save of one of version 2.

It knows docs/FORMAT.md alone: each refusal in its order, the walk over the blocks, and the seven
rules of the order of records. tests/hostile/fuzz.py compares the program with it.
"""

import struct

import forge

FIELDS = (("harts", 1, 8), ("interval", 1, 10**7), ("limit", 1, 2**40), ("log_size", 16_384, 2**28),
          ("memory", 65_536, 2**26), ("sets", 1, 1_024), ("ways", 1, 16), ("line", 1, 16))
FORMATS = (1, 2)
HARTS_OF_FORMAT_2 = 16
SETS2 = 4_096
WAYS2 = 16
REASONS = (1, 2, 3, 4, 5, 7, *range(17, 26))
GUARD = 6


class Refused(Exception):
    pass


def refuse(good, *why):
    if not good:
        raise Refused("log: " + " ".join(str(word) for word in why))


def settings_of(data):
    values = struct.unpack_from("<IIQIIIII", data, 12)
    more = struct.unpack_from("<III", data, 48) if data[8] == 2 else (1, 0, 0)
    for field, ((name, low, high), value) in enumerate(zip(FIELDS, values), 1):
        high = HARTS_OF_FORMAT_2 if name == "harts" and more[0] == 2 else high
        good = low <= value <= high and not (name == "memory" and value % 4_096)
        refuse(good and not (name in ("sets", "line") and value & (value - 1)), "BadHead",
               field, value)
    check_later_settings(*more)
    return values + more


def check_later_settings(version, sets2, ways2):
    refuse(version in FORMATS, "BadHead", 10, version)
    good = version == 2 and 1 <= sets2 <= SETS2 and not sets2 & (sets2 - 1)
    refuse(sets2 == 0 or good, "BadHead", 11, sets2)
    refuse(ways2 == 0 if sets2 == 0 else 1 <= ways2 <= WAYS2, "BadHead", 12, ways2)


def is_mark(version, reason, value):
    if reason == GUARD:
        return version == 2 and value == 0
    return reason in REASONS and not (reason in (1, 5, 7, 18) and value)


def records_of(data, version):
    """Returns pairs of a place and a record."""
    at = 0
    found = []
    while at < len(data):
        size = forge.SIZES.get(data[at], 0)
        good = size and at + size <= len(data)
        if good and data[at] == 6:
            good = is_mark(version, *struct.unpack_from("<BI", data, at + 10))
        refuse(good, "BadRecord", at)
        found.append((at, data[at : at + size]))
        at += size
    return found


class Hart:
    def __init__(self, whole):
        self.state, self.count, self.number = (("awaiting", 0, 0) if whole
                                               else ("unknown", None, None))
        self.seen = 0
        self.last_end = None
        self.has_record = False

    def header(self, record, limit):
        """Returns the lowest rule that a Header breaks, or 0."""
        number, ic = struct.unpack_from("<QQ", record, 2)
        if self.state in ("open", "done"):
            return 2
        other = self.state == "awaiting" and (ic != self.count or self.number not in (None, number))
        if other or number > 2**41:
            return 4
        if not self.seen <= ic <= limit:
            return 5
        self.state = "open"
        self.count = ic
        self.number = number
        return 0

    def edge(self, record, interval, limit):
        ic, _, source_ic = struct.unpack_from("<QBQ", record, 2)
        if ic >= limit or source_ic >= limit or ic < self.seen - 1:
            return 5
        if self.state == "open" and not self.count <= ic < self.count + interval:
            return 5
        self.seen = max(self.seen, ic + 1)
        return 0

    def end(self, record, interval, limit):
        ic, reason = struct.unpack_from("<QB", record, 2)
        if not self.seen <= ic <= limit or (reason == 7 and ic != limit):
            return 5
        if self.state == "open":
            low = self.count + (interval if reason == 1 else 0)
            if not low <= ic <= self.count + interval:
                return 5
        number = self.number + 1 if self.state == "open" else None
        self.state = "awaiting" if reason in (1, 2, GUARD) else "done"
        self.count = ic
        self.number = number
        self.last_end = ic
        return 0


def rule_of(harts, record, interval, limit):
    """Returns the lowest rule that a record breaks, or 0; then the hart continues."""
    tag = record[0]
    number = record[1]
    if number >= len(harts) or (tag == 5 and (record[10] >= len(harts) or record[10] == number)):
        return 1
    hart = harts[number]
    hart.has_record = True
    if tag == 1:
        return hart.header(record, limit)
    if hart.state in ("awaiting", "done"):
        return 3
    if tag == 5:
        return hart.edge(record, interval, limit)
    return hart.end(record, interval, limit) if tag == 6 else 0


def check_order(records, n, dropped, settings):
    harts = [Hart(dropped == 0) for _ in range(settings[0])]
    for at, record in records:
        rule = rule_of(harts, record, settings[1], settings[2])
        refuse(rule == 0, "BadOrder", at, rule)
    for hart in harts:
        refuse(hart.state == "done" or not (hart.has_record or dropped == 0), "BadOrder", n, 6)
    for at, record in records:
        if record[0] == 5:
            last = harts[record[10]].last_end
            refuse(last is None or struct.unpack_from("<Q", record, 11)[0] < last, "BadOrder",
                   at, 7)


# ---- version 2


def good_block(data, end, seal, n, left):
    """Returns how many bytes of records the block has that ends at a place, or 0 if it is bad."""
    if end - 136 < 48:
        return 0
    said, size = struct.unpack_from("<II", data, end - 40)
    if not (1 <= size <= 4_096 and size + 48 <= end - 136 and said == left and left + size <= n):
        return 0
    good = forge.digest(seal + data[end - 48 - size : end - 32]) == data[end - 32 : end]
    return size if good else 0


def walk(data, n):
    """Returns the good blocks from the end back, first to last, each its records, its before and
    its end; and the place at which the first one begins."""
    seal = forge.digest(data[:104])
    end = len(data)
    left = 0
    blocks = []
    while size := good_block(data, end, seal, n, left):
        start = end - 48 - size
        before = struct.unpack_from("<Q", data, end - 48)[0]
        blocks.insert(0, (data[start : start + size], before, end))
        end = start
        left = left + size
    return blocks, end


def check_cut(blocks, records, dropped):
    cut = forge.cut([record for _, record in records])
    before = dropped
    for (said, count, end), wanted in zip(blocks, cut + [[]] * len(blocks)):
        refuse(said == b"".join(wanted) and count == before % 2**64, "BadBlock", end)
        before += len(wanted)


def content(settings, program, dropped, records):
    """What a log says: its head, how many records were given up, and its records one by one."""
    return settings, program, dropped, [record for _, record in records]


def checked(settings, program, dropped, blocks):
    data = b"".join(records for records, _, _ in blocks)
    records = records_of(data, settings[8])
    check_cut(blocks, records, dropped)
    check_order(records, len(data), dropped, settings)
    return content(settings, program, dropped, records)


def head_of_2(data):
    refuse(len(data) >= 136, "Short", len(data))
    settings = settings_of(data)
    dropped, n = struct.unpack_from("<QI", data, 92)
    refuse(n <= settings[3], "BadHead", 9, n)
    found = forge.digest(data[:104])
    refuse(found == data[104:136], "DigestDiffers", data[104:136].hex(), found.hex())
    return settings, data[60:92], dropped, n


def second(data):
    settings, program, dropped, n = head_of_2(data)
    blocks, end = walk(data, n)
    refuse(end == 136, "BadBlock", end)
    total = sum(len(records) for records, _, _ in blocks)
    refuse(total == n, "LengthDiffers", n, total)
    return checked(settings, program, dropped, blocks)


def salvaged(data):
    """Returns what is salvaged of a log, or raises Refused with the line of err."""
    refuse(version_of(data) == 2, "BadVersion", version_of(data))
    settings, program, dropped, n = head_of_2(data)
    blocks, _ = walk(data, n)
    if n and not blocks:
        raise Refused("nothing left")
    return checked(settings, program, blocks[0][1] if blocks else dropped, blocks)


# ---- both versions


def version_of(data):
    refuse(len(data) >= 124, "Short", len(data))
    refuse(data[:8] == b"BUGNETLG", "BadMagic")
    return struct.unpack_from("<I", data, 8)[0]


def first(data):
    settings = settings_of(data)
    dropped, n = struct.unpack_from("<QI", data, 80)
    refuse(n <= settings[3], "BadHead", 9, n)
    refuse(n == len(data) - 124, "LengthDiffers", n, len(data) - 124)
    found = forge.digest(data[:-32])
    refuse(found == data[-32:], "DigestDiffers", data[-32:].hex(), found.hex())
    records = records_of(data[92:-32], 1)
    check_order(records, n, dropped, settings)
    return content(settings, data[48:80], dropped, records)


def said_by(data):
    """Returns what a log says, or raises Refused with the line of err."""
    version = version_of(data)
    refuse(version in (1, 2), "BadVersion", version)
    return first(data) if version == 1 else second(data)


def line_of(said):
    """Returns the line of `check` for what a log says."""
    _, _, dropped, records = said
    headers = sum(1 for record in records if record[0] == 1)
    return (f"ok records {len(records)} intervals {headers} dropped {dropped} "
            f"bytes {sum(map(len, records))}")


def saved_of(said):
    """Returns the file of version 2 of what a log says."""
    settings, program, dropped, records = said
    return forge.file2(forge.head2(settings, program, dropped, sum(map(len, records))),
                       dropped, forge.cut(records))
