"""Makes debug information entry by entry, good or not, and puts it into ELF files (DWARF 5,
sections 7.5 and 6.2)."""
import struct

ADDRESS = 0x01
DATA2 = 0x05
DATA4 = 0x06
DATA8 = 0x07
STRING = 0x08
DATA1 = 0x0b
SIGNED = 0x0d
STRP = 0x0e
UDATA = 0x0f
REF4 = 0x13
SEC_OFFSET = 0x17
EXPRESSION = 0x18
FLAG = 0x19
REF_ADDRESS = 0x10
SIGNATURE = 0x20
SIZES = {ADDRESS: 4, DATA2: 2, DATA4: 4, DATA8: 8, DATA1: 1, STRP: 4, SEC_OFFSET: 4,
         REF_ADDRESS: 4, SIGNATURE: 8}
UNIT_HEAD = 12


def uleb(number):
    said = bytearray()
    while True:
        said.append(number & 127 | (128 if number > 127 else 0))
        number >>= 7
        if not number:
            return bytes(said)


def sleb(number):
    said = bytearray()
    while not -64 <= number < 64:
        said.append(number & 127 | 128)
        number >>= 7
    return bytes(said) + bytes([number & 127])


class Die:
    """An entry: its tag, [(name, form, value)], and the entries below. The value of REF4 can be an
    entry."""
    __slots__ = "tag", "told", "below", "at"

    def __init__(self, tag, *told, below=()):
        self.tag = tag
        self.told = list(told)
        self.below = list(below)
        self.at = 0

    def tell(self, name, form, value):
        """Says a thing of the entry in place of what it said before."""
        self.told = [each for each in self.told if each[0] != name] + [(name, form, value)]


def all_below(die):
    """An entry and all below it, however deep they are."""
    left = [die]
    while left:
        die = left.pop()
        yield die
        left += die.below


class Unit:
    """The sections of one unit, from its entry on."""

    def __init__(self, top, version=5, address_size=4, kind=1):
        self.abbreviations = {}
        self.abbrev = bytearray()
        self.body = bytearray()
        self.references = []
        self.put(top)
        for place, die in self.references:
            struct.pack_into("<I", self.body, place, die.at)
        head = struct.pack("<HBBI", version, kind, address_size, 0)
        self.info = struct.pack("<I", len(head) + len(self.body)) + head + bytes(self.body)
        self.abbrev += b"\0"

    def put(self, top):
        left = [top]
        while left:
            die = left.pop()
            if die is None:                     # the end of what is below an entry
                self.body += b"\0"
                continue
            die.at = UNIT_HEAD + len(self.body)
            self.body += uleb(self.code(die))
            for _, form, value in die.told:
                self.value(form, value)
            if die.below:
                left += [None, *reversed(die.below)]

    def code(self, die):
        key = die.tag, bool(die.below), tuple((name, form) for name, form, _ in die.told)
        if key not in self.abbreviations:
            self.abbreviations[key] = len(self.abbreviations) + 1
            names = b"".join(uleb(name) + uleb(form) for name, form in key[2])
            self.abbrev += (uleb(self.abbreviations[key]) + uleb(die.tag) + bytes([key[1]])
                            + names + b"\0\0")
        return self.abbreviations[key]

    def value(self, form, value):
        if form in SIZES:
            self.body += (value % (1 << 8 * SIZES[form])).to_bytes(SIZES[form], "little")
        elif form == REF4:
            if isinstance(value, Die):
                self.references.append((len(self.body), value))
                value = 0
            self.body += (value % (1 << 32)).to_bytes(4, "little")
        elif form == STRING:
            self.body += value + b"\0"
        elif form == EXPRESSION:
            self.body += uleb(len(value)) + value
        elif form != FLAG:
            self.body += sleb(value) if form == SIGNED else uleb(value)


class Lines:
    """A line table. What is to be forged of its head is a name of `head`."""

    def __init__(self, folders, files, rows, **head):
        self.folders = folders
        self.files = files
        self.rows = rows
        self.head = {"version": 5, "address_size": 4, "instruction": 1,
                     "operations": 1, "is_statement": 1, "base": -3, "range": 12, "opcodes": 13,
                     "folders": len(folders), "files": len(files), **head}

    def made(self):
        said = self.head
        lengths = bytes((0, 1, 1, 1, 1, 0, 0, 0, 1, 0, 0, 1))
        body = struct.pack("<BBBbBB", said["instruction"], said["operations"], said["is_statement"],
                           said["base"], said["range"], said["opcodes"]) + lengths
        body += b"\1\1\x08" + uleb(said["folders"]) + b"".join(name + b"\0"
                                                               for name in self.folders)
        body += b"\2\1\x08\2\x0b" + uleb(said["files"]) + b"".join(name + b"\0" + bytes([place])
                                                                   for name, place in self.files)
        head = struct.pack("<HBBI", said["version"], said["address_size"], 0,
                           said.get("head_length", len(body))) + body
        return struct.pack("<I", said.get("length", len(head) + len(self.rows))) + head + self.rows


def line_rows(begin, count, step=4):
    """A line for each step of code from an address on."""
    return b"\0\5\2" + struct.pack("<I",
                                   begin) + (b"\3\1\2" + uleb(step) + b"\1") * count + b"\2\4\0\1\1"


def with_sections(elf, sections, flags=None):
    """An ELF file's bytes with these sections in place of its own debug information; `flags` are
    those of some."""
    first, = struct.unpack_from("<I", elf, 32)
    count, names = struct.unpack_from("<HH", elf, 48)
    heads = [list(struct.unpack_from("<10I", elf, first + 40 * at)) for at in range(count)]
    texts = elf[heads[names][4]:heads[names][4] + heads[names][5]]
    for head in heads:
        if texts[head[0]:].startswith(b".debug_"):
            head[0] = 0
            head[1] = 0
            head[5] = 0
    data = bytearray(elf)
    for name, section in sections.items():
        heads.append([len(texts), 1, (flags or {}).get(name, 0), 0, len(data), len(section), 0, 0,
                      1, 0])
        texts += name.encode() + b"\0"
        data += section
    heads[names][4:6] = len(data), len(texts)
    data += texts
    struct.pack_into("<I", data, 32, len(data))
    struct.pack_into("<H", data, 48, len(heads))
    return bytes(data) + b"".join(struct.pack("<10I", *head) for head in heads)
