"""ELF files whose names try to be markup, escape sequences, or the end of a script."""
import os
import shutil
import struct
import subprocess

import common

NAMES = ("</script><script>document.title='hit'</script>",
         "<img src=x onerror=document.title='hit'>@DATA@@STYLE@",
         "\"onmouseover='document.title=1'&amp;<!--", "\x1b[31mred\x07\x00"[:-1],
         "@DATA@ @SCRIPT@ @STYLE@")
FUNCTION = 2
OBJECT = 1
GLOBAL = 16
SYMBOL_TABLE = 2
STRINGS = 3


def with_symbols(elf, functions, objects):
    """The bytes of a stripped ELF with a symbol table; both are lists of (name, address, size)."""
    data = bytearray(common.content(elf))
    strings = b"\0"
    symbols = b"\0" * 16
    for kind, items in ((FUNCTION, functions), (OBJECT, objects)):
        for name, address, size in items:
            symbols += struct.pack("<IIIBBH", len(strings), address, size, GLOBAL | kind, 0, 1)
            strings += name.encode("utf-8") + b"\0"
    strings_at = len(data)
    symbols_at = len(data) + len(strings)
    headers_at = symbols_at + len(symbols)
    data += strings + symbols
    for header in ((0,) * 10, (0, SYMBOL_TABLE, 0, 0, symbols_at, len(symbols), 2, 1, 4, 16),
                   (0, STRINGS, 0, 0, strings_at, len(strings), 0, 0, 1, 0)):
        data += struct.pack("<10I", *header)
    struct.pack_into("<I", data, 32, headers_at)
    struct.pack_into("<3H", data, 46, 40, 3, 2)
    return bytes(data)


def code_range(elf):
    """The address and the size of the first segment that can be executed."""
    data = common.content(elf)
    first, = struct.unpack_from("<I", data, 28)
    count, = struct.unpack_from("<H", data, 44)
    for i in range(count):
        kind, _, address, _, size, _, flags, _ = struct.unpack_from("<8I", data, first + 32 * i)
        if kind == 1 and flags & 1:
            return address, size
    raise ValueError("no code")


def files(elf, log):
    """Copies of a log and its ELF, and an ELF of names, all of hostile names: the words of a
    companion."""
    folder = common.path("hostile")
    os.makedirs(folder, exist_ok=True)
    new_log, new_elf, names = (os.path.join(folder, name.replace("/", "")) for name in NAMES[:3])
    shutil.copy(log, new_log)
    shutil.copy(elf, new_elf)
    start, size = code_range(elf)
    functions = [(name, start + size * i // len(NAMES), 0) for i, name in enumerate(NAMES)]
    objects = [(name, 0x11000 + 0x100 * i, 0x100) for i, name in enumerate(NAMES * 3)]
    common.written(names, with_symbols(elf, functions, objects))
    return new_log, new_elf, "--names", names


SOURCE = """int main(int hart, int harts)
{
    (void)hart;
    return *(volatile int *)(harts - 1); /* </script><b> */
}
int other_harts(int hart, int harts) { return hart + harts; }
"""


def compiled():
    """A program that crashes in a source of a hostile name, in a line of hostile text."""
    source = common.path("<img src=x onerror=alert(1)>.c")
    elf = common.path("compiled.elf")
    common.written(source, SOURCE)
    library = os.path.join(common.EXAMPLES, "lib")
    subprocess.run(["riscv64-unknown-elf-gcc", "-march=rv32ima", "-mabi=ilp32", "-O1", "-g",
                    "-ffreestanding", "-nostdlib", "-static", "-I", library, "-T",
                    os.path.join(library, "program.ld"), "-z", "max-page-size=4096",
                    "-Wl,--build-id=none", "-o", elf, os.path.join(library, "start.S"), source],
                   check=True)
    return elf
