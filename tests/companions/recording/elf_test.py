"""What an ELF file says of addresses, and whether two files are the same program."""
import os
import struct
import unittest

import common

from companion.recording.elf import FUNCTION, LOADED, WRITABLE, Elf


def with_end(name, end):
    """A copy of a file whose writable segment has some more bytes of the file."""
    data = bytearray(common.content(common.example(name)))
    first = struct.unpack_from("<I", data, 28)[0]
    count = struct.unpack_from("<H", data, 44)[0]
    for at in range(first, first + 32 * count, 32):
        kind, offset, _, _, in_file, in_memory, flags, _ = struct.unpack_from("<8I", data, at)
        if kind == LOADED and flags & WRITABLE:
            body = bytes(data[offset:offset + in_file]) + end
            struct.pack_into("<I", data, at + 4, len(data))
            struct.pack_into("<II", data, at + 16, len(body), max(in_memory, len(body)))
            return common.written(common.path("end%d.elf" % len(os.listdir(common.scratch.name))),
                                  bytes(data) + body)
    raise AssertionError(name)


class ElfTest(unittest.TestCase):
    def test_zeros_at_a_segments_end_are_no_difference(self):
        """strip writes zeros that memory has there anyway."""
        long, short, other = (Elf(with_end("heap", end))
                              for end in (bytes(8), b"", bytes(7) + b"x"))
        self.assertEqual((long.difference(short), short.difference(long)), ("", ""))
        self.assertRegex(other.difference(short), "^other bytes from [0-9a-f]{8} on$")
        self.assertRegex(long.difference(other), "^other bytes from [0-9a-f]{8} on$")

    def test_constants_behind_a_function_are_not_in_it(self):
        elf = Elf(os.path.join(common.CRASHES, "jump_shape.elf"))
        begins = {item.address for item in elf.functions}
        sized = [item for item in elf.functions if item.kind == FUNCTION and item.size]
        for item in sized:
            self.assertEqual(elf.function_name(item.address + item.size - 1), item.name)
        ends = [item.address + item.size
                for item in sized if item.address + item.size not in begins]
        self.assertTrue(ends)
        self.assertEqual({elf.function_name(end) for end in ends}, {""})


if __name__ == "__main__":
    unittest.main()
