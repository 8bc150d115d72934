"""Logs that are whole files, but of no run."""
import hashlib
import struct
import subprocess

import common

# Of version 1's records
EDGE = 5
SIZES = {1: 146, 2: 10, 3: 2, 4: 2, 5: 19, 6: 15}
RECORDS = 92
DIGEST = 32


def stuck(elf):
    """A log of two harts that wait for each other: its first Edge leads from a later count than the
    run had."""
    log = common.path("stuck.log")
    subprocess.run([common.PROGRAM, "record", "--seed", "1", "--harts", "2", elf, log,
                    common.path("book")], stdout=subprocess.DEVNULL, stderr=subprocess.DEVNULL,
                   check=False)
    data = bytearray(common.content(log))
    at = RECORDS
    while data[at] != EDGE:
        at += SIZES[data[at]]
    count, = struct.unpack_from("<Q", data, at + 11)
    struct.pack_into("<Q", data, at + 11, count + 42)
    data[-DIGEST:] = hashlib.sha256(data[:-DIGEST]).digest()
    common.written(log, data)
    return log
