"""A client of gdb's remote protocol, for tests: it starts the bridge and talks to it over a
pipe."""
import os
import re
import struct
import subprocess
import sys

from common import COMPANION, TOP

# The same session with less room for commands than the program has.
SMALL_ROOM = ("import sys; sys.path.insert(0, %r); from companion.gdb import gdb, process; "
              "process.FULL = %d; sys.exit(gdb.main(sys.argv[1:]))")


def checksum(body):
    return b"%02x" % (sum(body) & 255)


class Client:
    """One session. `client(TEXT)` sends a packet and returns the answer's text."""

    def __init__(self, log, elf, *options, room=None):
        start = [COMPANION, "gdb"] if room is None else ["-c", SMALL_ROOM % (TOP, room)]
        self.process = subprocess.Popen([sys.executable, *start, log, elf, *options], bufsize=0,
                                        stdin=subprocess.PIPE,
                                        stdout=subprocess.PIPE, stderr=subprocess.PIPE)
        self._data = b""
        self.said = ""
        self._acknowledges = True
        assert self("QStartNoAckMode") == "OK"
        self._acknowledges = False

    def write(self, data):
        self.process.stdin.write(data)

    def send(self, text):
        body = text.encode()
        self.write(b"$" + body + b"#" + checksum(body))

    def _frame(self):
        return re.search(rb"\$([^#]*)#(..)", self._data, re.S)

    def receive(self):
        """The next answer. What the bridge has gdb print before it is added to `said`."""
        text = self._packet()
        while text[:1] == "O" and text != "OK":
            self.said += bytes.fromhex(text[1:]).decode()
            text = self._packet()
        return text

    def _packet(self):
        while not self._frame():
            piece = os.read(self.process.stdout.fileno(), 65536)
            if not piece:
                raise EOFError(self.process.stderr.read().decode())
            self._data += piece
        found = self._frame()
        self._data = self._data[found.end():]
        assert found[2] == checksum(found[1])
        if self._acknowledges:
            self.write(b"+")
        return (re.sub(rb"}(.)", lambda escaped: bytes([escaped[1][0] ^ 32]), found[1], flags=re.S)
                .decode("latin-1"))

    def __call__(self, text):
        self.send(text)
        return self.receive()

    def registers(self, hart=None):
        """Returns x0 to x31 and the pc of a hart, or None if they aren't known."""
        if hart is not None:
            assert self(f"Hg{hart + 1:x}") == "OK"
        text = self("g")
        return None if "x" in text else list(struct.unpack("<33I", bytes.fromhex(text)))

    def harts(self):
        return [int(word, 16) - 1 for word in self("qfThreadInfo")[1:].split(",")]

    def about(self, hart):
        return bytes.fromhex(self(f"qThreadExtraInfo,{hart + 1:x}")).decode()

    def counts(self):
        """Returns the next count of each hart that has a state."""
        found = {}
        for hart in self.harts():
            words = self.about(hart).split()
            if "not" not in words and words[2] != "done":
                found[hart] = int(words[3])
        return found

    def monitor(self, text):
        return bytes.fromhex(self("qRcmd," + text.encode().hex())).decode()

    def close(self):
        """Leaves, and returns the status."""
        self._acknowledges = False  # the bridge ends as it answers, and nobody is there to hear it
        assert self("D") == "OK"
        self.process.stdin.close()
        return self.process.wait()

    def err(self):
        """What it has written on err, once it has left."""
        return self.process.stderr.read().decode()

    def kill(self):
        self.process.kill()
        self.process.wait()


class Stop:
    """What a stop reply says."""

    def __init__(self, text):
        assert text[:1] == "T", text
        self.text = text
        self.signal = int(text[1:3], 16)
        fields = dict(field.split(":") for field in text[3:].split(";") if field)
        self.hart = int(fields["thread"], 16) - 1
        self.pc = int.from_bytes(bytes.fromhex(fields["20"]), "little") if "20" in fields else None
        self.end = fields.get("replaylog")
        self.watch = next((int(fields[kind], 16)
                           for kind in ("watch", "rwatch", "awatch") if kind in fields), None)
