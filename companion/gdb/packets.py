"""Packets of gdb's remote serial protocol, over two file descriptors.

A packet is `$BODY#CC`, with the sum of the body's bytes in two hexadecimal digits. Until gdb asks
for no acknowledgements, each packet is answered by `+`, or by `-` if its sum is wrong. A single
byte 03 outside of packets asks for an interruption.
"""
from __future__ import annotations

import os
import re
import select

from ..call import streams
from ..call.errors import UNWRITABLE, CompanionError

LONGEST = 1 << 16  # more bytes than that without an end are no packet of gdb: PACKET_SIZE is less
# Bytes of a packet, as gdb is told: it asks for more memory by more packets
PACKET_SIZE = 0x4000
INTERRUPT = b"\x03"


def checksum(body: bytes) -> bytes:
    return b"%02x" % (sum(body) & 255)


class PacketStream:
    """Receives and sends packets."""

    def __init__(self, source: int, sink: int, traced: bool = False) -> None:
        self.source = source
        self.sink = sink
        self.traced = traced
        self.data = bytearray()
        self.acknowledges = True
        self.asked = False  # gdb has asked for an interruption, and no move has heard it

    def fill(self) -> None:
        piece = os.read(self.source, 1 << 16)
        if not piece:
            raise EOFError
        self.data += piece

    def write(self, data: bytes) -> None:
        while data:
            try:
                data = data[os.write(self.sink, data):]
            except ConnectionError:
                raise
            except OSError as error:
                raise CompanionError(f"the output takes no more: {error.strerror}", UNWRITABLE)

    def trace(self, arrow: str, text: str) -> None:
        if self.traced:
            streams.tell(f"{arrow} {text[:300]}")

    def skip(self) -> bool:
        """Skips what stands before the next packet; returns whether there is one. gdb asks for an
        interruption between two packets too, on its own way from stop to stop: the next
        move hears it."""
        begin = self.data.find(b"$")
        end = len(self.data) if begin < 0 else begin
        self.asked = self.asked or INTERRUPT in self.data[:end]
        del self.data[:end]
        return begin >= 0

    def next_frame(self) -> tuple[bytes, bytes]:
        """A packet's body and its two digits."""
        while True:
            if self.skip():
                end = self.data.find(b"#")
                if 0 <= end <= len(self.data) - 3:
                    body = bytes(self.data[1:end])
                    digits = bytes(self.data[end + 1:end + 3])
                    del self.data[:end + 3]
                    return body, digits
                if len(self.data) > LONGEST:
                    self.data.clear()
            self.fill()

    def receive(self) -> str:
        """The next packet's text. EOFError says that gdb has left."""
        while True:
            body, digits = self.next_frame()
            good = digits.lower() == checksum(body)
            if self.acknowledges:
                self.write(b"+" if good else b"-")
            if good:
                text = body.decode("latin-1")
                self.trace("<-", text)
                return text

    def send(self, text: str) -> None:
        self.trace("->", text)
        body = re.sub(rb"[$#}*]", lambda found: b"}" + bytes([found[0][0] ^ 32]),
                      text.encode("latin-1", "replace"))
        self.write(b"$" + body + b"#" + checksum(body))

    def is_interrupted(self) -> bool:
        """Whether gdb has asked for an interruption; takes the request. It doesn't wait."""
        if select.select([self.source], [], [], 0)[0]:
            self.fill()
        self.skip()
        asked = self.asked
        self.asked = False
        return asked
