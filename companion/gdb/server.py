"""Answers gdb's packets, one by one."""
from __future__ import annotations

import re
import shlex
from typing import Callable, Optional

from ..call.errors import CompanionError
from ..recording.log import At, asked_row
from . import target
from .memory import SessionMemory
from .motion import BEGIN, END, Motion
from .packets import PACKET_SIZE, PacketStream
from .points import Points
from .questions import WORDS, Questions
from .reasons import READ_ONLY, Reasons
from .session import Session
from .stops import HartStop, WatchStops
from .threads import Threads

REFUSED = "E01"
UNREADABLE = "E0e"
OK = "OK"
NOT_WRITTEN = f"E.{READ_ONLY}"  # gdb shows it of a register, and of memory doesn't
KILLED = "X09"  # by SIGKILL
UNSUPPORTED = ""  # the protocol's answer to a packet that isn't known
FEATURES = (f"PacketSize={PACKET_SIZE:x};qXfer:features:read+;ReverseStep+;ReverseContinue+;"
            "QStartNoAckMode+;vContSupported+")
MOST_BYTES = PACKET_SIZE // 4  # of memory in an answer, each two digits
MOST_ROWS = 100             # of `monitor last`: gdb shows no more than some screens
MONITOR_HELP = ("monitor where: the next count and address of each hart\n"
                "monitor last N: the last N rows before this place\n"
                "monitor at: how many steps lead here\n"
                "monitor goto HART:COUNT: goes there\n"
                + "".join(f"{said}\n" for said in WORDS.values()))
PIECE = PACKET_SIZE // 4  # bytes of a long answer to `monitor` that go at once


def hex_number(text: str) -> int:
    if not re.fullmatch("[0-9a-fA-F]+", text):  # int() takes signs and underscores too
        raise ValueError(text)
    return int(text, 16)


def hex_numbers(text: str) -> tuple[int, int]:
    first, second = text.split(",")
    return hex_number(first), hex_number(second)


def shell_words(text: str) -> list[str]:
    """As a shell splits it: an expression has spaces. A quote without its end is a letter."""
    try:
        return shlex.split(text)
    except ValueError:
        return text.split()


class Server:
    """One session with gdb."""

    def __init__(self, session: Session, memory: SessionMemory, stream: PacketStream,
                 questions: Questions, reasons: Reasons) -> None:
        self.session = session
        self.memory = memory
        self.stream = stream
        self.questions = questions
        self.reasons = reasons
        self.points = Points(session.steps, memory.fills)
        watch_stops = WatchStops(session, self.points, memory.read)
        self.motion = Motion(session, self.points, watch_stops, stream.is_interrupted)
        self.threads = Threads(session)
        self.last_stop = ""
        self.is_extended = False
        self.is_killed = False  # by gdb's `kill`, up to its `run`
        self.moved = ""     # the hart that `monitor goto` went to, until gdb has asked for it
        self.whole = self.packets()
        self.begun = self.packets_with_more()

    def packets(self) -> dict[str, Callable[[], str]]:
        """What answers packets that are one word."""
        threads = self.threads
        motion = self.motion
        return {
            "?": lambda: KILLED if self.is_killed else self.last_stop,
            "g": self.registers,
            "qC": lambda: f"QC{threads.shown + 1:x}",
            "qfThreadInfo": lambda: "l" if self.is_killed else "m" + threads.listed(),
            "qsThreadInfo": lambda: "l",
            "qAttached": lambda: "1",
            "vCont?": lambda: "vCont;c;C;s;S;r",
            "!": self.extend,
            "s": lambda: self.moved_to(motion.step(*threads.moving())),
            "c": lambda: self.moved_to(motion.go(*threads.moving())),
            "bs": lambda: self.moved_to(motion.step_back(*threads.moving())),
            "bc": lambda: self.moved_to(motion.go_back(threads.moving()[0])),
        }

    def packets_with_more(self) -> dict[str, Callable[[str], str]]:
        """What answers packets that begin so; it is given the rest. Signals to pass on are
        ignored."""
        whole = self.packets()
        return {
            "qSupported": lambda _: FEATURES,
            "qXfer:features:read:target.xml:": self.description,
            "qThreadExtraInfo,": self.about_thread,
            "qRcmd,": self.monitor,
            "vCont;": self.resume,
            "vRun;": lambda _: self.run_again(),
            "p": self.register,
            "m": self.read_memory,
            "H": self.choose_thread,
            "T": lambda text: REFUSED if self.threads.hart_of(text) is None else OK,
            "Z": lambda text: self.change_point(True, text),
            "z": lambda text: self.change_point(False, text),
            "S": lambda _: whole["s"](),
            "C": lambda _: whole["c"](),
            **dict.fromkeys("GP", lambda _: NOT_WRITTEN),
            **dict.fromkeys("MX", self.refuse_memory),
        }

    # What is asked

    def extend(self) -> str:
        """gdb stays connected when its program ends, and can run it again."""
        self.is_extended = True
        return OK

    def description(self, text: str) -> str:
        offset, length = hex_numbers(text)
        piece = target.DESCRIPTION[offset:offset + length]
        return ("m" if offset + length < len(target.DESCRIPTION) else "l") + piece

    def registers(self) -> str:
        values = self.session.registers(self.threads.shown)
        return (target.words_in_hex(values) if values
                else target.unknown_in_hex(len(target.REGISTERS)))

    def register(self, text: str) -> str:
        number = hex_number(text)
        values = self.session.registers(self.threads.shown)
        if number >= len(target.REGISTERS):
            return REFUSED
        return target.words_in_hex([values[number]]) if values else target.unknown_in_hex(1)

    def read_memory(self, text: str) -> str:
        address, length = hex_numbers(text)
        found = self.memory.read(address, min(length, MOST_BYTES))
        if length and not found:
            self.reasons.say_unknown(address, length)
            return UNREADABLE
        return found.hex()

    def refuse_memory(self, text: str) -> str:
        self.reasons.say_not_written(text)
        return NOT_WRITTEN

    def about_thread(self, text: str) -> str:
        hart = self.threads.hart_of(text)
        return REFUSED if hart is None else self.threads.about(hart).encode().hex()

    def choose_thread(self, text: str) -> str:
        self.threads.choose(text)
        return OK

    def change_point(self, is_set: bool, text: str) -> str:
        kind, place = text.split(";")[0].split(",", 1)
        return OK if self.points.change(is_set, kind, *hex_numbers(place)) else UNSUPPORTED

    def monitor(self, text: str) -> str:
        words = shell_words(bytes.fromhex(text).decode())
        if words == ["moved"]:
            said = self.moved
            self.moved = ""
        elif words == ["where"]:
            said = self.session.where()
        elif words == ["at"]:
            said = f"at {self.session.at} of {self.session.steps.count} known\n"
        elif len(words) == 2 and words[0] == "last" and words[1].isdecimal():
            said = self.session.steps.lines.text(
                max(0, self.session.at - min(int(words[1]), MOST_ROWS)), self.session.at).decode()
        elif len(words) == 2 and words[0] == "goto":
            said = self.goto(words[1])
        else:
            said = (self.questions.answer(words[0], words[1:]) if words and words[0] in WORDS
                    else MONITOR_HELP)
        told = said.encode()
        for at in range(0, len(told) - PIECE, PIECE):
            self.stream.send("O" + told[at:at + PIECE].hex())
        return told[(max(0, len(told) - 1)) // PIECE * PIECE:].hex() or OK

    def goto(self, text: str) -> str:
        try:
            place = asked_row(text, "the row")
            self.session.go_to_row(place)
        except CompanionError as error:
            return f"{error}\n"
        self.motion.leave()
        self.threads.shown = place.hart
        self.moved = str(place.hart)
        return (f"at {text}\n" if self.is_extended
                else f"at {text}; type: maintenance flush register-cache\n")

    # What moves

    def stopped(self, stop: HartStop) -> str:
        """What gdb is told of a stop; its thread is then the one that is shown."""
        hart = stop.hart if self.session.pc(stop.hart) is not None else self.motion.first_hart()
        self.threads.shown = hart
        pc = self.session.pc(hart)
        place = "" if pc is None else f"20:{target.words_in_hex([pc])};"  # register 32
        self.last_stop = f"T{stop.signal:02x}{stop.detail}{place}thread:{hart + 1:x};"
        return self.last_stop

    def moved_to(self, stop: HartStop) -> str:
        """The same of a move, which gdb waits for: at an end it is told why."""
        said = ""
        if stop.detail == BEGIN:
            said = self.reasons.beginning()
        elif stop.detail == END:
            harts = [stop.hart] if stop.is_alone else sorted(self.session.intervals)
            said = self.reasons.end(harts)
        if said:
            self.stream.send("O" + f"zelkuma: {said}\n".encode().hex())
        return self.stopped(stop)

    def resume(self, text: str) -> str:
        """Does the first action that steps or continues."""
        actions = [action.partition(":") for action in text.split(";")]
        alone = not any(word[:1] in ("c", "C") and self.threads.hart_of(thread) is None
                        for word, _, thread in actions)
        for word, _, thread in actions:
            named = self.threads.hart_of(thread)
            hart = self.threads.shown if named is None else named
            if word[:1] in ("s", "S"):
                return self.moved_to(self.motion.step(hart, alone))
            if word[:1] == "r":
                low, high = hex_numbers(word[1:])
                return self.moved_to(self.motion.step(hart, alone, low, high))
            if word[:1] in ("c", "C"):
                return self.moved_to(self.motion.go(hart, alone))
        return UNSUPPORTED

    def answer(self, packet: str) -> str:
        try:
            if packet in self.whole:
                return self.whole[packet]()
            for begin, answer in self.begun.items():
                if packet.startswith(begin):
                    return answer(packet[len(begin):])
        except (ValueError, IndexError):  # no packet of gdb
            return REFUSED
        return UNSUPPORTED

    def begin(self, at_end: bool, place: Optional[At]) -> None:
        self.stopped(self.motion.begin())
        if place:
            self.session.go_to_row(place)
            self.stopped(HartStop(place.hart))
        elif at_end:
            self.stopped(self.motion.go(self.threads.shown, False))

    def run_again(self) -> str:
        """gdb's `run`: from the beginning."""
        self.session.go_to(self.motion.base)
        self.motion.leave()
        self.is_killed = False
        return self.stopped(HartStop(self.motion.first_hart()))

    def serve(self) -> None:
        while True:
            packet = self.stream.receive()
            if packet[:1] == "k" and not self.is_extended:
                return
            if packet[:1] == "k":               # gdb's `run` kills what runs
                self.is_killed = True
                continue
            if packet[:1] == "D":
                self.stream.send(OK)
                return
            if packet == "QStartNoAckMode":
                self.stream.send(OK)
                self.stream.acknowledges = False
                continue
            self.session.rest()
            self.stream.send(self.answer(packet))
