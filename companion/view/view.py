"""Draws a log as one page."""
from __future__ import annotations

import base64
import hashlib
import html
import json
import os
import re
import sys
from pathlib import Path
from typing import Any, Mapping, Optional, Sequence

from ..call import streams
from ..call.errors import REFUSED, CompanionError
from ..call.help import Help
from ..call.options import read_words
from ..call.text import as_text, number
from ..call.version import version
from ..why.race import Judged, family_word, race_pairs
from ..recording.instruction import NAMES
from ..recording.races import AccessPair, RaceGroup, Races
from ..recording.story import Story, Teller, asked_story
from ..why.analysis import Analysis, analysed
from ..why.facts import asked_byte
from ..why.fault import fault_words
from ..why.hang import hang_lines
from ..why.memory_part import MemoryErrors
from ..why.origins import advice
from ..why.report import output_lines, unread
from ..why.suspect import ALONE, DID, NEW_OWNER, Suspect
from .chain import SuspectWay, chain_boxes
from .data import Page, PageEdge, story_data
from .questions import questions_data
from .rows import PageRows

HELP = Help(
    "view LOG ELF [--names ELF] [--source DIR] [--row HART:IC] [--output N:BYTE] [--rows N] "
    "[--with-questions] [--book BOOK] [--input FILE]",
    "prints a page for a browser: harts, intervals, fault",
    """Draws a log as one page, to look at in a browser: harts as lanes, intervals as bars, Edges,
races, the fault, and the chain of values behind it.

    zelkuma view LOG ELF > page.html""", {
        "--row": "asks for the chain behind another row than the fault's",
        "--output": "asks for the chain behind a byte that the guest wrote, as `zelkuma output` "
                    "numbers them",
        "--rows": "how many of the last rows are read, as for `why`",
        "--book": "draws the switches between harts, if BOOK has no more than 40, as that of "
                  "`shrink`",
        "--with-questions": "puts histories of variables, calls of functions and variables at "
                            "lines in, which a click on a word, a name or a line opens",
    },
    """The page is one file that needs no network and no other file. It holds names and lines of
source of the program. Rows, intervals, Edges and races are the program's, suspects are a
judgement.""")
SCRIPTS = ("model.js", "questions.js", "timeline.js", "arrows.js", "story.js", "rows.js",
           "panels.js", "chain.js", "controls.js")
# In the page at most, which is to open at once
RACES_ASKED = 20000     # lines of `races`
RACE_GROUPS = 40        # some screens of a list, the likeliest first
ARCS = 12               # of a group: more of them hide each other
SUSPECTS = 3            # as `why` tells in brief
ORIGINS = 6             # as `why` tells
WAY_ROWS = 400          # of a way through the history are read at most


def part(*names: str) -> str:
    """A piece of the page that lies beside this file."""
    return Path(__file__).parent.joinpath(*names).read_text("utf-8")


def as_script_data(data: Mapping[str, Any]) -> str:
    """JSON without a letter that could end the script element that holds it."""
    text = json.dumps(data, separators=(",", ":"), ensure_ascii=True)
    return text.replace("&", "\\u0026").replace("<", "\\u003c").replace(">", "\\u003e")


def page_text(title: str, data: Mapping[str, Any]) -> str:
    """The page. Its marks are replaced in one go, so a name that looks like a mark stays as it is.

    Its policy lets a browser run this script alone, and ask for nothing: should markup ever get in,
    it does nothing."""
    script = "\n".join(part("page", name) for name in SCRIPTS)
    digest = base64.b64encode(hashlib.sha256(script.encode("utf-8")).digest()).decode("ascii")
    pieces = {"TITLE": html.escape(title), "VERSION": html.escape(version()),
              "STYLE": part("page", "style.css"),
              "SCRIPT": script, "POLICY": "default-src 'none'; style-src 'unsafe-inline'; "
              f"script-src 'sha256-{digest}'", "DATA": as_script_data(data)}
    return re.sub(f"@({'|'.join(pieces)})@",
                  lambda found: pieces[found.group(1)], part("view.html"))


class View:
    """Gathers what the page tells of a crash that `why` analysed."""

    def __init__(self, crash: Analysis, story: Optional[Story] = None,
                 with_questions: bool = False) -> None:
        self.with_questions = with_questions
        self.crash = crash
        self.log = crash.log
        self.places = crash.places
        self.page = Page(crash.trace, self.places, self.log)
        self.story = story_data(story, Teller(crash.named, crash.places), self.log, crash.rows)
        self.fault = self.crash.rows.fault if crash.faulted else None
        self.suspects = crash.shown[:SUSPECTS]
        self.races: Optional[Races] = None
        self.race_groups: list[dict[str, Any]] = []
        self.race_total = 0
        self.races_note = ""
        if self.log.harts > 1:
            self.read_races()

    def read_races(self) -> None:
        races = self.races = Races(self.crash.named, self.places).read(
            self.log.harts, self.log.name, self.crash.elf.name, RACES_ASKED)
        if races.over:
            self.races_note = (f"There are more than {number(RACES_ASKED)} races, "
                               "so none is drawn; zelkuma race groups them.")
            return
        judged = Judged(races, self.crash.trace, self.crash.history if self.fault else None)
        families = judged.families()
        self.race_groups = [self.race_group(races, judged, family)
                            for family in families[:RACE_GROUPS]]
        self.race_total = len(families)

    def race_group(self, races: Races, judged: Judged, family: list[RaceGroup]) -> dict[str, Any]:
        """A family of groups for the page; the pair that tells most comes first."""
        one, other = judged.pair(family[0])
        pairs = [pair for group in family
                 for pair in group.first if pair[0] is not one or pair[1] is not other]
        arcs = [self.arc(pair) for pair in [(one, other)] + pairs[:ARCS - 1]]
        return {"pairs": race_pairs(family), "word": family_word(races, family),
                "kind": family[0].kind, "judged": judged.reason(family[0]),
                "first": self.page.place(one.pc), "second": self.page.place(other.pc),
                "arcs": arcs}

    def arc(self, pair: AccessPair) -> list[int]:
        """Hart, count and row of both accesses."""
        return [value for access in pair
                for value in (access.hart, access.count,
                              self.crash.rows.row_of(access.hart, access.count))]

    def where(self) -> int:
        """The place of the end; if the fault is a jump to an address without code, that of the
        jump."""
        row = self.crash.start
        if self.fault and self.fault.name == "FetchOutside" and len(self.crash.last) > 1:
            row = self.crash.last[-2]
        return self.page.place_of_row(row)

    def suspect(self, item: Suspect) -> dict[str, Any]:
        """A suspect for the page: the guilty row, and the steps from it to the load that the
        history knows."""
        steps = [self.step(words, row) for words, row in item.extra]
        if item.kind == "back":
            steps.append(self.step(NEW_OWNER, item.store))
        has_load = item.kind not in ALONE
        if has_load:
            steps.append(self.step("loaded it in", item.load))
        return {"at": self.page.point(item.guilty),
                "place": self.page.place(self.crash.own_pc(item.guilty)), "did": DID[item.kind],
                "load": self.page.point(item.load) if has_load else None, "steps": steps,
                "why": item.why, "pairs": item.rows,
                "calledFrom": [frame.text() for frame in self.crash.callers(item.guilty)]}

    def step(self, words: str, row: int) -> dict[str, Any]:
        told = self.crash.rows.load_of(row)
        text = as_text(told.value) if told else ""
        names = [self.crash.members.name(told.address)] if told else []
        if text:
            names.append(f"'{text}'")
        return {"words": words, "at": self.page.point(row),
                "place": self.page.place(self.crash.own_pc(row)),
                "word": f"{told.address:08x}={told.value:08x}" if told else "",
                "about": " ".join(filter(None, names))}

    def no_suspect(self) -> str:
        """What is said if no row of the log stored the value."""
        origin = list(dict.fromkeys(origin.words for origin in self.crash.origin))
        if not origin:
            return "No memory was involved: the chain ends in constants."
        came = f"No row that the log holds stored it. It came from: {'; '.join(origin[:3])}."
        return " ".join([came] + advice(self.log))

    def ways(self) -> list[SuspectWay]:
        cost = self.crash.history.cost
        found: list[SuspectWay] = []
        for item in self.suspects:
            row = next((row for row in (item.guilty, item.store, item.load) if row in cost), None)
            if row is not None:
                found.append(SuspectWay(row, item.guilty, item.kind))
        return found

    def origins_drawn(self, ways: Sequence[SuspectWay]) -> dict[int, str]:
        """{row: words} of loads that no row stored, if there are few suspects."""
        cost = self.crash.history.cost
        nearest = sorted(self.crash.origin.items(), key=lambda item: cost[item[1].nearest])
        return ({loads.nearest: origin.words for origin, loads in nearest[:2]} if len(ways) < 2
                else {})

    def rows(self, edges: Sequence[PageEdge], ways: Sequence[SuspectWay],
             origins: Mapping[int, str]) -> PageRows:
        history = self.crash.history
        rows = PageRows(self.page)
        on_ways = [row for goal in [way.row for way in ways] + list(origins)
                   for row, _ in history.path(goal)[:WAY_ROWS]]
        arcs = [row for group in self.race_groups for arc in group["arcs"]
                for row in (arc[2], arc[5])]
        looked_at = [row for item in self.suspects for row in (item.guilty, item.store, item.load)]
        rows.want(self.crash.start, on_ways + [way.guilty for way in ways], looked_at, edges, arcs)
        rows.read()
        return rows

    def data(self) -> dict[str, Any]:
        crash = self.crash
        log = self.log
        page = self.page
        edges = page.edges()
        strips, functions = page.strips()
        ways = self.ways()
        origins = self.origins_drawn(ways)
        rows = self.rows(edges, ways, origins)
        data: dict[str, Any] = {
            "elf": os.path.basename(crash.elf.name), "log": os.path.basename(log.shown),
            "harts": log.harts, "bytes": log.bytes,
            "rows": self.crash.rows.size, "dropped": log.dropped, "unread": log.unread,
            "intervals": page.intervals(), "segments": list(page.segments()),
            "edges": edges, "allEdges": len(log.edges.counts), "strips": strips,
            "functions": functions,
            "ends": [[hart, end.count, end.reason, f"{end.value:08x}"]
                     for hart, end in sorted(log.ends.items())],
            "races": self.race_groups, "allRaces": self.races.total if self.races else 0,
            "raceGroups": self.race_total, "racesNote": self.races_note,
            "windows": [[each.hart, each.first, each.codes, "\n".join(each.tails), each.calls]
                        for each in rows.windows],
            "nodes": [(0, 0), *rows.nodes],
            "chain": chain_boxes(page, crash.history, ways, origins)}
        data.update(self.end_data(), story=self.story)
        if self.with_questions:
            data["questions"] = questions_data(page, crash, self.suspects, self.races)
        told = [data["where"]] + [item["place"] for item in data["suspects"]]
        data.update(codes=page.code_list, places=page.place_list,
                    around={each: page.around(each) for each in told})
        return data

    def end_data(self) -> dict[str, Any]:
        crash = self.crash
        history = self.crash.history
        final = self.crash.rows.final[self.crash.rows.hart[crash.start]]
        return {
            "start": self.page.point(crash.start), "where": self.where(),
            "notes": crash.notes + unread(crash) + crash.places.trouble(),
            "fault": [self.fault.name, f"{self.fault.value:08x}"] if self.fault else None,
            "about": self.about(), "words": self.words(),
            "memory": MemoryErrors(crash).lines(), "hang": self.hang(),
            "suspects": [self.suspect(item) for item in self.suspects],
            "noSuspect": self.no_suspect(),
            "chainRows": len(history.cost) - len(history.decided), "chainCut": history.cut,
            "registers": [] if crash.asked else [f"{value:08x}" for value in final],
            "registerNames": NAMES,
            "origin": [[loads.times, *origin]
                       for origin, loads in list(crash.origin.items())[:ORIGINS]]}

    def about(self) -> str:
        crash = self.crash
        about = (("output", crash.output), ("fault", self.fault), ("row", crash.asked),
                 ("hang", crash.loops), ("end", True))
        return next(word for word, is_there in about if is_there)

    def hang(self) -> list[str]:
        lines = hang_lines(self.crash, False) if self.crash.loops else []
        return [line.replace("(--more)", "(zelkuma why --more)") for line in lines]

    def words(self) -> list[str]:
        if self.crash.output:
            return output_lines(self.crash, self.crash.output)
        return fault_words(self.crash.rows, self.fault, self.crash.named) if self.fault else []

    def title(self) -> str:
        elf = os.path.basename(self.crash.elf.name)
        if self.crash.output:
            return f"{elf}: byte {self.crash.output.place} of write {self.crash.output.write}"
        if self.fault:
            return f"{elf}: {self.fault.name} {self.fault.value:08x}"
        reasons = sorted({end.reason for end in self.log.ends.values()})
        return f"{elf}: {', '.join(reasons) or 'no end'}"


def main(words: list[str]) -> int:
    (log_name, elf_name), given = read_words(words, HELP.form)
    byte = asked_byte(given["--output"]) if "--output" in given else None
    if sys.stdout.isatty():
        raise CompanionError("the page is for a browser, and not for a terminal: "
                             "zelkuma view LOG ELF >page.html", REFUSED)
    with analysed(log_name, elf_name, given, byte) as crash:
        with streams.working("the page is made"):
            view = View(crash, asked_story(given, crash.log, elf_name), "--with-questions" in given)
            text = page_text(view.title(), view.data())
        # The page says that it is UTF-8, whatever the terminal's encoding is.
        streams.put_bytes(text.encode("utf-8", "backslashreplace"))
    return 0
