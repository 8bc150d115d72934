"""Finds a mark among the turns of another build: by its line, else by a line that is like it."""
from __future__ import annotations

import difflib
from itertools import islice
from typing import Callable, Dict, Iterator, List, NamedTuple, Optional, Tuple

from ..call.text import counted
from .marks import ATOMIC, NO_SYMBOL, STORE, Mark, Point, Points, fitting_count, on_line

# Lines whose texts are so near are taken for one that was changed: difflib's page calls them close
ALIKE = 0.6
MOST_TEXTS = 1000           # lines of a function that are compared


class FoundTurn(NamedTuple):
    """The turn that is a mark's, and what is told of it."""
    turn: int
    how: str


def all_of(points: Points, fits: Callable[[Point], bool]) -> Iterator[int]:
    """The places of those that fit. Of turns there are few, and each many times."""
    known: Dict[int, bool] = {id(None): False}
    for at, one in enumerate(points):
        if one is not None and id(one) not in known:
            known[id(one)] = fits(one)
        if known[id(one)]:
            yield at


def nth_of(points: Points, fits: Callable[[Point], bool], nth: int) -> Optional[int]:
    return next(islice(all_of(points, fits), nth - 1, None), None)


def marked_turns(mark: Mark) -> List[Tuple[Point, int]]:
    """What is looked for: the point of the switch, else what has to have come before it."""
    return [(mark.point, mark.nth)] + ([(mark.after, mark.nth_after)] if mark.after else [])


def other_accesses(wanted: Point) -> Tuple[str, ...]:
    """What an access of an object can have become: a store an atomic one, or the other way
    round."""
    return (STORE,) if wanted.access == ATOMIC else (ATOMIC,)


def find(points: Points, mark: Mark,
         called: Callable[[int], Tuple[str, ...]]) -> Optional[FoundTurn]:
    """By its line, under its callers if it has some there: `called` tells those of a turn."""
    for wanted, nth in marked_turns(mark):
        at = None
        if wanted.callers and wanted is mark.point:
            there = (one for one in all_of(points, lambda one: is_there(one, wanted))
                     if called(one) == wanted.callers)
            at = next(islice(there, mark.under - 1, None), None)
        if at is None:
            at = nth_of(points, lambda one: is_there(one, wanted), nth)
        if at is None and wanted.symbol != NO_SYMBOL:
            others = other_accesses(wanted)
            at = nth_of(points, lambda one: one.access in others and one.symbol == wanted.symbol
                        and one.is_line_of(wanted), nth)
        if at is not None:
            return FoundTurn(at, told(points[at], wanted, mark))
    return None


def is_there(one: Point, wanted: Point) -> bool:
    return one.is_access_of(wanted) and one.is_line_of(wanted)


def told(found: Optional[Point], wanted: Point, mark: Mark) -> str:
    assert found
    said = "there" if found.line == wanted.line or not wanted.line else f"now {found.place()}"
    if found.access != wanted.access:
        said += f", as {found.access}"
    return (said if wanted is mark.point
            else f"{said}, by what it has to come after: {found.place()}")


def find_like(points: Points, mark: Mark) -> Optional[FoundTurn]:
    """By a line of the function that is like it, by its access of the object alone, or by its text
    in another function or of another object."""
    return next((found for found in (*alike(points, mark), *renamed(points, mark)) if found), None)


def alike(points: Points, mark: Mark) -> Iterator[Optional[FoundTurn]]:
    for wanted, nth in marked_turns(mark):
        near = near_line(points, wanted)
        if near:
            at = nth_of(points,
                        lambda one: one.symbol == wanted.symbol and is_text_of(one, near), nth)
            yield (FoundTurn(at, f"the line is another now: {near.place()}   {near.text}")
                   if at is not None else None)
        if wanted is mark.point and wanted.symbol != NO_SYMBOL:
            at = nth_of(points, lambda one: one.is_access_of(wanted)
                        and one.function == wanted.function, mark.in_function)
            one = points[at] if at is not None else None
            if at is not None and one:
                yield FoundTurn(at, f"by its {wanted.what()} alone, now {one.place()}")


def is_text_of(one: Point, near: Optional[Point]) -> bool:
    return near is not None and (one.function, one.text) == (near.function, near.text)


def renamed(points: Points, mark: Mark) -> Iterator[Optional[FoundTurn]]:
    for wanted, nth in marked_turns(mark):
        at = nth_of(points,
                    lambda one: one.access == wanted.access and one.text == wanted.text != "", nth)
        near = near_line(points, wanted) if at is None else None
        if near:
            at = nth_of(points,
                        lambda one: one.access == wanted.access and is_text_of(one, near), nth)
        one = points[at] if at is not None else None
        if at is not None and one:
            what = (f"in {one.function}" if one.function != wanted.function
                    else f"of {one.symbol}, not {wanted.symbol}")
            yield FoundTurn(at, f"renamed, it seems: {one.access} {what}, now {one.place()}")


def near_line(points: Points, wanted: Point) -> Optional[Point]:
    """The line of the function whose text is nearest to one that is known."""
    if not wanted.text:
        return None
    texts = {one.text: one
             for one in points if one and one.function == wanted.function and one.text}
    near = difflib.get_close_matches(wanted.text, list(texts)[:MOST_TEXTS], 1, ALIKE)
    return texts[near[0]] if near else None


def missing(points: Points, mark: Mark) -> str:
    """Why a mark has no place any more."""
    wanted = mark.point
    times = max(on_line(points, wanted), fitting_count(points, lambda one: one.is_access_of(wanted)
                                                       and one.function == wanted.function))
    if not times and wanted.symbol != NO_SYMBOL:        # `find` takes these too
        others = other_accesses(wanted)
        times = fitting_count(points, lambda one: one.access in others
                              and one.symbol == wanted.symbol and one.is_line_of(wanted))
    if times:
        return f"hart {mark.hart} does it {counted(times, 'time')}, not {mark.nth}"
    met = [one for one in points if one and one.function == wanted.function]
    if not met:
        return f"hart {mark.hart} doesn't come to {wanted.function}"
    near = min(met, key=lambda one: abs(one.line - wanted.line))
    like = f" like '{wanted.text}'" if wanted.text else ""
    return (f"{wanted.function} has no {wanted.what()}{like}; "
            f"the nearest is {near.what()} in {near.place()}")
