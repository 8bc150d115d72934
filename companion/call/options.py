"""Reads the words of a companion: names, and options as `--more`, `--html FILE` or
`--html=FILE`."""
from __future__ import annotations

import re
from typing import Dict, Iterable, List, Mapping, NoReturn, Sequence, Tuple, Union

from .errors import REFUSED, CompanionError

REPEATED = ("--source", "--alloc", "--free")  # options that can be given several times
AND = "\0"  # what stands between the values
TIMES = {"": 1, "K": 1 << 10, "M": 1 << 20, "G": 1 << 30}
# names, and {option: its value}; of one without a value that is empty
Words = Tuple[List[str], Dict[str, str]]


def near(word: str, known: Iterable[str]) -> str:
    """What may have been meant by a word that isn't known."""
    import difflib                      # which only a refusal needs
    found = difflib.get_close_matches(word, list(known), 1)
    return f" (did you mean {found[0]}?)" if found else ""


def wrong_names(found: Sequence[str], names: Union[range, Sequence[str]]) -> str:
    """Which name is missing or too many, if the names are known."""
    if isinstance(names, range):
        return f"{len(found)} names are given"
    if len(found) < len(names):
        return f"{names[len(found)]} is missing"
    return f"{found[len(names)]!r} is too many"


def parse(words: Sequence[str], known: Mapping[str, bool],
          names: Union[range, Sequence[str]], form: str) -> Words:
    """`known` says of each option if it takes a value; `names` the names, or how many there may be;
    `form` is shown if the words are refused."""
    def refuse(why: str) -> NoReturn:
        raise CompanionError(f"{why}; the words are: {form}", REFUSED)

    found: list[str] = []
    given: dict[str, str] = {}
    left = list(words)
    while left:
        word = left.pop(0)
        option, equals, value = word.partition("=")
        if word == "--":
            found = found + left
            left = []
        elif not word.startswith("--"):
            found.append(word)
        elif option not in known or (option in given and option not in REPEATED):
            refuse(f"option {option} is " + ("given twice" if option in given
                                             else f"unknown{near(option, known)}"))
        elif not known[option]:
            if equals:
                refuse(f"option {option} takes no value")
            given[option] = ""
        else:
            if not equals and not left:
                refuse(f"option {option} needs a value")
            value = value if equals else left.pop(0)
            given[option] = given[option] + AND + value if option in given else value
    if len(found) not in (names if isinstance(names, range) else [len(names)]):
        refuse(wrong_names(found, names))
    return found, given


def read_words(words: Sequence[str], form: str, *more: str) -> Words:
    """The words of a companion by its form: options with their values, and names, of which the last
    may end in `..`. `more` are options with a value that the form doesn't name."""
    known = {option: bool(value)
             for option, value in re.findall(r"(--[a-z][a-z-]*)( [^]| ]+)?", form)}
    known.update(dict.fromkeys(more, True))
    names = re.sub(r"\[[^]]*\]|--.*", "", form).split()[1:]
    return parse(words, known, range(1, 1000) if names[-1].endswith("..") else names, form)


def decimal(text: str) -> str:
    """A number that ends in K, M or G, or begins with 0x, in decimal, as the script zelkuma hands
    it to `record`. Any other word stays as it is."""
    found = re.fullmatch(r"0x0*([0-9a-fA-F]{1,16})|0*([0-9]{1,20})([KMG]?)", text)
    if not found:
        return text
    return str(int(found[1], 16) if found[1] else int(found[2]) * TIMES[found[3]])


def whole(text: str, low: int, high: int, what: str) -> int:
    """The number that a word says, if it is one from `low` to `high`."""
    number = decimal(text)
    digits = number.lstrip("0") or "0"
    # (Python makes no number of thousands of digits)
    if not (number.isascii() and number.isdigit() and len(digits) <= len(str(high))
            and low <= int(digits) <= high):
        raise CompanionError(f"{what} has to be a number from {low} to {high}, not {text!r}",
                             REFUSED)
    return int(digits)
