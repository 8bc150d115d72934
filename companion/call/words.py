"""The words of the companions, and how a call ends: each way to fail is one line and a status."""
from __future__ import annotations

import importlib
import os
import sys
from typing import Any

from . import streams
from .advice import advised
from .errors import MISSING, NO_MEMORY, REFUSED, UNREADABLE, UNWRITABLE, CompanionError
from .help import Help
from .options import near
from .version import version

HEAD = """The companions: they show what the proved program says, in names, lines and pictures.

    python3 companion WORD ..          (by the launcher: zelkuma WORD ..)

Companions show; the program proves. `python3 companion WORD --help` tells each word.
"""
# Of each part its words. The module of a word has its name, HELP, and main(words), which gives the
# exit status.
PARTS = {
    "recording": "names",
    "why": "why output race",
    "orders": "run seeds shrink whatif recheck again",
    "view": "view",
    "gdb": "gdb",
    "triage": "bucket triage",
    "memory": "memory",
    "questions": "history at calls find compare export",
}
WORDS = {word: part for part, words in PARTS.items() for word in words.split()}
BROKEN = 1                  # a fault of the companion itself


def module_of(word: str) -> Any:
    return importlib.import_module(f"..{WORDS[word]}.{word}", __package__)


def help_of(word: str) -> Help:
    found: Help = module_of(word).HELP
    return found


def run_word(words: list[str]) -> int:
    if not words or words[0] in ("-h", "--help", "help"):
        streams.put_lines([HEAD, *(f"    {word:<7} {help_of(word).brief}" for word in WORDS)])
        return 0 if words else REFUSED
    if words == ["--version"]:
        streams.put(f"zelkuma {version()}\n")
        return 0
    if words[0] not in WORDS:
        raise CompanionError(f"no companion is called {words[0]!r}{near(words[0], WORDS)}: "
                             f"{', '.join(WORDS)}", REFUSED)
    if words[1:] in (["-h"], ["--help"]):
        streams.put(help_of(words[0]).text())
        return 0
    status: int = module_of(words[0]).main(words[1:])
    return status


def guarded(words: list[str]) -> int:
    """Runs a word; every way to fail is one line and a status."""
    try:
        return run_word(words)
    except CompanionError as error:
        streams.say(advised(str(error)))
        return error.status
    except KeyboardInterrupt as stop:
        return streams.interrupted(stop)
    except streams.NoReader:
        return UNWRITABLE
    except MemoryError:
        streams.say("out of memory")
        return NO_MEMORY
    except ModuleNotFoundError as error:        # as of Debian's python3-minimal
        streams.say(f"this python3 has no module {error.name}: apt-get install -y python3")
        return BROKEN
    except ImportError as error:
        streams.say(f"python can't load a module: {error}")
        return BROKEN
    except FileNotFoundError as error:
        streams.say(f"missing: {error.filename or error.strerror}")
        return MISSING
    except OSError as error:
        streams.say(f"{error.filename or 'a file'}: {error.strerror or error}")
        return UNREADABLE
    except Exception as error:
        # The last resort: a line for the user, the traceback on demand
        if os.environ.get("ZELKUMA_TRACEBACK"):
            raise
        streams.say(f"{words[0]} failed inside ({type(error).__name__}: {error}); "
                    "ZELKUMA_TRACEBACK=1 shows where")
        return BROKEN


def main(words: list[str]) -> None:
    """Ends the process with the status of a word: at once, whatever the environment asks of
    python."""
    streams.prepare()
    try:
        streams.on_interrupt(streams.interrupt)
        status = guarded(words)
    except KeyboardInterrupt as stop:           # it came while another way to fail was told
        status = streams.interrupted(stop)
    os._exit(status)


def console() -> None:
    """The command zelkuma-companion of the package."""
    main(sys.argv[1:])
