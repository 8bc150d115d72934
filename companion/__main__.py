"""Calls a companion: python3 companion WORD .., or python3 -m companion WORD .."""
import sys

INTERRUPTED = 130           # what a shell says of a program that Ctrl-C ended
# These are in python itself: to import `signal` and `os` takes so long that Ctrl-C could come
# meanwhile.
signals = __import__("_signal")
system = __import__("posix")


def end_at_once(*_: object) -> None:
    system._exit(INTERRUPTED)


if __name__ == "__main__":
    # Until the companion's own handling stands, Ctrl-C ends the call; one that was started to
    # ignore it ignores it.
    if signals.getsignal(signals.SIGINT) != signals.SIG_IGN:
        signals.signal(signals.SIGINT, end_at_once)
    import importlib
    import os
    # A folder was called: its modules are found from the one around it
    if not __package__:
        sys.path[0] = os.path.dirname(os.path.dirname(os.path.abspath(__file__)))
    try:
        words = importlib.import_module((__package__ or "companion") + ".call.words")
    except (OSError, ImportError, MemoryError) as error:
        # No file can be opened, or there is no room
        sys.exit(f"zelkuma: {str(error) or 'out of memory'}")
    words.main(sys.argv[1:])
