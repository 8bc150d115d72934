"""The program that the scripts beside this one try, and files."""
import os

TOP = os.path.dirname(os.path.dirname(os.path.dirname(os.path.realpath(__file__))))
PROGRAM = os.environ.get("ZELKUMA_PROGRAM", f"{TOP}/crates/bugnet_main/out/bugnet_main")


def taken_from(words):
    """The number of the try at which a sweep begins: `--from N`, which is taken out of its words,
    else 0."""
    if "--from" not in words:
        return 0
    at = words.index("--from")
    number = int(words[at + 1])
    del words[at:at + 2]
    return number


def numbered(tries, first):
    """The tries from a number on. Each fiftieth tells its own, so that a sweep that was ended
    can continue there."""
    for number, each in enumerate(tries):
        if number >= first:
            if number % 50 == 0 and number:
                print(f"--from {number}", flush=True)
            yield each


def read(name):
    with open(name, "rb") as file:
        return file.read()


def write(name, data):
    with open(name, "wb") as file:
        file.write(data)
