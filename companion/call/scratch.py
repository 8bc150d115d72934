"""Folders for files that are needed for a while."""
from __future__ import annotations

import os
import shutil
import tempfile
import time

from .children import Guard

# Seconds: a process that is being killed may still make a file
TRIES = 100
PAUSE = 0.05


class Scratch:
    """Such a folder, by `with`, which gives its name. No other user can read in it. It is gone once
    this process has ended, also if that is killed."""

    def __init__(self, folder: str = "", prefix: str = "zelkuma-") -> None:
        self.name = os.path.join(folder or tempfile.gettempdir(), prefix + os.urandom(8).hex())
        # first: at no time there is a folder that nobody would remove
        self.guard = Guard(self.remove)
        try:
            os.mkdir(self.name, 0o700)
        except OSError:
            self.close()
            raise

    def remove(self) -> None:
        for _ in range(TRIES):
            shutil.rmtree(self.name, ignore_errors=True)
            if not os.path.lexists(self.name):
                break
            time.sleep(PAUSE)

    def close(self) -> None:
        self.guard.close()
        self.remove()                           # somebody may have ended the guard

    def __enter__(self) -> str:
        return self.name

    def __exit__(self, *_: object) -> None:
        self.close()
