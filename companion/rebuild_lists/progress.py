"""How far long work is."""

from __future__ import annotations

import sys
import time


class Progress:
    """Shows a count on one line of a terminal; nothing is shown if standard error isn't one."""

    FIRST = 0.5
    EVERY = 0.2

    def __init__(self, doing: str) -> None:
        self.doing = doing
        self.shown = sys.stderr.isatty()
        self.next = time.monotonic() + self.FIRST

    def __call__(self, count: int) -> None:
        if self.shown and time.monotonic() >= self.next:
            self.next = time.monotonic() + self.EVERY
            print(f"\r{self.doing}: {count}", end="\033[K", file=sys.stderr, flush=True)

    def __enter__(self) -> Progress:
        return self

    def __exit__(self, *_: object) -> None:
        if self.shown:
            print("\r", end="\033[K", file=sys.stderr, flush=True)
