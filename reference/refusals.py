"""Section 12 of docs/RULES.md: refusals."""

from __future__ import annotations

from enum import IntEnum
from typing import Optional


class Refusal(IntEnum):
    TOO_FEW_BYTES = 1
    BAD_MARK = 2
    BAD_FLAGS = 3
    TIME_ABOVE_LIMIT = 4
    OUTPUT_TOO_SHORT = 5
    OUTSIDE_RANGE = 6


class Refused(Exception):
    """A refused call; reader and feed add the place."""

    def __init__(self, number: Refusal, place: Optional[int] = None) -> None:
        super().__init__(number, place)
        self.number = number
        self.place = place

    def line(self) -> str:
        if self.place is None:
            return f"refused {self.number:d}\n"
        return f"refused {self.number:d} at {self.place}\n"
