"""Section 4 of docs/RULES.md: pump switches."""

from __future__ import annotations

from typing import Optional, Protocol

from refusals import Refusal, Refused


class Switch(Protocol):
    def tick(self, time: int) -> None: ...

    def close(self) -> bool:
        """True if the contact is now closed, False if held."""
        ...

    def open(self) -> None: ...

    def is_closed(self) -> bool: ...

    def is_free(self) -> bool: ...


class DirectContact:
    def __init__(self, closed: bool = False) -> None:
        self._closed = closed

    def tick(self, time: int) -> None:
        pass

    def close(self) -> bool:
        self._closed = True
        return True

    def open(self) -> None:
        self._closed = False

    def is_closed(self) -> bool:
        return self._closed

    def is_free(self) -> bool:
        return True


class DriveWord:
    CLOSED = 0x00FF
    OPEN = 0xFF00

    def __init__(self, word: int) -> None:
        self._word = word

    def tick(self, time: int) -> None:
        pass

    def close(self) -> bool:
        self._word = self.CLOSED
        return True

    def open(self) -> None:
        self._word = self.OPEN

    def is_closed(self) -> bool:
        return self._word == self.CLOSED

    def is_free(self) -> bool:
        return True


class RestLayer:
    LONGEST_REST = 86_400_000

    def __init__(self, below: Switch, rest: int) -> None:
        if rest > self.LONGEST_REST:
            raise Refused(Refusal.OUTSIDE_RANGE)
        self.below = below
        self.rest = rest
        self.last_tick = 0
        self.opening_tick: Optional[int] = None

    def tick(self, time: int) -> None:
        was_closed = self.is_closed()
        self.below.tick(time)
        went_back = time < self.last_tick
        if was_closed and not self.is_closed():
            self.opening_tick = time
        elif went_back and self.opening_tick is not None:
            self.opening_tick = time
        self.last_tick = time

    def close(self) -> bool:
        return self.is_free() and self.below.close()

    def open(self) -> None:
        was_closed = self.is_closed()
        self.below.open()
        if was_closed:
            self.opening_tick = self.last_tick

    def is_closed(self) -> bool:
        return self.below.is_closed()

    def is_free(self) -> bool:
        return self.is_closed() or (self.below.is_free() and self._is_rested())

    def _is_rested(self) -> bool:
        if self.opening_tick is None:
            return True
        return self.opening_tick + self.rest <= self.last_tick
