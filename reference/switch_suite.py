"""The switch scripts of the switch suite."""

from __future__ import annotations

import struct
from dataclasses import dataclass
from typing import Callable, Iterator, Optional

from refusals import Refused
from script import Dice
from switches import DirectContact, DriveWord, RestLayer, Switch

ENTRY = struct.Struct(">IQI")

NEW_DIRECT, NEW_DRIVE, NEW_REST, NEW_DOUBLE_REST, TICK, CLOSE, OPEN = range(1, 8)

LATEST = 2**64 - 1
WORD_MASK = 0xFFFF


@dataclass(frozen=True)
class Entry:
    op: int
    arg1: int = 0
    arg2: int = 0

    def entry(self) -> bytes:
        return ENTRY.pack(self.op, self.arg1, self.arg2)


def double_rest(upper: int, lower: int) -> Switch:
    return RestLayer(RestLayer(DriveWord(DriveWord.CLOSED), lower), upper)


MAKERS: dict[int, Callable[[int, int], Switch]] = {
    NEW_DIRECT: lambda closed, _: DirectContact(bool(closed)),
    NEW_DRIVE: lambda word, _: DriveWord(word & WORD_MASK),
    NEW_REST: lambda rest, closed: RestLayer(DirectContact(bool(closed)), rest),
    NEW_DOUBLE_REST: double_rest,
}


class Bench:
    """The switch under test, if there is one."""

    def __init__(self) -> None:
        self.switch: Optional[Switch] = None

    def line(self, entry: Entry) -> str:
        if entry.op in MAKERS:
            return self._new(entry)
        if self.switch is None:
            return "none\n"
        return f"{self._work(self.switch, entry)} {self._meaning()}\n"

    def _new(self, entry: Entry) -> str:
        try:
            self.switch = MAKERS[entry.op](entry.arg1, entry.arg2)
        except Refused as refused:
            self.switch = None
            return refused.line()
        return f"new {entry.op} {self._meaning()}\n"

    def _work(self, switch: Switch, entry: Entry) -> str:
        if entry.op == TICK:
            switch.tick(entry.arg1)
            return f"tick {entry.arg1}"
        if entry.op == CLOSE:
            return "close closed" if switch.close() else "close held"
        switch.open()
        return "open"

    def _meaning(self) -> str:
        return f"{self.switch.is_closed():d} {self.switch.is_free():d}"


# Entries in short.

SHUT, OPENED = Entry(CLOSE), Entry(OPEN)


def tick(time: int) -> Entry:
    return Entry(TICK, time)


def ticks_with_closing(*times: int) -> Iterator[Entry]:
    """Tries to close at each of the ticks."""
    for time in times:
        yield tick(time)
        yield SHUT


# Switches without a rest.


def direct_and_drive() -> Iterator[Entry]:
    for closed in (0, 1):
        yield Entry(NEW_DIRECT, closed)
        yield from plain_life()
    words = (0x00FF, 0xFF00, 0x0000, 0xFFFF, 0x00FE, 0x01FF, 0x80FF, 0x007F)
    for word in (*words, 0x1_00FF, 0xFFFF_FFFF_FFFF_00FF, 0x00FF_0000):
        yield Entry(NEW_DRIVE, word)
        yield from plain_life()


def plain_life() -> Iterator[Entry]:
    yield from (tick(5), SHUT, SHUT, tick(LATEST), OPENED, OPENED, tick(0), SHUT, OPENED, SHUT)


# Refusals.

REST_EDGES = (0, 1, 1_000, 86_400_000)
REFUSED_RESTS = (86_400_001, 2**32 - 1)
LONG_REFUSED_RESTS = (2**32, 2**32 + 1_000, 2**63, LATEST)


def refusals() -> Iterator[Entry]:
    without = (tick(1), SHUT, OPENED)
    yield from without
    for rest in REFUSED_RESTS + LONG_REFUSED_RESTS:
        yield Entry(NEW_REST, rest, 1)
        yield from without
        yield Entry(NEW_DOUBLE_REST, rest, 0)
        yield from without
        yield Entry(NEW_DIRECT, 1)
        yield from without
    for rest in REFUSED_RESTS:
        yield Entry(NEW_DOUBLE_REST, 0, rest)
        yield Entry(NEW_DOUBLE_REST, LATEST, rest)
        yield from without
    for rest in REST_EDGES:
        yield Entry(NEW_REST, rest, 0)
        yield Entry(NEW_DOUBLE_REST, rest, 86_400_000)
        yield Entry(NEW_DOUBLE_REST, 86_400_000, rest)


# One layer.


def found(rest: int) -> Iterator[Entry]:
    """Openings, closings and ticks on a layer just made."""
    for closed in (0, 1):
        yield from (Entry(NEW_REST, rest, closed), SHUT, SHUT, OPENED, SHUT)
        yield from (Entry(NEW_REST, rest, closed), OPENED, OPENED, SHUT)
        yield from (Entry(NEW_REST, rest, closed), tick(7), OPENED, tick(7), SHUT)
        yield from (Entry(NEW_REST, rest, closed), OPENED)
        yield from ticks_with_closing(*around(rest))


def around(time: int) -> tuple[int, ...]:
    """One before, at and one after, as far as times go."""
    return tuple(t for t in (time - 1, time, time + 1) if 0 <= t <= LATEST)


def opened_at(rest: int, start: int) -> Iterator[Entry]:
    """A layer whose contact opened at the start."""
    yield from (Entry(NEW_REST, rest, 0), tick(start), SHUT, OPENED)


def rest_edges(rest: int, start: int) -> Iterator[Entry]:
    over = start + rest
    yield from opened_at(rest, start)
    yield SHUT
    yield from ticks_with_closing(*around(over))
    yield from opened_at(rest, start)
    yield from ticks_with_closing(over + 1)
    # An opening while open leaves the opening tick, one while closed sets it.
    yield from opened_at(rest, start)
    yield from (tick(start + 1), OPENED, tick(min(over, LATEST)), SHUT, SHUT, OPENED, SHUT)
    # Ticks at the same time, then far beyond.
    yield from opened_at(rest, start)
    yield from ticks_with_closing(start, start, LATEST, LATEST)


def time_goes_back(rest: int, start: int) -> Iterator[Entry]:
    over = start + rest
    for back in (0, start - 1, start, start + 1):
        # Back from within the rest, and from after it.
        for turn in (start + rest // 2, over, over + 5):
            yield from opened_at(rest, start)
            yield tick(turn)
            yield tick(back)
            yield from ticks_with_closing(*around(back + rest), over)
    # Back while closed moves the old opening tick; without one, nothing is to move.
    yield from opened_at(rest, start)
    yield from (tick(over), SHUT, tick(start - 1), tick(start), SHUT, OPENED, SHUT)
    yield from ticks_with_closing(*around(over))
    yield from (Entry(NEW_REST, rest, 0), tick(start), tick(0), SHUT, tick(start), tick(1))
    yield from (OPENED, SHUT, tick(0), SHUT)
    yield from ticks_with_closing(*around(rest))


def near_the_latest(rest: int) -> Iterator[Entry]:
    """The end of the rest would not fit into 64 bits, or just does."""
    for start in (LATEST, *around(LATEST - rest)):
        yield from opened_at(rest, start)
        yield from ticks_with_closing(LATEST - 1, LATEST, 0, rest, LATEST)
    yield from (Entry(NEW_REST, rest, 1), tick(LATEST), OPENED, SHUT, tick(0), SHUT)
    yield from ticks_with_closing(*around(rest))


def one_layer() -> Iterator[Entry]:
    for rest in REST_EDGES:
        yield from found(rest)
        for start in (1, 5_000):
            yield from rest_edges(rest, start)
        yield from time_goes_back(rest, 20_000)
        yield from near_the_latest(rest)


# Two layers.


def two_layers() -> Iterator[Entry]:
    for upper, lower in ((0, 0), (1_000, 0), (0, 1_000), (300, 1_000), (1_000, 300), (500, 500)):
        new = Entry(NEW_DOUBLE_REST, upper, lower)
        longer = max(upper, lower)
        # As found, closed: repeated closing, then the first opening at time 0.
        yield from (new, SHUT, SHUT, OPENED, SHUT)
        yield from ticks_with_closing(*around(upper), *around(lower), *around(longer))
        # Opened at 2,000.
        yield from (new, tick(2_000), OPENED, OPENED)
        for rest in sorted((upper, lower)):
            yield from ticks_with_closing(*around(2_000 + rest))
        # The time goes back in the rest and after it.
        yield from (new, tick(2_000), OPENED, tick(2_200), tick(1_500))
        yield from ticks_with_closing(*around(1_500 + longer), 2_000 + longer)
        yield from (OPENED, tick(LATEST), SHUT, OPENED, tick(3))
        yield from ticks_with_closing(*around(3 + longer))
    for upper, lower in ((86_400_000, 1), (1, 86_400_000)):
        yield from (Entry(NEW_DOUBLE_REST, upper, lower), tick(9), OPENED)
        yield from ticks_with_closing(10, *around(86_400_009), LATEST)


# Random scripts.

RANDOM_RESTS = (0, 1, 10, 300, 1_000, 5_000)
RANDOM_SEEDS = range(91, 101)
RANDOM_ENTRIES = 90


def random_new(dice: Dice) -> Entry:
    rest, other = dice.pick(RANDOM_RESTS), dice.pick(RANDOM_RESTS)
    return dice.pick(
        (
            Entry(NEW_DIRECT, dice.between(0, 1)),
            Entry(NEW_DRIVE, dice.pick((0x00FF, 0xFF00, dice.between(0, WORD_MASK)))),
            Entry(NEW_REST, rest, dice.between(0, 1)),
            Entry(NEW_REST, rest, dice.between(0, 1)),
            Entry(NEW_DOUBLE_REST, rest, other),
            Entry(NEW_DOUBLE_REST, rest, other),
        )
    )


def random_refusal(dice: Dice) -> Iterator[Entry]:
    yield Entry(NEW_REST, dice.pick(REFUSED_RESTS + LONG_REFUSED_RESTS), 1)
    yield dice.pick((SHUT, OPENED, tick(dice.between(0, LATEST))))
    yield random_new(dice)


def random_time(dice: Dice, before: int) -> int:
    if dice.chance(0.04):
        return dice.pick((0, 1, LATEST, LATEST - dice.between(0, 2_000)))
    if dice.chance(0.12):
        return max(0, before - dice.between(0, 1_500))
    return min(LATEST, before + dice.pick((0, 1, dice.between(1, 400), dice.between(1, 3_000))))


def random_script(seed: int) -> Iterator[Entry]:
    dice = Dice(seed)
    time = dice.between(0, 3_000)
    yield random_new(dice)
    for _ in range(RANDOM_ENTRIES - 1):
        if dice.chance(0.02):
            yield random_new(dice)
        elif dice.chance(0.01):
            yield from random_refusal(dice)
        elif dice.chance(0.5):
            time = random_time(dice, time)
            yield tick(time)
        else:
            yield dice.pick((SHUT, SHUT, OPENED))


def random_scripts() -> Iterator[Entry]:
    for seed in RANDOM_SEEDS:
        yield from random_script(seed)


BUILDERS = (refusals, direct_and_drive, one_layer, two_layers, random_scripts)
ENTRIES = tuple(entry for build in BUILDERS for entry in build())


def suite_input() -> bytes:
    return b"".join(entry.entry() for entry in ENTRIES)


def suite_output() -> bytes:
    bench = Bench()
    return "".join(map(bench.line, ENTRIES)).encode("ascii")
