#!/usr/bin/env python3
"""The three promises of section 14 of docs/RULES.md, by their plain words.

    python3 reference/promises.py

runs random sessions on the reference monitor and judges every call. It exits with status 1 if a
promise is broken, or if something that gives the promises their weight never happened.
"""

from __future__ import annotations

import sys
from collections import Counter
from dataclasses import dataclass
from typing import Callable, Iterator, Optional

from gauges import Fault, Reading
from promise_sessions import DIALS, SWITCHES, Session, sessions
from refusals import Refused
from switches import Switch
from wellref import RECORD, TIME_LIMIT, Monitor, Plate, Step, read_record

CLOSED_RIGHTLY = "closed rightly"
OPEN_IN_TIME = "open in time"
CLOSES_IF_FREE = "closes if free"

LATE = 500
SELF_TEST_TRIP = 500
LEVEL_TRIP_SPAN = 200
FULL_RESET = 3_000
OPENING_SPAN = 2_700
HOLDING_SPAN = 14_500


# The words of section 14, about a list of accepted steps.


@dataclass(frozen=True)
class Seen:
    """An accepted step, and what gauge and switch meant at it."""

    step: Step
    reading: Optional[Reading]  # None with power off
    closed: bool  # after the step
    free: bool  # after the step's tick, before its close or open


@dataclass(frozen=True)
class Facts:
    """What is said of one step; only the steps up to it matter."""

    start: bool
    shows_fault: bool
    trip: bool
    full_reset: bool
    quiet: bool
    bad: bool  # faulty, out of limits or without power


class History:
    """All accepted steps so far, by their number from 0 on."""

    def __init__(self, plate: Plate) -> None:
        self.plate = plate
        self.seen: list[Seen] = []
        self.facts: list[Facts] = []

    def add(self, seen: Seen) -> None:
        self.seen.append(seen)
        self.facts.append(self._facts_of(len(self.seen) - 1))

    def _facts_of(self, n: int) -> Facts:
        powered = self.powered(n)
        shows_fault = powered and self.shows_fault(n)
        return Facts(
            start=self.is_start(n),
            shows_fault=shows_fault,
            trip=powered and self.is_trip(n),
            full_reset=powered and self.is_full_reset(n),
            quiet=powered and not shows_fault and self.settled(n) and self.self_test_up(n),
            bad=not powered or self.faulty(n) or self.out_of_limits(n),
        )

    # A step by itself.

    def time(self, n: int) -> int:
        return self.seen[n].step.time

    def powered(self, n: int) -> bool:
        return self.seen[n].step.power_on

    def reset_up(self, n: int) -> bool:
        return not self.seen[n].step.reset_down

    def self_test_up(self, n: int) -> bool:
        return not self.seen[n].step.self_test_down

    def faulty(self, n: int) -> bool:
        return isinstance(self.seen[n].reading, Fault)

    def past_mark(self, n: int) -> bool:
        return self.plate.past_mark(self.seen[n].reading)

    def out_of_limits(self, n: int) -> bool:
        return self.plate.out_of_limits(self.seen[n].reading)

    def settled(self, n: int) -> bool:
        return self.plate.settled(self.seen[n].reading)

    # A step among the others.

    def is_start(self, n: int) -> bool:
        return self.powered(n) and (n == 0 or not self.powered(n - 1))

    def shows_fault(self, n: int) -> bool:
        """Of a power-on step."""
        step = self.seen[n].step
        if step.memory_failed or step.clock_failed or self.faulty(n) or self.past_mark(n):
            return True
        if self.is_start(n):
            return False
        later = self.time(n) - self.time(n - 1)
        return later <= 0 or later >= LATE

    def button_time(self, n: int, is_up: Callable[[int], bool]) -> int:
        """Of a power-on step; back to the first step of the run with the button down."""
        if is_up(n):
            return 0
        first = n
        while not self.is_start(first) and not is_up(first - 1):
            first -= 1
        return max(0, self.time(n) - self.time(first))

    def is_level_trip(self, n: int) -> bool:
        """Of a power-on step: looks for the earlier of the two."""
        if self.settled(n) or not self.self_test_up(n):
            return False
        earlier = n
        while not self.is_start(earlier) and not self.settled(earlier):
            earlier -= 1
            apart = self.time(n) - self.time(earlier) >= LEVEL_TRIP_SPAN
            if apart and self.self_test_up(earlier) and self.out_of_limits(earlier):
                return True
        return False

    def in_self_test(self, n: int) -> bool:
        return self.powered(n) and self.button_time(n, self.self_test_up) > SELF_TEST_TRIP

    def is_trip(self, n: int) -> bool:
        return self.is_start(n) or self.in_self_test(n) or self.is_level_trip(n)

    def is_full_reset(self, n: int) -> bool:
        return self.button_time(n, self.reset_up) > FULL_RESET and self.settled(n)

    # The promises, after the latest step.

    def last(self, fact: str) -> Optional[int]:
        numbers = reversed(range(len(self.facts)))
        return next((n for n in numbers if getattr(self.facts[n], fact)), None)

    def may_be_closed(self) -> bool:
        """Closed rightly: what must hold while the contact is closed."""
        start, trip, end = self.last("start"), self.last("trip"), len(self.facts)
        if start is None or any(self.facts[n].shows_fault for n in range(start, end)):
            return False
        return any(
            self.facts[reset].full_reset and any(map(self.reset_up, range(reset + 1, end)))
            for reset in range(trip + 1, end)
        )

    def bad_stretch(self) -> Optional[int]:
        """Open in time: a first step from which on the water was bad for long enough."""
        latest = len(self.seen) - 1
        for first in reversed(range(len(self.seen))):
            if not self.facts[first].bad:
                return None
            if self.time(latest) - self.time(first) >= OPENING_SPAN:
                return first
        return None

    def long_reset(self) -> Optional[int]:
        """Closes if free: the first step of a long quiet reset let go at the latest step."""
        latest = len(self.seen) - 1
        if not (self.facts[latest].quiet and self.reset_up(latest)):
            return None
        first = latest
        while first > 0 and self.facts[first - 1].quiet and not self.reset_up(first - 1):
            first -= 1
        held = first < latest and self.time(latest - 1) - self.time(first) >= HOLDING_SPAN
        start = self.last("start")
        faults = any(self.facts[n].shows_fault for n in range(start, latest + 1))
        return first if held and not faults else None


# Sessions, call by call.


class WatchedSwitch:
    """A switch that notes its freedom right after each tick."""

    def __init__(self, switch: Switch) -> None:
        self._switch = switch
        self.free_after_tick = False

    def tick(self, time: int) -> None:
        self._switch.tick(time)
        self.free_after_tick = self._switch.is_free()

    def close(self) -> bool:
        return self._switch.close()

    def open(self) -> None:
        self._switch.open()

    def is_closed(self) -> bool:
        return self._switch.is_closed()

    def is_free(self) -> bool:
        return self._switch.is_free()


@dataclass(frozen=True)
class Broken:
    promise: str
    seed: int
    call: int

    def __str__(self) -> str:
        return f"{self.promise} broken in session {self.seed}, call {self.call}"


class Trial:
    """One session on one monitor; the set-up is the first call."""

    def __init__(self, session: Session, counts: Counter) -> None:
        self.session = session
        self.counts = counts
        self.broken: list[Broken] = []
        self.calls = 0
        self.switch = WatchedSwitch(session.switch)
        self.history = History(session.plate)
        self.monitor = Monitor(session.plate, session.gauge, self.switch)
        self._judge_call()

    def run(self) -> None:
        for place in range(0, len(self.session.data), RECORD.size):
            self._idle_calls()
            self._record(place)

    def _idle_calls(self) -> None:
        """Now and then a readout, or a call that is refused."""
        dice, monitor = self.session.dice, self.monitor
        if dice.chance(0.05):
            self._call(lambda: monitor.readout(bytearray(dice.between(0, 80))))
        if dice.chance(0.05):
            step = Step(TIME_LIMIT + 1, 0, 0, dice.chance(0.5), False, False, True, True)
            self._call(lambda: monitor.step(step))
        if dice.chance(0.02):
            self._call(lambda: monitor.feed(self.session.data, len(self.session.data)))

    def _record(self, place: int) -> None:
        """A record is fed, or its step is taken directly."""
        data, monitor = self.session.data, self.monitor
        try:
            step = read_record(data, place)
        except Refused:
            self._call(lambda: monitor.feed(data, place))
            return
        if self.session.dice.chance(0.2):
            self._call(lambda: monitor.step(step), step)
        else:
            self._call(lambda: monitor.feed(data, place), step)

    def _call(self, work: Callable[[], object], step: Optional[Step] = None) -> None:
        """Makes a call; the step it takes, if any, is accepted unless the call is refused."""
        try:
            work()
        except Refused:
            self.counts[REFUSED_CALLS] += 1
        else:
            if step is not None:
                self._accept(step)
        self._judge_call()

    def _accept(self, step: Step) -> None:
        reading = self.session.gauge.reading() if step.power_on else None
        seen = Seen(step, reading, self.switch.is_closed(), self.switch.free_after_tick)
        self.history.add(seen)
        self._judge_open_in_time(seen)
        self._judge_closes_if_free(seen)

    def _judge_call(self) -> None:
        self.calls += 1
        self.counts[CALLS] += 1
        if not self.switch.is_closed():
            return
        self.counts[CLOSED_CALLS] += 1
        self.counts[closed_over(self.session.gauge_name)] += 1
        self.counts[closed_over(self.session.switch_name)] += 1
        self._expect(CLOSED_RIGHTLY, self.history.may_be_closed())

    def _judge_open_in_time(self, latest: Seen) -> None:
        first = self.history.bad_stretch()
        if first is None:
            return
        self.counts[BAD_STRETCHES] += 1
        if any(seen.closed for seen in self.history.seen[first:]):
            self.counts[CLOSED_BAD_STRETCHES] += 1
        self._expect(OPEN_IN_TIME, not latest.closed)

    def _judge_closes_if_free(self, latest: Seen) -> None:
        first = self.history.long_reset()
        if first is None:
            return
        self.counts[FREE_LONG_RESETS if latest.free else HELD_LONG_RESETS] += 1
        if first > 0 and self.history.in_self_test(first - 1):
            self.counts[LONG_RESETS_IN_TEST] += 1
        self._expect(CLOSES_IF_FREE, latest.closed == latest.free)

    def _expect(self, promise: str, kept: bool) -> None:
        if not kept:
            self.broken.append(Broken(promise, self.session.seed, self.calls))


# Many sessions.

CALLS = "calls"
REFUSED_CALLS = "refused calls"
CLOSED_CALLS = "calls with closed contact"
BAD_STRETCHES = "bad stretches"
CLOSED_BAD_STRETCHES = "bad stretches with the contact closed at first"
FREE_LONG_RESETS = "long resets, switch free"
HELD_LONG_RESETS = "long resets, switch held"
LONG_RESETS_IN_TEST = "long resets right after a self test"


def closed_over(name: str) -> str:
    return f"calls with closed contact, {name}"


COUNTED = (
    CALLS,
    REFUSED_CALLS,
    CLOSED_CALLS,
    BAD_STRETCHES,
    CLOSED_BAD_STRETCHES,
    FREE_LONG_RESETS,
    HELD_LONG_RESETS,
    LONG_RESETS_IN_TEST,
    *(closed_over(dial.name) for dial in DIALS),
    *(closed_over(name) for name in SWITCHES),
)


@dataclass(frozen=True)
class Verdict:
    sessions: int
    counts: Counter
    broken: tuple[Broken, ...]

    def complaints(self) -> Iterator[str]:
        yield from map(str, self.broken)
        for name in COUNTED:
            if self.counts[name] == 0:
                yield f"never happened: {name}"

    def summary(self) -> str:
        count = self.counts
        return (
            f"promises: {self.sessions} sessions, {count[CALLS]} calls,"
            f" {count[CLOSED_CALLS]} with closed contact;"
            f" {count[BAD_STRETCHES]} bad stretches, {count[CLOSED_BAD_STRETCHES]} closed at first;"
            f" {count[FREE_LONG_RESETS]} long resets free, {count[HELD_LONG_RESETS]} held"
        )


def judge(session_count: int) -> Verdict:
    counts: Counter = Counter()
    broken: list[Broken] = []
    for session in sessions(session_count):
        trial = Trial(session, counts)
        trial.run()
        broken += trial.broken
    return Verdict(session_count, counts, tuple(broken))


SESSIONS = 3_000
SHOWN_COMPLAINTS = 10


def main() -> int:
    verdict = judge(SESSIONS)
    complaints = list(verdict.complaints())
    for complaint in complaints[:SHOWN_COMPLAINTS]:
        print(f"promises: {complaint}", file=sys.stderr)
    print(f"{verdict.summary()}: {f'{len(complaints)} complaints' if complaints else 'all kept'}")
    return 1 if complaints else 0


if __name__ == "__main__":
    sys.exit(main())
