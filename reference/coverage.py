#!/usr/bin/env python3
"""Counts how often the sessions and the other suites reach each rule of docs/RULES.md.

    python3 reference/coverage.py

prints the table and exits with status 1 if anything is never reached.
"""

from __future__ import annotations

import sys
from dataclasses import dataclass
from itertools import groupby

from gauges import Fault, Level
from refusals import Refusal, Refused
from sessions import SESSIONS, Session
from suite_coverage import count_suites
from tally import ITEMS, Kind
from wellref import (
    MARK,
    MODE_TABLE,
    OPERATING,
    RECORD,
    REPORT_ROOM,
    SHUTDOWN,
    STANDBY,
    TEST,
    TIME_LIMIT,
    ZERO_FLAGS,
    Failure,
    Mode,
    Monitor,
    Plate,
    Trace,
    first_row,
    outcomes,
    readout_line,
)

ALLOK, BADLEVDEV, HARDFAIL = Failure.ALLOK, Failure.BADLEVDEV, Failure.HARDFAIL
POWERED_MODES = (STANDBY, OPERATING, SHUTDOWN, TEST)
LAMPS = ("high_window", "low_window", "alarm")


@dataclass(frozen=True)
class RefusedRecord:
    number: Refusal
    data: bytes  # from the refused place on, at most one record

    def fields(self) -> tuple[bytes, int, int]:
        mark, flags, time, _, _ = RECORD.unpack(self.data)
        return mark, flags, time


@dataclass(frozen=True)
class Readout:
    room: int
    length: int
    refused: bool


OFF = Kind()  # steps with power off
START = Kind()  # starts
RUN = Kind()  # other steps with power on
MOVE = Kind()  # those of them that end allok
REFUSED = Kind()  # refused records
READOUT = Kind()  # readouts after accepted records
PLATE = Kind()  # five numbers for a plate


def later(t: Trace) -> int:
    return t.step.time - t.before.time


def time_in_test(t: Trace) -> int:
    return t.step.time - t.after.entered


def lit(t: Trace) -> tuple[bool, bool, bool]:
    return (t.after.high_window, t.after.low_window, t.after.alarm)


def lit_before(t: Trace) -> tuple[bool, bool, bool]:
    return (t.before.high_window, t.before.low_window, t.before.alarm)


# Section 6: the mode table.


def add_rows() -> None:
    for number, row in enumerate(MODE_TABLE, 1):
        for source in row.sources:
            MOVE.add(
                "mode table",
                f"row {number}: {source.value} to {row.target.value}",
                lambda t, row=row, source=source: t.row is row and t.before.mode is source,
            )
    for mode in POWERED_MODES:
        MOVE.add(
            "mode table",
            f"no row applies in {mode.value}",
            lambda t, mode=mode: t.row is None and t.before.mode is mode,
        )


def add_row_contests() -> None:
    to_test, _, _, _, to_operating, _ = MODE_TABLE
    group = "mode table"
    MOVE.add(
        group,
        "self test beats reset in standby",
        lambda t: t.row is to_test and t.before.mode is STANDBY and to_operating.condition(t.view),
    )
    MOVE.add(
        group,
        "self test down holds operating out of limits",
        lambda t: t.row is None
        and t.before.mode is OPERATING
        and t.view.out_of_limits
        and not t.view.self_test_up,
    )
    for name, in_time in (
        ("T at least 200", lambda t: t.view.T >= 200),
        ("T below 200, settled", lambda t: t.view.T < 200 and t.view.settled),
    ):
        MOVE.add(
            group,
            f"self test down holds shutdown, {name}",
            lambda t, in_time=in_time: t.row is None
            and t.before.mode is SHUTDOWN
            and not t.view.self_test_up
            and in_time(t),
        )
    for failure in (BADLEVDEV, HARDFAIL):
        RUN.add(
            group,
            f"a row that would apply rests in {failure.value}",
            lambda t, failure=failure: t.after.failure is failure
            and first_row(t.before.mode, t.view) is not None
            and t.after.mode is t.before.mode,
        )


# The edge numbers of sections 5 and 6.


def add_mode_edges() -> None:
    group = "edges of the mode table"
    for mode in (STANDBY, OPERATING, SHUTDOWN):
        for time, target in ((500, mode), (501, TEST)):
            MOVE.add(
                group,
                f"self test time {time} in {mode.value}",
                lambda t, mode=mode, time=time, target=target: t.before.mode is mode
                and t.view.self_test_time == time
                and t.after.mode is target,
            )
    for time, settled, target in (
        (199, True, OPERATING),
        (199, False, SHUTDOWN),
        (200, True, STANDBY),
        (200, False, STANDBY),
    ):
        MOVE.add(
            group,
            f"T {time} in shutdown, {'settled' if settled else 'not settled'}",
            lambda t, time=time, settled=settled, target=target: t.before.mode is SHUTDOWN
            and t.view.self_test_up
            and t.view.T == time
            and t.view.settled is settled
            and t.after.mode is target,
        )
    for time, settled, target in (
        (3_000, True, STANDBY),
        (3_001, True, OPERATING),
        (3_001, False, STANDBY),
    ):
        MOVE.add(
            group,
            f"reset time {time} in standby, {'settled' if settled else 'not settled'}",
            lambda t, time=time, settled=settled, target=target: t.before.mode is STANDBY
            and t.view.reset_time == time
            and t.view.settled is settled
            and t.after.mode is target,
        )
    for time, target in ((14_000, TEST), (14_001, STANDBY)):
        MOVE.add(
            group,
            f"T {time} in test",
            lambda t, time=time, target=target: t.before.mode is TEST
            and t.view.T == time
            and t.after.mode is target,
        )


def add_level_edges() -> None:
    """Levels exactly at an edge and one unit off, where it decides."""
    group = "edges of the plate"

    def level(t: Trace) -> int:
        return t.view.reading.units if isinstance(t.view.reading, Level) else -1

    def add(kind: Kind, name: str, edge, offset: int, where, result) -> None:
        kind.add(
            group,
            f"level {name}" + (f" {offset:+d}" if offset else ""),
            lambda t: level(t) == edge(t.plate) + offset and where(t) and result(t),
        )

    def was_allok(t: Trace) -> bool:
        return t.before.failure is ALLOK

    def stays_allok(t: Trace) -> bool:
        return t.after.failure is ALLOK

    def is_badlevdev(t: Trace) -> bool:
        return t.after.failure is BADLEVDEV

    for name, edge, outside in (
        ("at the low mark", lambda p: p.low_mark, -1),
        ("at the high mark", lambda p: p.high_mark, +1),
    ):
        add(RUN, name, edge, 0, was_allok, stays_allok)
        add(RUN, name, edge, outside, was_allok, is_badlevdev)

    def in_operating(t: Trace) -> bool:
        return t.before.mode is OPERATING and t.view.self_test_up

    def shuts_down(t: Trace) -> bool:
        return t.after.mode is SHUTDOWN

    def operates(t: Trace) -> bool:
        return t.after.mode is OPERATING

    for name, edge, inside in (
        ("at the low limit", lambda p: p.low_limit, +1),
        ("at the high limit", lambda p: p.high_limit, -1),
    ):
        add(MOVE, name, edge, 0, in_operating, shuts_down)
        add(MOVE, name, edge, inside, in_operating, operates)

    def reset_is_held(t: Trace) -> bool:
        return t.before.mode is STANDBY and t.view.reset_time > 3_000 and t.view.self_test_up

    def stays_in_standby(t: Trace) -> bool:
        return t.after.mode is STANDBY

    for name, edge, outside in (
        ("at low limit plus hysteresis", lambda p: p.low_limit + p.hysteresis, -1),
        ("at high limit less hysteresis", lambda p: p.high_limit - p.hysteresis, +1),
    ):
        add(MOVE, name, edge, 0, reset_is_held, operates)
        add(MOVE, name, edge, outside, reset_is_held, stays_in_standby)


def add_clock_edges() -> None:
    group = "clock and watchdog"
    RUN.add(
        group,
        "499 later keeps the watchdog",
        lambda t: later(t) == 499 and t.before.watchdog and t.after.watchdog,
    )
    RUN.add(
        group,
        "500 later shuts the watchdog",
        lambda t: later(t) == 500 and t.before.watchdog and not t.after.watchdog,
    )
    RUN.add(
        group,
        "watchdog stays shut when in time again",
        lambda t: later(t) < 500 and not t.before.watchdog and not t.after.watchdog,
    )
    for failure in Failure:
        RUN.add(
            group,
            f"late step in {failure.value}",
            lambda t, failure=failure: t.before.failure is failure
            and t.before.watchdog
            and not t.after.watchdog,
        )
    START.add(group, "start 500 or more later is not late", lambda t: later(t) >= 500)
    for name, is_so in (("equal", lambda d: d == 0), ("less", lambda d: d < 0)):
        RUN.add(
            group,
            f"time {name} is a failed clock",
            lambda t, is_so=is_so: is_so(later(t))
            and t.before.failure is not HARDFAIL
            and t.after.failure is HARDFAIL,
        )
        START.add(
            group,
            f"time {name} at a start is none",
            lambda t, is_so=is_so: is_so(later(t)) and t.after.failure is ALLOK,
        )
        OFF.add(
            group, f"time {name} with power off is none", lambda t, is_so=is_so: is_so(later(t))
        )
    MOVE.add(group, "time one later is good", lambda t: later(t) == 1)
    for name, kind in (("run", RUN), ("start", START), ("power off", OFF)):
        kind.add(group, f"{name} at the time limit", lambda t: t.step.time == TIME_LIMIT)


# Section 5: power and failure modes.


def add_power() -> None:
    group = "power"
    for mode in Mode:
        OFF.add(group, f"off in {mode.value}", lambda t, mode=mode: t.before.mode is mode)
    for failure in Failure:
        OFF.add(
            group,
            f"off in {failure.value}",
            lambda t, failure=failure: t.before.mode is not Mode.DARK
            and t.before.failure is failure,
        )
    OFF.add(group, "off with failed memory stays allok", lambda t: t.step.memory_failed)
    OFF.add(group, "off with failed clock stays allok", lambda t: t.step.clock_failed)
    OFF.add(group, "off with a word beyond the scale", lambda t: t.step.word_a > 255)
    OFF.add(group, "off puts windows and alarm out", lambda t: all(lit_before(t)))
    OFF.add(group, "off shuts the signal", lambda t: t.before.signal)
    OFF.add(group, "off opens the contact", lambda t: t.contact_before and not t.contact_after)
    OFF.add(
        group,
        "off ends a button's run",
        lambda t: t.before.reset_since is not None and t.step.reset_down,
    )
    OFF.add(
        group,
        "off with the watchdog shut by a late step",
        lambda t: t.before.mode is not Mode.DARK and not t.before.watchdog,
    )
    START.add(group, "start in the first step of all", lambda t: t.before.time == 0)
    START.add(group, "start allok", lambda t: t.after.failure is ALLOK)
    START.add(group, "start with gauge fault", lambda t: isinstance(t.view.reading, Fault))
    START.add(group, "start past a mark", lambda t: t.plate.past_mark(t.view.reading))
    START.add(
        group, "start out of limits", lambda t: t.after.failure is ALLOK and t.view.out_of_limits
    )
    START.add(group, "start with memory failed", lambda t: t.step.memory_failed)
    START.add(group, "start with clock failed", lambda t: t.step.clock_failed)
    START.add(group, "start with reset down", lambda t: t.step.reset_down)
    START.add(group, "start with self test down", lambda t: t.step.self_test_down)
    START.add(
        group, "start with both buttons down", lambda t: t.step.reset_down and t.step.self_test_down
    )


def add_failure_changes() -> None:
    group = "failure mode"
    for before, after in ((ALLOK, BADLEVDEV), (ALLOK, HARDFAIL), (BADLEVDEV, HARDFAIL)):
        for mode in POWERED_MODES:
            RUN.add(
                group,
                f"{before.value} to {after.value} in {mode.value}",
                lambda t, before=before, after=after, mode=mode: t.before.failure is before
                and t.after.failure is after
                and t.after.mode is mode,
            )
    for name, is_so in (
        ("a gauge fault", lambda t: isinstance(t.view.reading, Fault)),
        (
            "a level below the low mark",
            lambda t: t.plate.past_mark(t.view.reading) and t.plate.low(t.view.reading),
        ),
        (
            "a level above the high mark",
            lambda t: t.plate.past_mark(t.view.reading) and t.plate.high(t.view.reading),
        ),
    ):
        RUN.add(
            group,
            f"badlevdev by {name}",
            lambda t, is_so=is_so: t.before.failure is ALLOK
            and t.after.failure is BADLEVDEV
            and is_so(t),
        )
        RUN.add(
            group,
            f"hardfail stays so with {name}",
            lambda t, is_so=is_so: t.before.failure is HARDFAIL
            and not t.view.clock_failed
            and not t.step.memory_failed
            and is_so(t),
        )
    for before in (ALLOK, BADLEVDEV):
        for name, is_so in (
            ("failed memory", lambda t: t.step.memory_failed and not t.view.clock_failed),
            ("a told failed clock", lambda t: t.step.clock_failed and later(t) > 0),
            ("a time not later", lambda t: not t.step.clock_failed and t.view.clock_failed),
        ):
            RUN.add(
                group,
                f"{before.value} turns hardfail by {name}",
                lambda t, before=before, is_so=is_so: t.before.failure is before and is_so(t),
            )
    RUN.add(
        group,
        "gauge fault and failed memory at once are hardfail",
        lambda t: t.before.failure is ALLOK
        and isinstance(t.view.reading, Fault)
        and t.after.failure is HARDFAIL,
    )
    for failure in (BADLEVDEV, HARDFAIL):
        RUN.add(
            group,
            f"{failure.value} does not go back with a good level",
            lambda t, failure=failure: t.before.failure is failure
            and t.after.failure is failure
            and t.view.settled
            and not t.view.clock_failed
            and not t.step.memory_failed,
        )


# Section 8: windows and alarm.


def add_window_rules() -> None:
    group = "windows and alarm"
    by_level = {
        "high_window": lambda t: t.plate.high(t.view.reading),
        "low_window": lambda t: t.plate.low(t.view.reading),
        "alarm": lambda t: t.view.out_of_limits,
    }
    for lamp, called in by_level.items():
        name = lamp.replace("_", " ")

        def before(t: Trace, lamp=lamp) -> bool:
            return getattr(t.before, lamp)

        def after(t: Trace, lamp=lamp) -> bool:
            return getattr(t.after, lamp)

        def entered_operating(t: Trace) -> bool:
            return t.row is not None and t.row.target is OPERATING

        for mode in (OPERATING, SHUTDOWN):
            MOVE.add(
                group,
                f"{name} goes on by the level in {mode.value}",
                lambda t, mode=mode, called=called, before=before: t.after.mode is mode
                and called(t)
                and not before(t),
            )
            MOVE.add(
                group,
                f"{name} stays on in {mode.value} with the level back",
                lambda t, mode=mode, called=called, after=after: t.after.mode is mode
                and not called(t)
                and after(t),
            )
            if (lamp, mode) == ("alarm", SHUTDOWN):
                continue  # the alarm is never silent there
            MOVE.add(
                group,
                f"{name} stays off in {mode.value}",
                lambda t, mode=mode, before=before, after=after: t.after.mode is mode
                and not before(t)
                and not after(t),
            )
        for source in (STANDBY, SHUTDOWN):
            MOVE.add(
                group,
                f"{name} goes off on entering operating from {source.value}",
                lambda t, source=source, before=before, after=after: entered_operating(t)
                and t.before.mode is source
                and before(t)
                and not after(t),
            )
        MOVE.add(
            group,
            f"{name} stays on in standby",
            lambda t, before=before, after=after: t.after.mode is STANDBY
            and before(t)
            and after(t),
        )
        MOVE.add(
            group,
            f"{name} stays off in standby though called for",
            lambda t, called=called, before=before, after=after: t.after.mode is STANDBY
            and called(t)
            and not before(t)
            and not after(t),
        )
    for lamps in ((True, False, True), (False, True, True), (False, False, True), (True,) * 3):
        names = ", ".join(name.replace("_", " ") for name, on in zip(LAMPS, lamps) if on)
        MOVE.add(
            group,
            f"entering operating puts out: {names}",
            lambda t, lamps=lamps: t.row is not None
            and t.row.target is OPERATING
            and lit_before(t) == lamps,
        )


def add_test_windows() -> None:
    group = "windows and alarm in test"
    for time, lamps in (
        (0, (True, False, True)),
        (1_999, (True, False, True)),
        (2_000, (False, True, True)),
        (3_999, (False, True, True)),
        (4_000, (False, False, True)),
        (4_001, (False, False, False)),
    ):
        MOVE.add(
            group,
            f"T {time}",
            lambda t, time=time, lamps=lamps: t.after.mode is TEST
            and time_in_test(t) == time
            and lit(t) == lamps,
        )
    MOVE.add(
        group,
        "windows of a shutdown put out",
        lambda t: t.before.mode is SHUTDOWN and t.after.mode is TEST and t.before.low_window,
    )


def add_failure_windows() -> None:
    group = "windows and alarm in failure"
    for mode in POWERED_MODES:
        for parity, lamps in (("even", (True,) * 3), ("odd", (False, False, True))):
            RUN.add(
                group,
                f"badlevdev in {mode.value}, time by 500 {parity}",
                lambda t, mode=mode, lamps=lamps: t.after.failure is BADLEVDEV
                and t.after.mode is mode
                and lit(t) == lamps,
            )
        RUN.add(
            group,
            f"hardfail in {mode.value}",
            lambda t, mode=mode: t.after.failure is HARDFAIL
            and t.after.mode is mode
            and all(lit(t)),
        )
    for rest, lamps in (
        (0, (True,) * 3),
        (499, (True,) * 3),
        (500, (False, False, True)),
        (999, (False, False, True)),
    ):
        RUN.add(
            group,
            f"badlevdev at a time of {rest} over a full second",
            lambda t, rest=rest, lamps=lamps: t.after.failure is BADLEVDEV
            and t.step.time % 1_000 == rest
            and lit(t) == lamps,
        )
    RUN.add(
        group,
        "hardfail lit in an odd half second",
        lambda t: t.after.failure is HARDFAIL and t.step.time // 500 % 2 == 1 and all(lit(t)),
    )


# Section 7: the signal, and the contact.


def add_signal_rules() -> None:
    group = "signal"

    def signal(t: Trace) -> tuple[bool, bool]:
        return (t.before.signal, t.after.signal)

    for name, mode, reset, change in (
        ("operating, reset let go: operate", OPERATING, False, (False, True)),
        ("operating, reset up: still operate", OPERATING, False, (True, True)),
        ("operating, reset down: still shutdown", OPERATING, True, (False, False)),
        ("operating, reset down: still operate", OPERATING, True, (True, True)),
        ("shutdown, reset up: still operate", SHUTDOWN, False, (True, True)),
        ("shutdown, reset down: still operate", SHUTDOWN, True, (True, True)),
        ("shutdown, reset up: still shutdown", SHUTDOWN, False, (False, False)),
        ("shutdown, reset down: still shutdown", SHUTDOWN, True, (False, False)),
        ("standby: operate to shutdown", STANDBY, False, (True, False)),
        ("test: operate to shutdown", TEST, False, (True, False)),
    ):
        MOVE.add(
            group,
            name,
            lambda t, mode=mode, reset=reset, change=change: t.after.mode is mode
            and (t.step.reset_down is reset or mode in (STANDBY, TEST))
            and signal(t) == change,
        )
    for failure in (BADLEVDEV, HARDFAIL):
        for mode in (OPERATING, SHUTDOWN):
            RUN.add(
                group,
                f"{failure.value} in {mode.value}: operate to shutdown",
                lambda t, failure=failure, mode=mode: t.after.failure is failure
                and t.after.mode is mode
                and signal(t) == (True, False),
            )


def add_contact_rules() -> None:
    group = "contact"
    RUN.add(
        group,
        "closes: signal and watchdog operate",
        lambda t: not t.contact_before and t.contact_after,
    )
    RUN.add(
        group,
        "opens by the watchdog alone",
        lambda t: t.contact_before and t.after.signal and not t.contact_after,
    )
    RUN.add(
        group,
        "opens by the signal alone",
        lambda t: t.contact_before and t.after.watchdog and not t.contact_after,
    )
    RUN.add(
        group,
        "stays open: signal operate, watchdog shut",
        lambda t: not t.contact_before and t.after.signal and not t.contact_after,
    )
    RUN.add(
        group, "stays closed in shutdown", lambda t: t.after.mode is SHUTDOWN and t.contact_after
    )


# Section 9: the figure.


def add_figure_rules() -> None:
    group = "figure"
    for mode in (STANDBY, OPERATING, SHUTDOWN):
        MOVE.add(
            group, f"of the level in {mode.value}", lambda t, mode=mode: t.after.mode is mode
        )
    for name, low, high, up in (
        ("close below a half, rounded down", 4_990, 4_999, 0),
        ("close above a half, rounded up", 5_000, 5_110, 1),
    ):
        MOVE.add(
            group,
            name,
            lambda t, low=low, high=high, up=up: t.after.mode is not TEST
            and low <= t.view.reading.units % 10_000 <= high
            and float(t.after.figure) * 10 == t.view.reading.units // 10_000 + up,
        )
    edges = [(3_999, "00.0")]
    for digit in range(9):
        start = 4_000 + 1_000 * digit
        edges += [(start, f"{digit}{digit}.{digit}"), (start + 999, f"{digit}{digit}.{digit}")]
    edges += [(13_000, "00.0"), (14_000, "00.0")]
    for time, figure in edges:
        MOVE.add(
            group,
            f"T {time} in test: {figure}",
            lambda t, time=time, figure=figure: t.after.mode is TEST
            and time_in_test(t) == time
            and t.after.figure == figure,
        )
    for failure in (BADLEVDEV, HARDFAIL):
        for mode in POWERED_MODES:
            RUN.add(
                group,
                f"none in {failure.value}, {mode.value}",
                lambda t, failure=failure, mode=mode: t.after.failure is failure
                and t.after.mode is mode
                and t.after.figure == "--.-",
            )
    OFF.add(group, "none in the dark", lambda t: t.after.figure == "--.-")


# Section 3: the cell.


def add_cell() -> None:
    for word in (0, 255, 256, 2**32 - 1):
        RUN.add("cell", f"word {word}", lambda t, word=word: t.step.word_a == word)
    RUN.add("cell", "word B not 0", lambda t: t.step.word_b != 0)


# Section 12: refusals.


def add_refused_records() -> None:
    def add(name: str, number: Refusal, holds) -> None:
        REFUSED.add(
            "refusals",
            f"{number:d}: {name}",
            lambda case: case.number is number and holds(case),
        )

    too_few, mark, flags, time = (
        Refusal.TOO_FEW_BYTES,
        Refusal.BAD_MARK,
        Refusal.BAD_FLAGS,
        Refusal.TIME_ABOVE_LIMIT,
    )
    add("one byte", too_few, lambda c: len(c.data) == 1)
    add("18 bytes", too_few, lambda c: len(c.data) == 18)
    add("18 bytes with a bad mark", too_few, lambda c: c.data == bytes(18))
    add("first byte of the mark", mark, lambda c: c.data[0] != MARK[0] and c.data[1] == MARK[1])
    add("second byte of the mark", mark, lambda c: c.data[0] == MARK[0] and c.data[1] != MARK[1])
    add("bad flags and time as well", mark, lambda c: bad_flags(c) and bad_time(c))
    add("bad flags as well", mark, lambda c: bad_flags(c) and not bad_time(c))
    add("time above the limit as well", mark, lambda c: bad_time(c) and not bad_flags(c))
    for bit in (5, 6, 7):
        add(
            f"flag bit {bit} alone",
            flags,
            lambda c, bit=bit: c.fields()[1] & ZERO_FLAGS == 1 << bit,
        )
    add("time above the limit as well", flags, bad_time)
    add("time one above the limit", time, lambda c: c.fields()[2] == TIME_LIMIT + 1)
    add("largest time", time, lambda c: c.fields()[2] == 2**64 - 1)
    add("time above the limit, power off", time, lambda c: c.fields()[1] == 0)


def bad_flags(case: RefusedRecord) -> bool:
    return bool(case.fields()[1] & ZERO_FLAGS)


def bad_time(case: RefusedRecord) -> bool:
    return case.fields()[2] > TIME_LIMIT


def add_readouts() -> None:
    READOUT.add("refusals", "5: no room", lambda r: r.refused and r.room == 0)
    READOUT.add("refusals", "5: one byte short", lambda r: r.refused and r.room == r.length - 1)
    READOUT.add(
        "refusals", "room for the line exactly", lambda r: not r.refused and r.room == r.length
    )
    READOUT.add(
        "refusals", "room for more than the line", lambda r: not r.refused and r.room > r.length
    )


# Section 2: the plate. A rule holds if its slack is at least 0.


def slacks(numbers: tuple[int, ...]) -> tuple[int, ...]:
    low_mark, low_limit, high_limit, high_mark, hysteresis = numbers
    return (
        low_limit - low_mark - 1,
        high_limit - low_limit - 2 * hysteresis,
        high_mark - high_limit - 1,
        Plate.HIGHEST_MARK - high_mark,
        hysteresis - 1,
    )


def wrapped_slack(numbers: tuple[int, ...]) -> int:
    """Rule 2 as 32-bit sums would have it."""
    _, low_limit, high_limit, _, hysteresis = numbers
    return high_limit - (low_limit + 2 * hysteresis) % 2**32


def add_plates() -> None:
    for index in range(5):
        for name, slack in (("just kept", 0), ("just broken", -1)):
            PLATE.add(
                "plates",
                f"rule {index + 1} {name}",
                lambda numbers, index=index, slack=slack: slacks(numbers)[index] == slack
                and all(s >= 0 for i, s in enumerate(slacks(numbers)) if i != index),
            )
    PLATE.add(
        "plates",
        "rule 2 broken only in exact arithmetic",
        lambda numbers: min(slacks(numbers)) < 0
        and wrapped_slack(numbers) >= 0
        and all(s >= 0 for i, s in enumerate(slacks(numbers)) if i != 1),
    )
    PLATE.add("plates", "low mark 0", lambda numbers: min(slacks(numbers)) >= 0 == numbers[0])


for _add_items in (
    add_rows,
    add_row_contests,
    add_mode_edges,
    add_level_edges,
    add_clock_edges,
    add_power,
    add_failure_changes,
    add_window_rules,
    add_test_windows,
    add_failure_windows,
    add_signal_rules,
    add_contact_rules,
    add_figure_rules,
    add_cell,
    add_refused_records,
    add_readouts,
    add_plates,
):
    _add_items()


# Counting.


def count_trace(trace: Trace) -> None:
    if not trace.step.power_on:
        OFF.count(trace)
    elif trace.before.mode is Mode.DARK:
        START.count(trace)
    else:
        RUN.count(trace)
        if trace.after.failure is ALLOK:
            MOVE.count(trace)


def count_session(session: Session) -> None:
    PLATE.count(session.numbers)
    try:
        monitor = session.monitor(count_trace)
    except Refused:
        return
    for index, refused in enumerate(outcomes(monitor, session.data)):
        if refused:
            place = RECORD.size * index
            REFUSED.count(
                RefusedRecord(refused.number, session.data[place : place + RECORD.size])
            )
        else:
            READOUT.count(readout_of(monitor, session.room))


def readout_of(monitor: Monitor, room: int) -> Readout:
    line = readout_line(monitor, REPORT_ROOM)
    return Readout(room, len(line), readout_line(monitor, room) != line)


def missed() -> list[str]:
    """Counts all sessions and suites; names what none of them reaches."""
    for session in SESSIONS:
        count_session(session)
    count_suites()
    return [f"{item.group}: {item.name}" for item in ITEMS if item.count == 0]


def print_table() -> None:
    for group, members in groupby(ITEMS, key=lambda item: item.group):
        print(group)
        for item in members:
            print(f"  {item.count:6d}  {item.name}")


def main() -> int:
    never = missed()
    print_table()
    print(f"coverage: {len(ITEMS) - len(never)} of {len(ITEMS)} reached")
    for name in never:
        print(f"never reached: {name}")
    return 1 if never else 0


if __name__ == "__main__":
    sys.exit(main())
