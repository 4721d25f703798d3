"""What the gauge suite, the switch suite and the run suite have to reach."""

from __future__ import annotations

from dataclasses import dataclass
from typing import Callable, Optional

import gauge_suite
import run_suite
import switch_suite
from dials import (
    INFINITY,
    MINUS_INFINITY,
    MINUS_ZERO,
    NEGATIVE_NAN,
    QUIET_NAN,
    SIGNALLING_NAN,
    SMALLEST,
    SMALLEST_BELOW_ZERO,
)
from gauge_suite import CELL_ECHO, CELLS_ECHO, ECHO, ECHO_CELL, ECHO_CELLS, PAIRS, Vector
from gauges import (
    EXPONENT_MASK,
    FRACTION_MASK,
    SIGN,
    Cause,
    Fault,
    Gauge,
    Level,
    Pair,
    Reading,
    exponent_of,
    quanta_of,
    rounded,
    units_of,
)
from refusals import Refusal
from run_suite import CELLS_OVER_DIRECT, ECHO_OVER_DRIVE, KINDS, MIXED_AND_DIRECT, Run
from switch_suite import (
    CLOSE,
    LATEST,
    MAKERS,
    NEW_DIRECT,
    NEW_DOUBLE_REST,
    NEW_DRIVE,
    NEW_REST,
    OPEN,
    TICK,
    Bench,
    Entry,
)
from switches import RestLayer, Switch
from tally import Kind
from wellref import Failure, Mode, Trace, outcomes

GAUGE = Kind()  # gauge vectors
SWITCH = Kind()  # entries of the switch suite
STEP = Kind()  # accepted steps of the run suite
REFUSED = Kind()  # refused records of the run suite


# Section 3: mounts.


@dataclass(frozen=True)
class GaugeCase:
    vector: Vector
    gauge: Optional[Gauge]  # None if the mount is refused
    reading: Optional[Reading]

    def is_echo(self) -> bool:
        return self.vector.kind == ECHO and self.gauge is not None

    def fault(self) -> Optional[tuple[Cause, int]]:
        if isinstance(self.reading, Fault):
            return self.reading.cause, self.reading.height
        return None

    def exact(self) -> int:
        """The difference of an echo vector before the rounding, in quanta."""
        return quanta_of(self.vector.mount) - quanta_of(self.vector.word_a)

    def members(self) -> tuple[Reading, Reading]:
        assert isinstance(self.gauge, Pair)
        return self.gauge.first.reading(), self.gauge.second.reading()


def gauge_case(vector: Vector) -> GaugeCase:
    gauge = vector.gauge()
    return GaugeCase(vector, gauge, gauge and gauge.reading())


def add_mounts() -> None:
    group = "mounts"
    for name, mount, refused in (
        ("1.0", gauge_suite.LOWEST_MOUNT, False),
        ("100.0", gauge_suite.HIGHEST_MOUNT, False),
        ("just below 1.0", gauge_suite.LOWEST_MOUNT - 1, True),
        ("just above 100.0", gauge_suite.HIGHEST_MOUNT + 1, True),
        ("0", 0, True),
        ("minus zero", MINUS_ZERO, True),
        ("smallest subnormal", SMALLEST, True),
        ("largest subnormal", FRACTION_MASK, True),
        ("minus 1.0", SIGN | gauge_suite.LOWEST_MOUNT, True),
        ("minus 100.0", SIGN | gauge_suite.HIGHEST_MOUNT, True),
        ("infinity", INFINITY, True),
        ("minus infinity", MINUS_INFINITY, True),
        ("quiet NaN", QUIET_NAN, True),
        ("signalling NaN", SIGNALLING_NAN, True),
        ("negative NaN", NEGATIVE_NAN, True),
    ):
        GAUGE.add(
            group,
            f"{name} {'refused' if refused else 'good'}",
            lambda c, mount=mount, refused=refused: c.vector.mount == mount
            and (c.gauge is None) is refused,
        )
    for kind in PAIRS:
        GAUGE.add(
            group,
            f"refused in a pair of kind {kind}",
            lambda c, kind=kind: c.vector.kind == kind and c.gauge is None,
        )


# Section 3: the echo gauge.


def add_echo(name: str, holds: Callable[[GaugeCase], bool]) -> None:
    GAUGE.add("echo gauge", name, lambda c: c.is_echo() and holds(c))


def add_echo_faults() -> None:
    for name, word in (
        ("infinity", INFINITY),
        ("minus infinity", MINUS_INFINITY),
        ("quiet NaN", QUIET_NAN),
        ("signalling NaN", SIGNALLING_NAN),
        ("negative NaN", NEGATIVE_NAN),
    ):
        add_echo(
            f"{name} is an echo lost",
            lambda c, word=word: c.vector.word_a == word and c.fault() == (Cause.ECHO_LOST, 0),
        )
    for name, is_so in (
        ("smallest below zero", lambda v: v.word_a == SMALLEST_BELOW_ZERO),
        ("far below zero", lambda v: v.word_a == MINUS_INFINITY - 1),
        ("one float above the mount", lambda v: v.word_a == v.mount + 1),
        ("the largest float", lambda v: v.word_a == INFINITY - 1),
    ):
        add_echo(
            f"{name} is out of reach",
            lambda c, is_so=is_so: is_so(c.vector) and c.fault() == (Cause.OUT_OF_REACH, 0),
        )
    add_echo("fault with word B not 0", lambda c: c.fault() is not None and c.vector.word_b != 0)
    add_echo("level with word B not 0", lambda c: c.fault() is None and c.vector.word_b != 0)


def add_echo_levels() -> None:
    def reads(c: GaugeCase, quanta: int) -> bool:
        return c.reading == Level(units_of(quanta))

    for name, word in (("0", 0), ("minus zero", MINUS_ZERO), ("the smallest float", SMALLEST)):
        add_echo(
            f"a gap of {name} reads the mount",
            lambda c, word=word: c.vector.word_a == word and reads(c, quanta_of(c.vector.mount)),
        )
    add_echo(
        "the largest subnormal gap reads the mount",
        lambda c: c.vector.word_a == FRACTION_MASK and reads(c, quanta_of(c.vector.mount)),
    )
    add_echo(
        "a gap of the mount reads 0",
        lambda c: c.vector.word_a == c.vector.mount and c.reading == Level(0),
    )
    for below in (1, 2):
        add_echo(
            f"a gap {below} below the mount",
            lambda c, below=below: c.vector.word_a == c.vector.mount - below
            and isinstance(c.reading, Level),
        )
    add_echo("the highest level", lambda c: c.reading == Level(10_000_000))


def add_echo_rounding() -> None:
    """Rounding is judged where the gap is within reach."""

    def add(name: str, holds: Callable[[int], bool]) -> None:
        add_echo(name, lambda c: isinstance(c.reading, Level) and holds(c.exact()))

    def is_tie(exact: int) -> bool:
        return exact != rounded(exact) and rounded(exact - 1) != rounded(exact + 1)

    def decides(exact: int) -> bool:
        return units_of(exact) != units_of(rounded(exact))

    def tie_decides(exact: int) -> bool:
        return units_of(rounded(exact - 1)) != units_of(rounded(exact + 1))

    add("difference exact", lambda exact: rounded(exact) == exact)
    for name, up in (("up", True), ("down", False)):
        add(
            f"rounded {name}",
            lambda exact, up=up: rounded(exact) != exact and (rounded(exact) > exact) is up,
        )
        add(
            f"rounded {name} to another level",
            lambda exact, up=up: decides(exact) and (rounded(exact) > exact) is up,
        )
        add(
            f"tie rounded {name} to even, which decides the level",
            lambda exact, up=up: is_tie(exact)
            and tie_decides(exact)
            and (rounded(exact) > exact) is up,
        )


def add_exponents() -> None:
    for exponent in range(EXPONENT_MASK + 1):
        GAUGE.add(
            "exponents of the gap",
            f"{exponent}",
            lambda c, exponent=exponent: c.is_echo() and exponent_of(c.vector.word_a) == exponent,
        )


# Section 3: pairs.

REACHABLE_FAULTS = {
    CELL_ECHO: ((1, 1), (2, 1), (3, 1), (4, 0)),
    ECHO_CELL: ((1, 1), (2, 1), (3, 1), (4, 0)),
    CELLS_ECHO: ((1, 2), (4, 0), (4, 1)),
    ECHO_CELLS: ((1, 2), (2, 1), (3, 1), (4, 0), (4, 1)),
}


def add_pair_faults() -> None:
    for kind, faults in REACHABLE_FAULTS.items():
        group = f"pair of kind {kind}"

        def add(name: str, holds, group=group, kind=kind) -> None:
            GAUGE.add(
                group,
                name,
                lambda c: c.vector.kind == kind and c.gauge is not None and holds(c),
            )

        for cause, height in faults:
            add(
                f"fault {cause} height {height}",
                lambda c, fault=(cause, height): c.fault() == fault,
            )
        add("both members faulty", lambda c: all(isinstance(m, Fault) for m in c.members()))
        for distance in (-50_001, -50_000, 50_000, 50_001):
            add(
                f"members {distance:+d} apart",
                lambda c, distance=distance: apart(c) == distance
                and isinstance(c.reading, Level) is (abs(distance) == 50_000),
            )
        add("sum rounded down", lambda c: apart(c) is not None and apart(c) % 2 == 1)


def apart(case: GaugeCase) -> Optional[int]:
    first, second = case.members()
    if isinstance(first, Level) and isinstance(second, Level):
        return second.units - first.units
    return None


# Section 4: switches.


@dataclass(frozen=True)
class Layer:
    """A rest layer as it was before an entry."""

    rest: int
    last_tick: int
    opening_tick: Optional[int]

    def over(self) -> Optional[int]:
        return None if self.opening_tick is None else self.opening_tick + self.rest

    def rested(self) -> bool:
        return self.over() is None or self.over() <= self.last_tick


@dataclass(frozen=True)
class SwitchCase:
    entry: Entry
    kind: Optional[int]  # the op that made the switch, before the entry
    closed: bool  # before the entry
    layers: tuple[Layer, ...]  # before the entry, the uppermost first
    line: str

    def answers(self, op: int, answer: str) -> bool:
        return self.entry.op == op and answer in self.line


def layers_of(switch: Optional[Switch]) -> tuple[Layer, ...]:
    if not isinstance(switch, RestLayer):
        return ()
    layer = Layer(switch.rest, switch.last_tick, switch.opening_tick)
    return (layer, *layers_of(switch.below))


def add_switches() -> None:
    group = "switches"
    for kind, name in (
        (NEW_DIRECT, "direct contact"),
        (NEW_DRIVE, "drive word"),
        (NEW_REST, "rest layer"),
        (NEW_DOUBLE_REST, "rest over rest"),
    ):
        for op, work in ((TICK, "tick"), (CLOSE, "close"), (OPEN, "open")):
            for closed in (False, True):
                SWITCH.add(
                    group,
                    f"{name}: {work} while {'closed' if closed else 'open'}",
                    lambda c, kind=kind, op=op, closed=closed: c.kind == kind
                    and c.entry.op == op
                    and c.closed is closed,
                )
    for word in (0x00FF, 0xFF00, 0x0000, 0xFFFF, 0x01FF, 0x00FE):
        SWITCH.add(
            group,
            f"drive word {word:04X} as found",
            lambda c, word=word: c.entry == Entry(NEW_DRIVE, word)
            and f"new 2 {word == 0x00FF:d} 1" in c.line,
        )


def add_rest_refusals() -> None:
    group = "rests"
    for name, entry_is in (
        ("86,400,001", lambda e: e.op == NEW_REST and e.arg1 == 86_400_001),
        ("of 64 bits", lambda e: e.op == NEW_REST and e.arg1 == LATEST),
        ("small in its low 32 bits", lambda e: e.op == NEW_REST and e.arg1 == 2**32 + 1_000),
        ("of the upper layer", lambda e: e.op == NEW_DOUBLE_REST and e.arg2 == 0),
        ("of the lower layer", lambda e: e.op == NEW_DOUBLE_REST and e.arg1 == 0),
    ):
        SWITCH.add(
            group,
            f"refused: {name}",
            lambda c, entry_is=entry_is: c.line == "refused 6\n" and entry_is(c.entry),
        )
    for rest in (0, 1, 1_000, 86_400_000):
        SWITCH.add(
            group,
            f"good: {rest}",
            lambda c, rest=rest: c.answers(NEW_REST, "new 3") and c.entry.arg1 == rest,
        )
    for op, work in ((TICK, "tick"), (CLOSE, "close"), (OPEN, "open")):
        SWITCH.add(
            group, f"{work} without a switch", lambda c, op=op: c.answers(op, "none")
        )


def add_rest_edges() -> None:
    group = "edges of the rest"

    def add(name: str, op: int, answer: str, holds: Callable[[SwitchCase, Layer], bool]) -> None:
        SWITCH.add(
            group,
            name,
            lambda c: c.kind == NEW_REST and c.answers(op, answer) and holds(c, c.layers[0]),
        )

    def ends(after: int) -> Callable[[SwitchCase, Layer], bool]:
        """The last tick lies so long after the end of the rest."""
        return lambda c, layer: (
            layer.rest > 0
            and not c.closed
            and layer.over() is not None
            and layer.last_tick - layer.over() == after
        )

    add("one before its end: held", CLOSE, "held", ends(-1))
    add("at its end: closed", CLOSE, "closed", ends(0))
    add("one after its end: closed", CLOSE, "closed", ends(1))
    add("right after the opening: held", CLOSE, "held", lambda c, r: r.last_tick == r.opening_tick)
    add("no rest at all: closed", CLOSE, "closed", lambda c, r: not c.closed and r.rest == 0)
    add("no opening tick: closed", CLOSE, "closed", lambda c, r: r.opening_tick is None)
    add("end beyond 64 bits: held", CLOSE, "held", lambda c, r: r.over() > LATEST)
    add("end at 2^64 - 1: closed", CLOSE, "closed", lambda c, r: r.over() == LATEST)
    add("opening sets the opening tick", OPEN, "open", lambda c, r: c.closed)
    add(
        "opening while open leaves it",
        OPEN,
        "open",
        lambda c, r: not c.closed and r.opening_tick is not None and r.opening_tick < r.last_tick,
    )


def add_ticks() -> None:
    group = "ticks of a rest layer"

    def add(name: str, holds: Callable[[SwitchCase, Layer, int], bool]) -> None:
        SWITCH.add(
            group,
            name,
            lambda c: c.kind == NEW_REST
            and c.entry.op == TICK
            and holds(c, c.layers[0], c.entry.arg1),
        )

    def went_back(layer: Layer, time: int) -> bool:
        return time < layer.last_tick

    for name, before in (
        ("before the opening tick", lambda time, opening: time < opening),
        ("to the opening tick", lambda time, opening: time == opening),
        ("to after the opening tick", lambda time, opening: time > opening),
    ):
        for state, rested in (("within the rest", False), ("after the rest", True)):
            add(
                f"back {name}, {state}",
                lambda c, r, t, before=before, rested=rested: went_back(r, t)
                and not c.closed
                and r.opening_tick is not None
                and r.rest > 0
                and before(t, r.opening_tick)
                and r.rested() is rested,
            )
    add(
        "back while closed, with an opening tick",
        lambda c, r, t: went_back(r, t) and c.closed and r.opening_tick is not None,
    )
    add(
        "back without an opening tick",
        lambda c, r, t: went_back(r, t) and r.opening_tick is None,
    )
    add("equal", lambda c, r, t: t == r.last_tick)
    add("2^64 - 1", lambda c, r, t: t == LATEST)
    add("from 2^64 - 1 to 0", lambda c, r, t: (r.last_tick, t) == (LATEST, 0))


def add_double_rests() -> None:
    for name, upper, lower in (
        ("only the upper layer holds", False, True),
        ("only the lower layer holds", True, False),
        ("both layers hold", False, False),
    ):
        SWITCH.add(
            "rest over rest",
            name,
            lambda c, rested=(upper, lower): c.kind == NEW_DOUBLE_REST
            and c.answers(CLOSE, "held")
            and tuple(layer.rested() for layer in c.layers) == rested,
        )
    SWITCH.add(
        "rest over rest",
        "closed when both are over",
        lambda c: c.kind == NEW_DOUBLE_REST
        and c.answers(CLOSE, "closed")
        and not c.closed
        and all(layer.over() is not None and layer.rest > 0 for layer in c.layers),
    )


# Whole monitors over other gauges and switches.


@dataclass(frozen=True)
class RunStep:
    kind: int
    trace: Trace

    def fault(self) -> Optional[int]:
        view = self.trace.view
        return view.reading.cause if view and isinstance(view.reading, Fault) else None

    def called(self) -> bool:
        """Signal and watchdog call for a closed contact."""
        return self.trace.after.signal and self.trace.after.watchdog


SHOWN_CAUSES = {
    ECHO_OVER_DRIVE: (Cause.ECHO_LOST, Cause.OUT_OF_REACH),
    CELLS_OVER_DIRECT: (Cause.BEYOND_SCALE, Cause.TOO_FAR_APART),
    MIXED_AND_DIRECT: (
        Cause.BEYOND_SCALE,
        Cause.ECHO_LOST,
        Cause.OUT_OF_REACH,
        Cause.TOO_FAR_APART,
    ),
}
RESTING_KINDS = (ECHO_OVER_DRIVE, CELLS_OVER_DIRECT)


def add_runs() -> None:
    for kind in KINDS:
        group = f"runs of kind {kind}"

        def add(name: str, holds: Callable[[RunStep, Trace], bool], group=group, kind=kind) -> None:
            STEP.add(group, name, lambda s: s.kind == kind and holds(s, s.trace))

        for cause in SHOWN_CAUSES[kind]:
            add(
                f"contact opened by fault {cause:d}",
                lambda s, t, cause=cause: s.fault() == cause
                and t.contact_before
                and not t.contact_after,
            )
        for mode in Mode:
            add(f"{mode.value}", lambda s, t, mode=mode: t.after.mode is mode)
        for failure in Failure:
            add(f"{failure.value}", lambda s, t, failure=failure: t.after.failure is failure)
        add("contact closes", lambda s, t: not t.contact_before and t.contact_after)
        add(
            "start at an earlier time",
            lambda s, t: t.step.power_on
            and t.before.mode is Mode.DARK
            and t.step.time < t.before.time,
        )
        if kind in RESTING_KINDS:
            add("held open by the rest", lambda s, t: s.called() and not t.contact_after)
            add(
                "held before, closes now",
                lambda s, t: t.before.signal
                and t.before.watchdog
                and not t.contact_before
                and t.contact_after,
            )
        for number in (Refusal.BAD_MARK, Refusal.BAD_FLAGS, Refusal.TIME_ABOVE_LIMIT):
            REFUSED.add(
                group,
                f"refused {number:d}",
                lambda case, number=number, kind=kind: case == (kind, number),
            )


for _add_items in (
    add_mounts,
    add_echo_faults,
    add_echo_levels,
    add_echo_rounding,
    add_exponents,
    add_pair_faults,
    add_switches,
    add_rest_refusals,
    add_rest_edges,
    add_ticks,
    add_double_rests,
    add_runs,
):
    _add_items()


# Counting.


def count_switch_entries() -> None:
    bench = Bench()
    kind: Optional[int] = None
    for entry in switch_suite.ENTRIES:
        closed = bench.switch is not None and bench.switch.is_closed()
        layers = layers_of(bench.switch)
        line = bench.line(entry)
        SWITCH.count(SwitchCase(entry, kind, closed, layers, line))
        if entry.op in MAKERS:
            kind = None if bench.switch is None else entry.op


def count_run(run: Run) -> None:
    kind = run.rig.kind
    monitor = run.rig.monitor(lambda trace: STEP.count(RunStep(kind, trace)))
    for refused in outcomes(monitor, run.data):
        if refused:
            REFUSED.count((kind, refused.number))


def count_suites() -> None:
    for vector in gauge_suite.VECTORS:
        GAUGE.count(gauge_case(vector))
    count_switch_entries()
    for run in run_suite.RUNS:
        count_run(run)
