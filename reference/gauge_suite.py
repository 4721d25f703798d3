"""The gauge vectors of the gauge suite."""

from __future__ import annotations

import struct
from dataclasses import dataclass
from typing import Callable, Iterator, Optional

from dials import (
    INFINITY,
    MINUS_INFINITY,
    MINUS_ZERO,
    NEGATIVE_NAN,
    QUIET_NAN,
    SIGNALLING_NAN,
    SMALLEST,
    SMALLEST_BELOW_ZERO,
    centimetres,
    echo_word,
)
from gauges import (
    EXPONENT_MASK,
    FRACTION_BITS,
    FRACTION_MASK,
    SIGN,
    EchoGauge,
    Gauge,
    Pair,
    PressureCell,
    exponent_of,
    quanta_of,
    rounded,
    shown,
    units_of,
    word_of,
)
from refusals import Refused
from script import BEYOND_SCALE, MIDDLE, Dice, cell_level

ENTRY = struct.Struct(">4I")

ECHO, CELL_ECHO, ECHO_CELL, CELLS_ECHO, ECHO_CELLS = range(1, 6)


def cells() -> Pair:
    return Pair(PressureCell(), PressureCell())


MAKERS: dict[int, Callable[[int], Gauge]] = {
    ECHO: EchoGauge,
    CELL_ECHO: lambda mount: Pair(PressureCell(), EchoGauge(mount)),
    ECHO_CELL: lambda mount: Pair(EchoGauge(mount), PressureCell()),
    CELLS_ECHO: lambda mount: Pair(cells(), EchoGauge(mount)),
    ECHO_CELLS: lambda mount: Pair(EchoGauge(mount), cells()),
}
PAIRS = (CELL_ECHO, ECHO_CELL, CELLS_ECHO, ECHO_CELLS)


@dataclass(frozen=True)
class Vector:
    """One entry: a gauge made with the mount takes A and B."""

    kind: int
    mount: int
    word_a: int
    word_b: int

    def entry(self) -> bytes:
        return ENTRY.pack(self.kind, self.mount, self.word_a, self.word_b)

    def gauge(self) -> Optional[Gauge]:
        """The gauge with the words taken; None if the mount is refused."""
        try:
            gauge = MAKERS[self.kind](self.mount)
        except Refused:
            return None
        gauge.take(self.word_a, self.word_b)
        return gauge

    def line(self) -> str:
        gauge = self.gauge()
        answer = "refused 6" if gauge is None else shown(gauge.reading())
        return f"{self.kind} {self.mount:08x} {self.word_a:08x} {self.word_b:08x} {answer}\n"


# Mounts.

LOWEST_MOUNT = centimetres(100)
HIGHEST_MOUNT = centimetres(10_000)
MOUNT_50 = centimetres(5_000)
ROUND_MOUNTS = tuple(
    centimetres(hundredths) for hundredths in (100, 150, 230, 1_000, 5_000, 3_330, 9_999, 10_000)
)
ODD_MOUNTS = (LOWEST_MOUNT + 1, HIGHEST_MOUNT - 1, 0x41ABCDEF)
MOUNTS = ROUND_MOUNTS + ODD_MOUNTS

REFUSED_MOUNTS = (
    LOWEST_MOUNT - 1,
    HIGHEST_MOUNT + 1,
    0,
    MINUS_ZERO,
    SMALLEST,
    FRACTION_MASK,  # the largest subnormal
    SMALLEST_BELOW_ZERO,
    centimetres(50),
    centimetres(10_100),
    SIGN | LOWEST_MOUNT,
    SIGN | MOUNT_50,
    SIGN | HIGHEST_MOUNT,
    INFINITY,
    MINUS_INFINITY,
    INFINITY - 1,  # the largest float
    QUIET_NAN,
    SIGNALLING_NAN,
    NEGATIVE_NAN,
    SIGN | SIGNALLING_NAN,
)

# Words.

SPECIAL_WORDS = (
    0,
    MINUS_ZERO,
    SMALLEST,
    SMALLEST + 1,
    SMALLEST_BELOW_ZERO,
    FRACTION_MASK,
    SIGN | FRACTION_MASK,
    FRACTION_MASK + 1,
    INFINITY - 1,
    MINUS_INFINITY - 1,
    INFINITY,
    MINUS_INFINITY,
    QUIET_NAN,
    SIGN | QUIET_NAN,
    SIGNALLING_NAN,
    SIGN | SIGNALLING_NAN,
    NEGATIVE_NAN & ~SIGN,
    NEGATIVE_NAN,
    0x41C40000,  # 24.5
    0x41C00000,  # 24.0
)
FRACTIONS = (0, 1, FRACTION_MASK, 0x400000, 0x2AAAAA)
EXPONENTS = range(EXPONENT_MASK + 1)
TELLING_EXPONENTS = range(98, 134)  # from gaps lost in the rounding to gaps above 100
ANY_WORD = 2**32 - 1


def float_word(exponent: int, fraction: int) -> int:
    return exponent << FRACTION_BITS | fraction


def half_steps(mount: int) -> Iterator[int]:
    """Gaps of odd halves of the float step below the mount, and words next to them."""
    exponent = exponent_of(mount) - (mount & FRACTION_MASK == 0)
    half_step = quanta_of(float_word(exponent - FRACTION_BITS - 1, 0))
    for halves in (1, 3, 5, 7):
        tie = word_of(halves * half_step)
        yield from (tie - 1, tie, tie + 1)


# Echo vectors.


def echo(mount: int, word: int, unused: int = 0) -> Vector:
    return Vector(ECHO, mount, word, unused)


def echo_exponents() -> Iterator[Vector]:
    for exponent in EXPONENTS:
        telling = exponent in TELLING_EXPONENTS
        for fraction in FRACTIONS if telling else FRACTIONS[:3]:
            yield echo(MOUNT_50, float_word(exponent, fraction))
        if exponent % 8 == 0 or telling:
            yield echo(MOUNT_50, SIGN | float_word(exponent, FRACTIONS[exponent % len(FRACTIONS)]))
    for index, mount in enumerate(MOUNTS):
        if mount == MOUNT_50:
            continue
        for exponent in EXPONENTS:
            fraction = FRACTIONS[(exponent + index) % len(FRACTIONS)]
            yield echo(mount, float_word(exponent, fraction))


def echo_edges() -> Iterator[Vector]:
    for mount in MOUNTS:
        for offset in range(-2, 3):
            yield echo(mount, mount + offset)
            yield echo(mount, SIGN | mount + offset)
        for word in SPECIAL_WORDS:
            yield echo(mount, word)
        for word in half_steps(mount):
            yield echo(mount, word)


def echo_without_b() -> Iterator[Vector]:
    for unused in SPECIAL_WORDS:
        yield echo(MOUNT_50, centimetres(2_450), unused)
        yield echo(MOUNT_50, INFINITY, unused)


def echo_random() -> Iterator[Vector]:
    """Telling exponents with random fractions, for every mount."""
    dice = Dice(81)
    for mount in MOUNTS:
        for exponent in TELLING_EXPONENTS:
            yield echo(mount, float_word(exponent, dice.between(0, FRACTION_MASK)), dice.word())


def rounding_decides(vector: Vector) -> bool:
    """The level is another than that of the exact difference."""
    exact = quanta_of(vector.mount) - quanta_of(vector.word_a)
    return units_of(rounded(exact)) != units_of(exact)


ROUNDING_VECTORS = 240


def echo_rounding() -> Iterator[Vector]:
    """Random mounts and gaps within reach where the rounding decides."""
    dice = Dice(82)
    found = 0
    while found < ROUNDING_VECTORS:
        mount = dice.between(LOWEST_MOUNT, HIGHEST_MOUNT)
        vector = echo(mount, dice.between(float_word(TELLING_EXPONENTS[0], 0), mount))
        if rounding_decides(vector):
            found += 1
            yield vector


def echo_levels() -> Iterator[Vector]:
    """Levels at every edge of the standard plate, and one unit off."""
    edges = (1_300_000, 1_400_000, 1_450_000, 2_550_000, 2_600_000, 2_700_000)
    for mount in (MOUNT_50, centimetres(3_330), HIGHEST_MOUNT):
        for edge in edges:
            for offset in (-1, 0, 1):
                yield echo(mount, echo_word(mount, edge + offset))


def refused_mounts() -> Iterator[Vector]:
    for mount in REFUSED_MOUNTS:
        for kind in MAKERS:
            yield Vector(kind, mount, centimetres(100), MIDDLE)


# Pair vectors.

NEAR, FAR = 50_000, 50_001
DISTANCES = (-FAR, -NEAR, 1 - NEAR, -1, 0, 1, 2, NEAR - 1, NEAR, FAR)
CELL_WORDS = (0, 1, 31, MIDDLE, 200, 254, 255)
CELL_FAULTS = (BEYOND_SCALE, ANY_WORD)
ECHO_FAULTS = (INFINITY, SIGNALLING_NAN, NEGATIVE_NAN, MINUS_INFINITY, SMALLEST_BELOW_ZERO)


def cell_and_echo(mount: int, cell: int, gap: int) -> Iterator[Vector]:
    yield Vector(CELL_ECHO, mount, cell, gap)
    yield Vector(ECHO_CELL, mount, gap, cell)


def simple_pairs() -> Iterator[Vector]:
    """Pairs of a cell and an echo gauge: each member has its own word."""
    for mount in (MOUNT_50, centimetres(3_330)):
        for cell in CELL_WORDS:
            for distance in DISTANCES:
                yield from cell_and_echo(mount, cell, echo_word(mount, cell_level(cell) + distance))
        good = echo_word(mount, cell_level(MIDDLE))
        for fault in (*ECHO_FAULTS, mount + 1):
            for cell in (MIDDLE, *CELL_FAULTS):
                yield from cell_and_echo(mount, cell, fault)
        for cell in CELL_FAULTS:
            yield from cell_and_echo(mount, cell, good)


def cells_and_echo(mount: int, own: int, shared: int) -> Iterator[Vector]:
    """The echo gauge and one of the cells hear the shared word."""
    yield Vector(CELLS_ECHO, mount, own, shared)
    yield Vector(ECHO_CELLS, mount, shared, own)


def mount_at(units: int) -> int:
    """A mount whose height, heard with hardly any gap, reads as the level."""
    return echo_word(HIGHEST_MOUNT, 10_000_000 - units - 1)


def nested_pairs() -> Iterator[Vector]:
    """A word on the cell's scale is hardly any gap, so the mount sets the echo gauge's level."""
    for cell in CELL_WORDS:
        for distance in DISTANCES:
            yield from cells_and_echo(mount_at(cell_level(cell) + distance), cell, cell)
    for own, shared in ((100, 108), (108, 100), (100, 109), (109, 100), (0, 255), (120, 123)):
        between = (cell_level(own) + cell_level(shared)) // 2
        for distance in (-FAR, -NEAR, 0, NEAR, FAR):
            yield from cells_and_echo(mount_at(between + distance), own, shared)
    mount = mount_at(cell_level(MIDDLE))
    for fault in (*CELL_FAULTS, *ECHO_FAULTS, mount, mount + 1, MINUS_ZERO):
        for own in (MIDDLE, 255, *CELL_FAULTS):
            yield from cells_and_echo(mount, own, fault)
    for own in CELL_FAULTS:
        yield from cells_and_echo(mount, own, MIDDLE)


RANDOM_PAIRS = 300


def random_pairs() -> Iterator[Vector]:
    """Pairs near each other, or not; now and then a word of any kind."""
    dice = Dice(83)
    for _ in range(RANDOM_PAIRS):
        kind, cell = dice.pick(PAIRS), dice.between(0, 255)
        units = cell_level(cell) + dice.between(-60_000, 60_000)
        if dice.chance(0.1):
            yield Vector(kind, dice.pick(MOUNTS), dice.word(), dice.word())
        elif kind in (CELL_ECHO, ECHO_CELL):
            mount = dice.between(centimetres(2_800), HIGHEST_MOUNT)
            gap = echo_word(mount, units)
            yield Vector(kind, mount, *((cell, gap) if kind == CELL_ECHO else (gap, cell)))
        else:
            near = min(255, cell + dice.between(0, 9))
            yield Vector(kind, mount_at(units), cell, near)


BUILDERS = (
    echo_exponents,
    echo_edges,
    echo_without_b,
    echo_random,
    echo_rounding,
    echo_levels,
    refused_mounts,
    simple_pairs,
    nested_pairs,
    random_pairs,
)

# Each vector once, in the order built.
VECTORS = tuple(dict.fromkeys(vector for build in BUILDERS for vector in build()))


def suite_input() -> bytes:
    return b"".join(vector.entry() for vector in VECTORS)


def suite_output() -> bytes:
    return "".join(vector.line() for vector in VECTORS).encode("ascii")
