"""Section 3 of docs/RULES.md: readings and gauges."""

from __future__ import annotations

from dataclasses import dataclass
from enum import IntEnum
from typing import Protocol, Union

from refusals import Refusal, Refused


class Cause(IntEnum):
    BEYOND_SCALE = 1
    ECHO_LOST = 2
    OUT_OF_REACH = 3
    TOO_FAR_APART = 4
    NOTHING_TAKEN = 5


@dataclass(frozen=True)
class Level:
    units: int


HIGHEST = 255


@dataclass(frozen=True)
class Fault:
    cause: Cause
    height: int = 0

    def raised(self) -> Fault:
        return Fault(self.cause, min(HIGHEST, self.height + 1))


Reading = Union[Level, Fault]


def shown(reading: Reading) -> str:
    if isinstance(reading, Fault):
        return f"fault {reading.cause:d} height {reading.height}"
    return f"level {reading.units}"


class Gauge(Protocol):
    def take(self, word_a: int, word_b: int) -> None: ...

    def reading(self) -> Reading: ...


class PressureCell:
    LARGEST_WORD = 255
    LOWEST_LEVEL = 1_273_372
    SPAN = 1_453_242

    def __init__(self) -> None:
        self._reading: Reading = Fault(Cause.NOTHING_TAKEN)

    def take(self, word_a: int, word_b: int) -> None:
        if word_a > self.LARGEST_WORD:
            self._reading = Fault(Cause.BEYOND_SCALE)
        else:
            self._reading = Level(self.LOWEST_LEVEL + self.SPAN * word_a // self.LARGEST_WORD)

    def reading(self) -> Reading:
        return self._reading


# Binary32, in whole numbers only: a finite float is a whole number of quanta of 2^-149, the
# smallest float above 0. Sums and differences of quanta are exact.

QUANTUM_BITS = 149
FRACTION_BITS = 23
SIGNIFICANT_BITS = FRACTION_BITS + 1
FRACTION_MASK = 2**FRACTION_BITS - 1
EXPONENT_MASK = 0xFF
SIGN = 2**31


def exponent_of(word: int) -> int:
    return word >> FRACTION_BITS & EXPONENT_MASK


def is_finite(word: int) -> bool:
    return exponent_of(word) != EXPONENT_MASK


def quanta_of(word: int) -> int:
    """The finite float of a bit pattern, in quanta."""
    exponent, fraction = exponent_of(word), word & FRACTION_MASK
    if exponent:
        size = (fraction + 2**FRACTION_BITS) << (exponent - 1)
    else:
        size = fraction
    return -size if word & SIGN else size


def rounded(quanta: int) -> int:
    """The nearest float, ties to even; quanta not below 0 and far from overflow.

    A float above 0 is any whole number of at most 24 bits, times a power of two: the bits beyond
    the first 24 are dropped at once. Fewer bits than that are a float already, subnormal or not.
    """
    dropped = max(0, quanta.bit_length() - SIGNIFICANT_BITS)
    kept, rest = divmod(quanta, 2**dropped)
    beyond_half = 2 * rest - 2**dropped
    if beyond_half > 0 or (beyond_half == 0 and kept % 2 == 1):
        kept += 1
    return kept << dropped


def word_of(quanta: int) -> int:
    """The bit pattern of a float in quanta, not below 0."""
    exponent = max(0, quanta.bit_length() - SIGNIFICANT_BITS)
    significand = quanta >> exponent
    return (exponent << FRACTION_BITS) + significand


UNITS_PER_CM = 100_000


def units_of(quanta: int) -> int:
    """Centimetres in quanta as units, rounded down."""
    return quanta * UNITS_PER_CM >> QUANTUM_BITS


class EchoGauge:
    LOWEST_MOUNT = 1 << QUANTUM_BITS
    HIGHEST_MOUNT = 100 << QUANTUM_BITS

    def __init__(self, mount: int) -> None:
        """The mount height by its bit pattern."""
        if not is_finite(mount) or not (
            self.LOWEST_MOUNT <= quanta_of(mount) <= self.HIGHEST_MOUNT
        ):
            raise Refused(Refusal.OUTSIDE_RANGE)
        self._mount = quanta_of(mount)
        self._reading: Reading = Fault(Cause.NOTHING_TAKEN)

    def take(self, word_a: int, word_b: int) -> None:
        self._reading = self._reading_of(word_a)

    def _reading_of(self, word: int) -> Reading:
        if not is_finite(word):
            return Fault(Cause.ECHO_LOST)
        gap = quanta_of(word)  # minus zero is 0 here
        if gap < 0 or gap > self._mount:
            return Fault(Cause.OUT_OF_REACH)
        return Level(units_of(rounded(self._mount - gap)))

    def reading(self) -> Reading:
        return self._reading


class Pair:
    """Its reading always follows from those of its gauges, before the first taking too."""

    FARTHEST_APART = 50_000

    def __init__(self, first: Gauge, second: Gauge) -> None:
        self.first = first
        self.second = second

    def take(self, word_a: int, word_b: int) -> None:
        self.first.take(word_a, word_b)
        self.second.take(word_b, word_a)

    def reading(self) -> Reading:
        first, second = self.first.reading(), self.second.reading()
        if isinstance(first, Fault):
            return first.raised()
        if isinstance(second, Fault):
            return second.raised()
        if abs(first.units - second.units) > self.FARTHEST_APART:
            return Fault(Cause.TOO_FAR_APART)
        return Level((first.units + second.units) // 2)
