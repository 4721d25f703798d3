"""Gauges for scripts, with the words that make them read.

A script speaks of levels by the words of the pressure cell. A dial turns such a word into the
words A and B by which its own gauge shows that level. Every word beyond the cell's scale stands for
one of the faults that the gauge can show.
"""

from __future__ import annotations

from dataclasses import dataclass
from typing import Callable

from gauges import (
    QUANTUM_BITS,
    SIGN,
    UNITS_PER_CM,
    EchoGauge,
    Gauge,
    Pair,
    PressureCell,
    quanta_of,
    rounded,
    word_of,
)
from script import BEYOND_SCALE, HIGH_SETTLED, LOW_SETTLED, MIDDLE, cell_level

# Words of the echo gauge.
INFINITY = 0x7F800000
MINUS_INFINITY = SIGN | INFINITY
QUIET_NAN = 0x7FC00000
SIGNALLING_NAN = 0x7F800001
NEGATIVE_NAN = 0xFFFFFFFF
MINUS_ZERO = SIGN
SMALLEST = 1
SMALLEST_BELOW_ZERO = SIGN | SMALLEST


def centimetres(hundredths: int) -> int:
    """The bit pattern of the float nearest to so many hundredths of a centimetre."""
    return word_of(rounded((hundredths << QUANTUM_BITS) // 100))


def echo_word(mount: int, units: int) -> int:
    """A gap at which the gauge reads the level, if the mount is well above it."""
    middle = ((2 * units + 1) << QUANTUM_BITS) // (2 * UNITS_PER_CM)
    return word_of(rounded(quanta_of(mount) - middle))


@dataclass(frozen=True)
class Dial:
    name: str
    make: Callable[[], Gauge]
    shows: Callable[[int, int], tuple[int, int]]  # words on the scale only
    faults: tuple[tuple[int, int], ...]

    def words(self, word: int, unused: int) -> tuple[int, int]:
        if word < BEYOND_SCALE:
            return self.shows(word, unused)
        return self.faults[(word - BEYOND_SCALE) % len(self.faults)]

    def fault_words(self) -> range:
        """The words of a script that stand for the faults, one each."""
        return range(BEYOND_SCALE, BEYOND_SCALE + len(self.faults))


def cell_dial() -> Dial:
    return Dial(
        "cell",
        PressureCell,
        lambda word, unused: (word, unused),
        ((BEYOND_SCALE, 0), (NEGATIVE_NAN, MIDDLE)),
    )


def echo_faults(mount: int) -> tuple[int, ...]:
    return (
        INFINITY,
        NEGATIVE_NAN,
        SIGNALLING_NAN,
        MINUS_INFINITY,
        mount + 1,
        SMALLEST_BELOW_ZERO,
        QUIET_NAN,
        SIGN | echo_word(mount, cell_level(MIDDLE)),
    )


def echo_dial(mount: int) -> Dial:
    return Dial(
        "echo",
        lambda: EchoGauge(mount),
        lambda word, unused: (echo_word(mount, cell_level(word)), unused),
        tuple((word, MIDDLE) for word in echo_faults(mount)),
    )


def cell_pair_dial() -> Dial:
    return Dial(
        "pair of cells",
        lambda: Pair(PressureCell(), PressureCell()),
        lambda word, _: (word, word),
        (
            (BEYOND_SCALE, MIDDLE),
            (MIDDLE, BEYOND_SCALE),
            (BEYOND_SCALE, BEYOND_SCALE),
            (LOW_SETTLED, HIGH_SETTLED),
            (MIDDLE, MIDDLE + 9),
        ),
    )


def mixed_faults(mount: int) -> tuple[tuple[int, int], ...]:
    """Words of a cell and of an echo gauge: either faulty, both, or too far apart."""
    good = echo_word(mount, cell_level(MIDDLE))
    one = tuple((MIDDLE, word) for word in echo_faults(mount))
    return one + (
        (BEYOND_SCALE, good),
        (BEYOND_SCALE, INFINITY),
        (LOW_SETTLED, good),
        (MIDDLE, echo_word(mount, cell_level(MIDDLE) + 50_001)),
    )


def cell_and_echo_dial(mount: int) -> Dial:
    return Dial(
        "pair of cell and echo",
        lambda: Pair(PressureCell(), EchoGauge(mount)),
        lambda word, _: (word, echo_word(mount, cell_level(word))),
        mixed_faults(mount),
    )


def echo_and_cell_dial(mount: int) -> Dial:
    return Dial(
        "pair of echo and cell",
        lambda: Pair(EchoGauge(mount), PressureCell()),
        lambda word, _: (echo_word(mount, cell_level(word)), word),
        tuple((word_b, word_a) for word_a, word_b in mixed_faults(mount)),
    )


def nested_dial(mount: int) -> Dial:
    """The inner pair takes A and B, the outer echo gauge B."""
    return Dial(
        "pair of pair and echo",
        lambda: Pair(Pair(PressureCell(), EchoGauge(mount)), EchoGauge(mount)),
        lambda word, _: (word, echo_word(mount, cell_level(word))),
        mixed_faults(mount),
    )
