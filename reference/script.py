"""Small helpers that build step records: a script, and muddled scripts."""

from __future__ import annotations

import random
from typing import Callable

from gauges import Level, PressureCell
from wellref import MARK, RECORD, TIME_LIMIT, Step, write_record

# Words A of the pressure cell, by where the level stands on the standard plate.
PAST_LOW_MARK = 4
LOWEST_NOT_PAST = 5
LOW_OUT = 22
LOW_IN = 23
LOW_UNSETTLED = 30
LOW_SETTLED = 31
MIDDLE = 128
HIGH_SETTLED = 224
HIGH_UNSETTLED = 225
HIGH_IN = 232
HIGH_OUT = 233
HIGHEST_NOT_PAST = 250
PAST_HIGH_MARK = 251
BEYOND_SCALE = 256

EDGE_WORDS = (
    LOWEST_NOT_PAST,
    LOW_OUT,
    LOW_IN,
    LOW_UNSETTLED,
    LOW_SETTLED,
    MIDDLE,
    HIGH_SETTLED,
    HIGH_UNSETTLED,
    HIGH_IN,
    HIGH_OUT,
    HIGHEST_NOT_PAST,
)
BAD_WORDS = (0, PAST_LOW_MARK, PAST_HIGH_MARK, 255, BEYOND_SCALE, 2**32 - 1)

def cell_level(word: int) -> int:
    cell = PressureCell()
    cell.take(word, 0)
    reading = cell.reading()
    assert isinstance(reading, Level)
    return reading.units


# The words A and B by which a gauge shows the level that the cell shows for a word. The second
# argument fills a word that the gauge does not use.
Words = Callable[[int, int], tuple[int, int]]


def cell_words(word: int, unused: int) -> tuple[int, int]:
    return word, unused


STRIDE = 450  # the usual time between steps, short of the watchdog's 500


def record_bytes(step: Step) -> bytes:
    output = bytearray(RECORD.size)
    write_record(step, output)
    return bytes(output)


class Script:
    """Record bytes in the making; buttons and level stay until changed."""

    def __init__(self, words: Words = cell_words) -> None:
        self.words = words
        self.data = bytearray()
        self.time = 0
        self.word = MIDDLE
        self.reset = False
        self.self_test = False

    # What the following steps carry.

    def level(self, word: int) -> Script:
        self.word = word
        return self

    def reset_down(self) -> Script:
        self.reset = True
        return self

    def reset_up(self) -> Script:
        self.reset = False
        return self

    def self_test_down(self) -> Script:
        self.self_test = True
        return self

    def self_test_up(self) -> Script:
        self.self_test = False
        return self

    # Steps.

    def at(
        self,
        time: int,
        power: bool = True,
        memory: bool = False,
        clock: bool = False,
        unused: int = 0,
    ) -> Script:
        """One step at a time; memory and clock failures are told once."""
        self.time = time
        word_a, word_b = self.words(self.word, unused)
        self.data += record_bytes(
            Step(time, word_a, word_b, power, self.reset, self.self_test, memory, clock)
        )
        return self

    def step(self, after: int = STRIDE, **facts) -> Script:
        """One step so many milliseconds after the last."""
        return self.at(self.time + after, **facts)

    def power_off(self, after: int = STRIDE, **facts) -> Script:
        return self.step(after, power=False, **facts)

    def wait(self, span: int, every: int = STRIDE) -> Script:
        """Steps until the span has passed, the last exactly at its end."""
        end = self.time + span
        while self.time < end:
            self.step(min(every, end - self.time))
        return self

    def wait_until(self, time: int) -> Script:
        return self.wait(time - self.time)

    def visit(self, *spans: int) -> Script:
        """Steps exactly at each span from now, and on the way to it."""
        origin = self.time
        for span in spans:
            self.wait(origin + span - self.time)
        return self

    def levels(self, words, every: int = STRIDE) -> Script:
        """One step with each word."""
        for word in words:
            self.level(word).step(every)
        return self

    # Ways through the modes.

    def hold_reset(self, span: int) -> Script:
        """Reset goes down at the next step and has been down for the span."""
        return self.reset_down().step(100).wait(span)

    def hold_self_test(self, span: int) -> Script:
        return self.self_test_down().step(100).wait(span)

    def enter_operating(self) -> Script:
        """From standby to operating, reset still down, signal still shutdown."""
        return self.hold_reset(3_001)

    def run_pump(self) -> Script:
        """From standby to operating with reset let go."""
        return self.enter_operating().reset_up().step()

    def enter_shutdown(self, word: int = HIGH_OUT) -> Script:
        """From operating to shutdown."""
        return self.level(word).step()

    def enter_test(self) -> Script:
        """Into test; self test is let go at the next step."""
        return self.hold_self_test(501).self_test_up()

    # Records a reader refuses.

    def raw(self, data: bytes) -> Script:
        self.data += data
        return self

    def damaged(self, mark: bytes = MARK, flags: int = 0, time: int = 0) -> Script:
        """A record of the usual shape with any mark, flags and time."""
        return self.raw(RECORD.pack(mark, flags, time, *self.words(self.word, 0)))


def started(at: int = 1_000) -> Script:
    """In standby."""
    return Script().at(at)


def running() -> Script:
    """In operating, signal operate, contact closed."""
    return Script().reset_down().at(1_000).wait(3_001).reset_up().step()


# Muddled scripts.


class Dice:
    """Fixed random numbers, alike in every Python version."""

    def __init__(self, seed: int) -> None:
        self._random = random.Random(seed)

    def chance(self, part: float) -> bool:
        return self._random.random() < part

    def between(self, low: int, high: int) -> int:
        return low + int(self._random.random() * (high - low + 1))

    def word(self) -> int:
        return self.between(0, 2**32 - 1)

    def pick(self, choices):
        return choices[self.between(0, len(choices) - 1)]

    def noise(self, length: int) -> bytes:
        return bytes(self.between(0, 255) for _ in range(length))


def muddled_interval(dice: Dice) -> int:
    """Mostly in time, sometimes late, now and then not later."""
    if dice.chance(0.004):
        return dice.pick((0, -1, -dice.between(1, 3_000)))
    if dice.chance(0.015):
        return dice.pick((500, 501, dice.between(500, 20_000)))
    return dice.between(50, 499)


def muddled_word(dice: Dice, before: int) -> int:
    if dice.chance(0.006):
        return dice.pick(BAD_WORDS)
    if before in EDGE_WORDS and dice.chance(0.30):
        return before
    return dice.pick(EDGE_WORDS + (MIDDLE,) * 9)


def muddled_step(script: Script, dice: Dice) -> None:
    if dice.chance(0.07 if script.reset else 0.20):
        script.reset = not script.reset
    if dice.chance(0.40 if script.self_test else 0.02):
        script.self_test = not script.self_test
    script.level(muddled_word(dice, script.word))
    script.at(
        min(TIME_LIMIT, max(0, script.time + muddled_interval(dice))),
        power=not dice.chance(0.004),
        memory=dice.chance(0.002),
        clock=dice.chance(0.002),
        unused=dice.word(),
    )


def muddle(seed: int, records: int, words: Words = cell_words) -> Script:
    """Power-on spells in a row, each ended by power off."""
    dice = Dice(seed)
    script = Script(words)
    script.time = dice.between(0, 100_000)
    script.reset = dice.chance(0.5)
    left_in_spell = dice.between(20, 80)
    for _ in range(records):
        if left_in_spell == 0:
            script.power_off(dice.between(1, 2_000))
            left_in_spell = dice.between(20, 80)
        else:
            muddled_step(script, dice)
            left_in_spell -= 1
    return script


def with_damage(data: bytes, seed: int, part: float) -> bytes:
    """The bytes with a part of them changed at random."""
    dice = Dice(seed)
    return bytes(dice.between(0, 255) if dice.chance(part) else byte for byte in data)
