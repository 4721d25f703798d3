"""Random sessions for the three promises: rigs, and scripts in which the pump may run."""

from __future__ import annotations

from dataclasses import dataclass
from typing import Callable, Iterator

from dials import (
    Dial,
    cell_and_echo_dial,
    cell_dial,
    cell_pair_dial,
    centimetres,
    echo_and_cell_dial,
    echo_dial,
    nested_dial,
)
from gauges import Gauge
from script import (
    BAD_WORDS,
    EDGE_WORDS,
    HIGH_IN,
    HIGH_OUT,
    HIGH_SETTLED,
    HIGH_UNSETTLED,
    LOW_OUT,
    LOW_SETTLED,
    LOW_UNSETTLED,
    LOWEST_NOT_PAST,
    MIDDLE,
    Dice,
    Script,
    muddle,
)
from switches import DirectContact, DriveWord, RestLayer, Switch
from wellref import MARK, POWER_ON, STANDARD_NUMBERS, TIME_LIMIT, Plate

# Rigs.


class FitfulSwitch:
    """Opens by itself and is free only at times, within the five points of section 4."""

    def __init__(self, closed: bool) -> None:
        self._closed = closed
        self._ready = True

    def tick(self, time: int) -> None:
        self._ready = time % 3 != 0
        self._closed = self._closed and time % 11 != 0

    def close(self) -> bool:
        self._closed = self.is_free()
        return self._closed

    def open(self) -> None:
        self._closed = False

    def is_closed(self) -> bool:
        return self._closed

    def is_free(self) -> bool:
        return self._closed or self._ready


RESTS = (0, 1, 700, 4_000, 9_000, 20_000)
WORDS_AS_FOUND = (0x00FF, 0xFF00, 0x1234)

SwitchMaker = Callable[[Dice], Switch]


def direct(dice: Dice) -> Switch:
    return DirectContact(dice.chance(0.5))


def drive(dice: Dice) -> Switch:
    return DriveWord(dice.pick(WORDS_AS_FOUND))


def fitful(dice: Dice) -> Switch:
    return FitfulSwitch(dice.chance(0.5))


def rest_over(below: SwitchMaker) -> SwitchMaker:
    return lambda dice: RestLayer(below(dice), dice.pick(RESTS))


SWITCHES: dict[str, SwitchMaker] = {
    "direct contact": direct,
    "drive word": drive,
    "fitful switch": fitful,
    "rest over direct contact": rest_over(direct),
    "rest over drive word": rest_over(drive),
    "rest over fitful switch": rest_over(fitful),
    "rest over rest over drive word": rest_over(rest_over(drive)),
}

MOUNT = centimetres(5_000)
DIALS: tuple[Dial, ...] = (
    cell_dial(),
    echo_dial(MOUNT),
    echo_dial(centimetres(3_330)),
    cell_pair_dial(),
    cell_and_echo_dial(MOUNT),
    echo_and_cell_dial(MOUNT),
    nested_dial(MOUNT),
)

# The middle of the cell is settled on each plate.
PLATES = (
    Plate(*STANDARD_NUMBERS),
    Plate(*STANDARD_NUMBERS),
    Plate(1_290_000, 1_500_000, 2_500_000, 2_710_000, 400_000),
    Plate(0, 1_400_000, 2_600_000, 9_990_000, 1),
)


@dataclass(frozen=True)
class Session:
    seed: int
    plate: Plate
    gauge_name: str
    switch_name: str
    gauge: Gauge
    switch: Switch
    data: bytes
    dice: Dice  # for the calls between the records


# Parts of a session. Each leaves the script where any other part can follow.

Part = Callable[[Script, Dice], None]


def settled_word(dice: Dice) -> int:
    return dice.pick((MIDDLE, MIDDLE, MIDDLE, LOW_SETTLED, HIGH_SETTLED))


def stride(dice: Dice) -> int:
    return dice.pick((499, 450, 300, dice.between(100, 499)))


def calm(script: Script, dice: Dice) -> Script:
    """Settled water and no button down, from the next step on."""
    return script.level(settled_word(dice)).reset_up().self_test_up()


def stay_calm(script: Script, dice: Dice) -> None:
    calm(script, dice).wait(dice.between(200, 1_500), stride(dice))


def start_pump(script: Script, dice: Dice) -> None:
    """A full reset, let go."""
    calm(script, dice).reset_down().step(dice.between(1, 499))
    script.wait(dice.between(3_001, 3_600), stride(dice)).reset_up().step(dice.between(1, 499))


def short_reset(script: Script, dice: Dice) -> None:
    calm(script, dice).reset_down().step(dice.between(1, 499))
    script.wait(dice.pick((2_999, 3_000, dice.between(2_000, 3_000))), stride(dice))
    script.reset_up().step(dice.between(1, 499))


def long_reset(script: Script, dice: Dice) -> None:
    """Reset down over 14,500 ms or a little more, or just less."""
    script.level(settled_word(dice)).self_test_up().reset_down().step(dice.between(1, 499))
    script.wait(14_500 + dice.pick((0, 0, 1, dice.between(-20, 400))), stride(dice))
    script.reset_up().step(dice.between(1, 499))


def long_reset_in_test(script: Script, dice: Dice) -> None:
    """Self test first, and the reset just long enough for the slowest way out of test."""
    script.level(settled_word(dice)).hold_self_test(dice.between(501, 600))
    script.self_test_up().reset_down().step(1)
    end = script.time + 14_500
    script.wait(13_999 + dice.between(0, 3), 499).wait(end - script.time, 499)
    script.reset_up().step(dice.between(1, 499))


def bad_water(script: Script, dice: Dice) -> None:
    """Water over its limit for long, with self test muddled, held down or never down."""
    water = dice.pick((HIGH_OUT, LOW_OUT, LOWEST_NOT_PAST))
    self_test_part = dice.pick((0.5, 0.5, 1.0, 0.0))
    end = script.time + dice.between(2_000, 3_600)
    while script.time < end:
        script.level(dice.pick((water, water, HIGH_OUT, LOW_OUT)))
        script.reset = dice.chance(0.4)
        script.self_test = dice.chance(self_test_part)
        script.step(dice.pick((499, 499, 200, dice.between(1, 499))))
    calm(script, dice)


def slowest_shutdown(script: Script, dice: Dice) -> None:
    """Self test put down twice, each time as long as it may be without a test."""
    script.level(dice.pick((HIGH_OUT, LOW_OUT)))
    for _ in range(2):
        script.self_test_down().step(499).step(499).step(1).self_test_up().step(499)
    script.wait(dice.between(200, 600))
    calm(script, dice)


def brief_bad_water(script: Script, dice: Dice) -> None:
    """Out of limits, settled again before or after 200 ms, unsettled on the way."""
    for _ in range(dice.between(1, 3)):
        script.level(dice.pick((HIGH_OUT, LOW_OUT))).step(dice.between(1, 300))
        script.level(dice.pick((HIGH_UNSETTLED, HIGH_IN, LOW_UNSETTLED, MIDDLE)))
        script.step(dice.between(1, 250))
        script.level(settled_word(dice)).step(dice.between(1, 250))


def self_test(script: Script, dice: Dice) -> None:
    """Held about half a second, with reset perhaps down all along."""
    script.reset = dice.chance(0.3)
    script.self_test_down().step(dice.between(1, 400))
    script.wait(dice.pick((500, 501, dice.between(400, 700))), stride(dice))
    script.self_test_up().step(dice.between(1, 499))


def whole_test(script: Script, dice: Dice) -> None:
    self_test(script, dice)
    script.wait(14_100, 499)


def muddled_buttons(script: Script, dice: Dice) -> None:
    for _ in range(dice.between(4, 12)):
        if dice.chance(0.4):
            script.reset = not script.reset
        script.self_test = dice.chance(0.3)
        script.level(dice.pick(EDGE_WORDS)).step(dice.between(1, 499))
    calm(script, dice)


def late_step(script: Script, dice: Dice) -> None:
    """Late, perhaps after a refused record that came in time."""
    if dice.chance(0.5):
        script.damaged(flags=POWER_ON | 0x20, time=script.time + 250)
    script.step(dice.pick((500, 501, dice.between(500, 5_000)))).step(dice.between(1, 499))


def failure(script: Script, dice: Dice) -> None:
    """A fault shown for one step; the steps after it show none."""
    kind = dice.between(0, 5)
    if kind <= 2:
        script.level(dice.pick(BAD_WORDS + tuple(range(256, 266))))
    after = dice.pick((0, -1, -dice.between(1, 900))) if kind == 3 and script.time > 900 else 200
    script.step(after, memory=kind == 4, clock=kind == 5)
    calm(script, dice).step(dice.between(1, 499))


def power_cycle(script: Script, dice: Dice) -> None:
    """Power off for a while, with buttons and level as they are; the time may go back."""
    for _ in range(dice.between(1, 4)):
        script.power_off(dice.pick((1, 450, dice.between(1, 3_000))))
    if dice.chance(0.3):
        script.time = dice.between(0, script.time)
    script.step(dice.between(0, 5_000))


def refused_records(script: Script, dice: Dice) -> None:
    time = script.time + dice.between(1, 499)
    script.damaged(mark=dice.pick((b"WM", bytes(2))), flags=POWER_ON, time=time)
    script.damaged(mark=MARK, flags=dice.pick((0x20, 0x41, 0xFF)), time=time)
    script.damaged(mark=MARK, flags=dice.pick((0, POWER_ON)), time=TIME_LIMIT + dice.between(1, 9))


FIRST_PARTS: tuple[Part, ...] = (
    start_pump,
    start_pump,
    start_pump,
    long_reset,
    long_reset_in_test,
    short_reset,
)
PARTS: tuple[Part, ...] = (
    stay_calm,
    start_pump,
    long_reset,
    bad_water,
    bad_water,
    slowest_shutdown,
    brief_bad_water,
    brief_bad_water,
    self_test,
    whole_test,
    muddled_buttons,
    late_step,
    late_step,
    failure,
    power_cycle,
    power_cycle,
    refused_records,
)


def shaped(dice: Dice, dial: Dial) -> Script:
    """The pump is started, mostly, and then come random parts."""
    script = Script(dial.words)
    if dice.chance(0.5):
        script.at(dice.between(0, 9_000), power=False)
    script.step(dice.between(0, 9_000))
    dice.pick(FIRST_PARTS)(script, dice)
    for _ in range(dice.between(1, 3)):
        dice.pick(PARTS)(script, dice)
    return script


MUDDLED_RECORDS = 45


def session(seed: int) -> Session:
    """Shaped if the seed is even, else muddled all over."""
    dice = Dice(seed)
    dial = dice.pick(DIALS)
    switch_name = dice.pick(tuple(SWITCHES))
    gauge, switch = dial.make(), SWITCHES[switch_name](dice)
    use_before(gauge, switch, dial, dice)
    if seed % 2 == 0:
        script = shaped(dice, dial)
    else:
        script = muddle(seed, MUDDLED_RECORDS, dial.words)
    return Session(
        seed, dice.pick(PLATES), dial.name, switch_name, gauge, switch, bytes(script.data), dice
    )


def use_before(gauge: Gauge, switch: Switch, dial: Dial, dice: Dice) -> None:
    """The promises hold in any starting state of gauge and switch."""
    if dice.chance(0.3):
        gauge.take(*dial.words(dice.pick(EDGE_WORDS), 0))
    if dice.chance(0.3):
        switch.tick(dice.between(0, 3_000))
        switch.close()
        if dice.chance(0.5):
            switch.open()


def sessions(count: int) -> Iterator[Session]:
    return map(session, range(1, count + 1))
