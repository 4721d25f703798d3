"""The runs of the run suite: whole monitors over other gauges and switches."""

from __future__ import annotations

import struct
from dataclasses import dataclass
from typing import Callable, Iterator, Optional

from dials import Dial, cell_pair_dial, centimetres, echo_and_cell_dial, echo_dial
from script import (
    EDGE_WORDS,
    HIGH_OUT,
    HIGH_UNSETTLED,
    LOW_OUT,
    MIDDLE,
    PAST_HIGH_MARK,
    PAST_LOW_MARK,
    Dice,
    Script,
    muddled_step,
    with_damage,
)
from switches import DirectContact, DriveWord, RestLayer, Switch
from wellref import (
    POWER_ON,
    RECORD,
    REPORT_ROOM,
    STANDARD_NUMBERS,
    TIME_LIMIT,
    Monitor,
    Observer,
    Plate,
    lines,
)

HEADER = struct.Struct(">4I")

ECHO_OVER_DRIVE, CELLS_OVER_DIRECT, MIXED_AND_DIRECT = KINDS = (1, 2, 3)

DIALS: dict[int, Callable[[int], Dial]] = {
    ECHO_OVER_DRIVE: echo_dial,
    CELLS_OVER_DIRECT: lambda mount: cell_pair_dial(),
    MIXED_AND_DIRECT: echo_and_cell_dial,
}
SWITCHES: dict[int, Callable[[int], Switch]] = {
    ECHO_OVER_DRIVE: lambda rest: RestLayer(DriveWord(DriveWord.CLOSED), rest),
    CELLS_OVER_DIRECT: lambda rest: RestLayer(RestLayer(DirectContact(True), rest), rest // 2),
    MIXED_AND_DIRECT: lambda rest: DirectContact(True),
}


@dataclass(frozen=True)
class Rig:
    """What a run's header says."""

    kind: int
    mount: int
    rest: int

    def dial(self) -> Dial:
        return DIALS[self.kind](self.mount)

    def script(self) -> Script:
        return Script(self.dial().words)

    def monitor(self, observer: Optional[Observer] = None) -> Monitor:
        plate = Plate(*STANDARD_NUMBERS)
        return Monitor(plate, self.dial().make(), SWITCHES[self.kind](self.rest), observer)


@dataclass(frozen=True)
class Run:
    rig: Rig
    data: bytes  # whole records only

    def file_bytes(self) -> bytes:
        records = len(self.data) // RECORD.size
        rig = self.rig
        return HEADER.pack(rig.kind, rig.mount, rig.rest, records) + self.data

    def lines(self) -> Iterator[str]:
        yield f"run {self.rig.kind}\n"
        yield from lines(self.rig.monitor(), self.data, REPORT_ROOM)


# Scripts. A contact found closed opens at set-up, at tick 0.


def pump_rests_between_runs(rig: Rig) -> Script:
    """Reset is let go while the rest is not over; the contact closes when it is."""
    script = rig.script().at(1_000).run_pump().wait_until(max(5_500, rig.rest + 500))
    for water in (HIGH_OUT, LOW_OUT):
        script.level(water).step(250).step(250).level(MIDDLE).run_pump().wait(rig.rest // 2 + 500)
    return script.wait(rig.rest // 2 + 500)


def close_at_the_end_of_the_rest(rig: Rig) -> Script:
    """Steps one before, at and one after the end of every rest."""
    script = rig.script().at(0).run_pump()
    opening = 0
    for water in (HIGH_OUT, LOW_OUT):
        script.wait_until(opening + rig.rest - 1).step(1).step(1).step()
        script.level(water).step(100).step(200)
        opening = script.time
        script.level(MIDDLE).run_pump()
    return script.wait_until(opening + rig.rest - 1).step(1).step(1).level(HIGH_OUT).step()


def rest_of_a_whole_day(rig: Rig) -> Script:
    script = rig.script().at(rig.rest - 4_000).run_pump().wait_until(rig.rest - 1)
    script.step(1).step(1).level(HIGH_OUT).step(100).level(MIDDLE).step(100).power_off()
    return script.at(2 * rig.rest).run_pump().wait_until(2 * rig.rest + 5_000)


def faults_of_every_cause(rig: Rig) -> Script:
    script = rig.script().at(rig.rest, power=False).step()
    for word in (*rig.dial().fault_words(), PAST_LOW_MARK, PAST_HIGH_MARK):
        script.level(MIDDLE).run_pump().step().level(word).step().level(MIDDLE).step()
        script.power_off(rig.rest + 1).step()
    script.level(MIDDLE).run_pump().step(memory=True).power_off().step().step(clock=True)
    return script.power_off().level(rig.dial().fault_words()[0]).step().step()


def time_goes_back(rig: Rig) -> Script:
    """With power off the rest starts anew; with power on the clock has failed."""
    script = rig.script().at(50_000).run_pump().step().power_off(100)
    script.at(40_000).run_pump().wait_until(40_500 + rig.rest).power_off(100)
    script.at(30_000, power=False).at(35_000).run_pump().wait_until(35_500 + rig.rest)
    script.step(-1).wait(900).power_off(50)
    return script.step(0).run_pump().step(0).step().power_off(-20_000).step().run_pump()


def self_test_and_watchdog(rig: Rig) -> Script:
    script = rig.script().at(60_000).run_pump().step()
    # A test opens the contact, and its 14 seconds let the pump rest.
    script.enter_test().wait(14_400).run_pump().step()
    # Self test down keeps the pump on for half a second of high water.
    script.level(HIGH_OUT).self_test_down().step(100).step(400).level(MIDDLE).self_test_up()
    script.step(100).step().step(500).step().power_off(rig.rest + 1).step().run_pump()
    # Reset down through a test and beyond.
    script.hold_self_test(501).self_test_up().reset_down().step(1).wait(13_999, 499)
    return script.step(499).step(2).reset_up().step().step()


def refused_records(rig: Rig) -> Script:
    script = rig.script().damaged(flags=POWER_ON, time=TIME_LIMIT + 1).at(70_000).run_pump()
    script.damaged(mark=b"WM", flags=POWER_ON, time=script.time + 100).step(300)
    script.damaged(flags=0x21, time=script.time + 100)
    script.damaged(flags=0, time=2**64 - 1).step(499)
    script.damaged(mark=b"\x00\x00", flags=0xFF, time=2**64 - 1).step(500)
    script.damaged(flags=0xE1, time=script.time + 100).power_off()
    script.damaged(flags=POWER_ON, time=2**63).step().run_pump()
    return script.at(TIME_LIMIT).damaged(flags=POWER_ON, time=TIME_LIMIT + 1)


def levels_at_every_edge(rig: Rig) -> Script:
    script = rig.script().at(rig.rest).run_pump()
    for word in EDGE_WORDS:
        script.level(word).step(100).level(MIDDLE).step(99)
    script.level(LOW_OUT).step(100).level(HIGH_UNSETTLED).step(100).step(100)
    return script.level(MIDDLE).run_pump().levels((HIGH_OUT, HIGH_OUT, PAST_HIGH_MARK, MIDDLE))


# Runs.

MOUNT_50 = centimetres(5_000)
MOUNTS = (MOUNT_50, centimetres(3_330), centimetres(9_999), centimetres(10_000), 0x41EBCDEF)
WHOLE_DAY = RestLayer.LONGEST_REST


SCRIPTED = (
    (pump_rests_between_runs, 8_000),
    (pump_rests_between_runs, 6_001),
    (close_at_the_end_of_the_rest, 6_000),
    (rest_of_a_whole_day, WHOLE_DAY),
    (faults_of_every_cause, 1),
    (time_goes_back, 5_000),
    (self_test_and_watchdog, 3_600),
    (refused_records, 0),
    (levels_at_every_edge, 4_500),
)


def mount_of(index: int) -> int:
    return MOUNTS[index % len(MOUNTS)]


def scripted_runs() -> Iterator[Run]:
    for index, (build, rest) in enumerate(SCRIPTED):
        for kind in KINDS:
            rig = Rig(kind, mount_of(index), rest)
            yield Run(rig, bytes(build(rig).data))


MUDDLED_RESTS = (0, 4_300, 5_000, 9_000)
DAMAGED_PART = 0.01
SPELLS = 3
SPELL_STEPS = 12


def muddled_script(rig: Rig, seed: int) -> Script:
    """The pump is started, then buttons and levels are muddled until power off."""
    dice = Dice(seed)
    script = rig.script()
    script.time = dice.between(0, 50_000)
    for _ in range(SPELLS):
        script.level(MIDDLE).reset_up().self_test_up().step(dice.between(1, 5_000)).run_pump()
        for _ in range(SPELL_STEPS):
            muddled_step(script, dice)
        script.power_off(dice.between(1, 3_000))
    return script


def muddled_runs() -> Iterator[Run]:
    for index, rest in enumerate(MUDDLED_RESTS):
        for kind in KINDS:
            rig, seed = Rig(kind, mount_of(index), rest), 110 + 10 * index + kind
            data = bytes(muddled_script(rig, seed).data)
            yield Run(rig, data if rest else with_damage(data, seed, DAMAGED_PART))


def all_runs() -> Iterator[Run]:
    yield Run(Rig(CELLS_OVER_DIRECT, MOUNT_50, 0), b"")
    yield from scripted_runs()
    yield from muddled_runs()


RUNS = tuple(all_runs())


def records() -> int:
    return sum(len(run.data) for run in RUNS) // RECORD.size


def suite_input() -> bytes:
    return b"".join(run.file_bytes() for run in RUNS)


def suite_output() -> bytes:
    return "".join(line for run in RUNS for line in run.lines()).encode("ascii")
