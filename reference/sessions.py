"""The named sessions of the session suite."""

from __future__ import annotations

import struct
from dataclasses import dataclass
from typing import Callable, Iterator, Optional

from gauges import PressureCell
from refusals import Refused
from script import (
    BEYOND_SCALE,
    EDGE_WORDS,
    HIGH_IN,
    HIGH_OUT,
    HIGH_SETTLED,
    HIGH_UNSETTLED,
    HIGHEST_NOT_PAST,
    LOW_IN,
    LOW_OUT,
    LOW_SETTLED,
    LOW_UNSETTLED,
    LOWEST_NOT_PAST,
    MIDDLE,
    PAST_HIGH_MARK,
    PAST_LOW_MARK,
    Dice,
    Script,
    cell_level,
    muddle,
    running,
    started,
    with_damage,
)
from switches import DirectContact
from wellref import (
    CLOCK_FAILED,
    MARK,
    MEMORY_FAILED,
    POWER_ON,
    RECORD,
    REPORT_ROOM,
    RESET_DOWN,
    STANDARD_NUMBERS,
    TIME_LIMIT,
    Monitor,
    Observer,
    Plate,
    lines,
)

HEADER = struct.Struct(">6I")


@dataclass(frozen=True)
class Session:
    name: str
    numbers: tuple[int, ...]  # the plate's five, good or bad
    room: int  # the output length handed to readout
    data: bytes

    def file_bytes(self) -> bytes:
        return HEADER.pack(*self.numbers, self.room) + self.data

    def monitor(self, observer: Optional[Observer] = None) -> Monitor:
        """Refused with 6 if the plate is."""
        return Monitor(Plate(*self.numbers), PressureCell(), DirectContact(), observer)

    def lines(self) -> Iterator[str]:
        yield f"== {self.name}\n"
        try:
            monitor = self.monitor()
        except Refused as refused:
            yield refused.line()
            return
        yield from lines(monitor, self.data, self.room)


SESSIONS: list[Session] = []


def add(name: str, script: Script, plate=STANDARD_NUMBERS, room: int = REPORT_ROOM) -> None:
    SESSIONS.append(Session(name, tuple(plate), room, bytes(script.data)))


def session(plate=STANDARD_NUMBERS, room: int = REPORT_ROOM):
    """Adds the script that the function builds, under the function's name."""

    def decorate(build: Callable[[], Script]) -> Callable[[], Script]:
        add(build.__name__, build(), plate, room)
        return build

    return decorate


# Dark, start and power.


@session()
def steps_with_power_off_stay_dark():
    script = Script().at(0, power=False).at(5_000, power=False)
    script.at(5_000, power=False, clock=True).at(100, power=False, memory=True)
    return script.level(BEYOND_SCALE).at(TIME_LIMIT, power=False).at(7, power=False)


@session()
def start_at_time_zero_goes_to_standby():
    return started(0).step(1).wait(1_000)


@session()
def start_out_of_limits_lights_nothing_in_standby():
    return Script().level(HIGH_OUT).at(1_000).step().level(LOW_OUT).step().step()


@session()
def start_with_gauge_fault_is_badlevdev():
    return Script().level(BEYOND_SCALE).at(1_000).wait(900, 100).level(MIDDLE).wait(900, 100)


@session()
def start_past_the_low_mark_is_badlevdev():
    return Script().level(PAST_LOW_MARK).at(1_000).level(MIDDLE).wait(800)


@session()
def start_past_the_high_mark_is_badlevdev():
    return Script().level(PAST_HIGH_MARK).at(1_500).level(MIDDLE).wait(800)


@session()
def start_with_memory_failed_is_hardfail():
    return Script().at(1_000, memory=True).wait(1_200)


@session()
def start_with_clock_failed_is_hardfail():
    return Script().at(1_500, clock=True).wait(1_200)


@session()
def start_with_memory_failed_and_gauge_fault_is_hardfail():
    return Script().level(BEYOND_SCALE).at(1_500, memory=True).level(MIDDLE).wait(1_200)


@session()
def start_with_reset_down_counts_from_the_start():
    return Script().reset_down().at(1_000).visit(3_000, 3_001).reset_up().step()


@session()
def start_with_self_test_down_counts_from_the_start():
    return Script().self_test_down().at(1_000).visit(500, 501).self_test_up().step()


@session()
def start_with_both_buttons_down_goes_to_test():
    script = Script().reset_down().self_test_down().at(1_000).visit(500, 501, 4_000)
    return script.self_test_up().step()


@session()
def power_off_in_every_mode_goes_dark():
    script = started().power_off()
    script.step().run_pump().power_off()
    script.step().run_pump().enter_shutdown().power_off()
    script.level(MIDDLE).step().enter_test().step().power_off()
    return script.power_off().step()


@session()
def power_off_ends_badlevdev_and_hardfail():
    script = started().level(BEYOND_SCALE).step().power_off()
    script.level(MIDDLE).step().step(memory=True).power_off()
    script.step().step(clock=True).step().power_off()
    return script.step().step()


@session()
def power_off_ignores_memory_clock_gauge_and_buttons():
    script = running().level(BEYOND_SCALE).reset_down().self_test_down()
    script.power_off(memory=True, clock=True).power_off(600, memory=True)
    return script.level(MIDDLE).reset_up().self_test_up().step().step()


@session()
def restart_at_the_same_time_is_no_failed_clock():
    return running().power_off().step(0).step()


@session()
def restart_at_an_earlier_time_is_no_failed_clock():
    return running().power_off().at(500).step().run_pump()


@session()
def restart_long_after_is_not_late():
    return running().power_off(10_000).step(1_000_000).step().run_pump()


@session()
def restart_forgets_windows_alarm_and_signal():
    script = running().enter_shutdown().level(LOW_OUT).step(100).power_off()
    return script.level(MIDDLE).step().step().run_pump()


@session()
def button_runs_do_not_reach_over_power_off():
    script = started().hold_reset(2_800).power_off().step().visit(2_999, 3_000, 3_001)
    script.reset_up().step().hold_self_test(400).power_off()
    return script.step().visit(499, 500, 501)


# Standby and reset.


@session()
def reset_time_3000_stays_in_standby():
    return started().hold_reset(3_000).reset_up().step().step()


@session()
def reset_time_3001_goes_to_operating():
    return started().hold_reset(3_001).reset_up().step().step()


@session()
def reset_let_go_at_3000_counts_anew():
    return started().hold_reset(3_000).reset_up().step(1).hold_reset(2_999).wait(2)


@session()
def reset_held_long_waits_until_the_level_is_settled():
    script = started().level(LOW_UNSETTLED).hold_reset(3_001).step()
    script.levels((LOW_IN, LOW_OUT, LOWEST_NOT_PAST, HIGH_OUT, HIGH_IN, HIGH_UNSETTLED))
    return script.level(HIGH_SETTLED).step().reset_up().step()


@session()
def reset_held_long_with_the_lowest_settled_level_operates():
    return started().level(LOW_SETTLED).hold_reset(3_001).reset_up().step()


@session()
def refused_records_do_not_break_a_button_run():
    script = started().hold_reset(2_000)
    script.damaged(mark=b"WM", flags=POWER_ON, time=script.time + 100)
    script.damaged(flags=0x21, time=script.time + 100)
    script.damaged(flags=POWER_ON, time=TIME_LIMIT + 1)
    return script.wait(1_000).wait(1).reset_up().step()


@session()
def standby_lights_nothing_for_any_level():
    return started().levels(EDGE_WORDS)


# Self test.


@session()
def self_test_time_500_stays_in_standby():
    return started().hold_self_test(500).self_test_up().step().step()


@session()
def self_test_time_501_leads_from_standby_to_test():
    return started().hold_self_test(501).self_test_up().step().step()


@session()
def self_test_time_500_stays_in_operating():
    return running().hold_self_test(500).self_test_up().step().step()


@session()
def self_test_time_501_leads_from_operating_to_test():
    return running().hold_self_test(501).self_test_up().step().step()


@session()
def self_test_time_500_stays_in_shutdown():
    return running().enter_shutdown().hold_self_test(500).self_test_up().step().step()


@session()
def self_test_time_501_leads_from_shutdown_to_test():
    return running().enter_shutdown(LOW_OUT).hold_self_test(501).self_test_up().step().step()


@session()
def self_test_let_go_at_500_counts_anew():
    return started().hold_self_test(500).self_test_up().step(1).hold_self_test(500).step(1)


@session()
def self_test_beats_reset_in_standby():
    script = started().hold_reset(2_500).self_test_down().step(1).step(499).step(2)
    return script.self_test_up().step().reset_up().step()


@session()
def self_test_down_in_operating_out_of_limits_does_not_shut_down():
    script = running().self_test_down().level(HIGH_OUT).step(100).step(100)
    script.level(MIDDLE).step(100).self_test_up().step().step()
    script.self_test_down().level(LOW_OUT).step(100).level(MIDDLE).step(100)
    return script.level(LOW_OUT).self_test_up().step().level(MIDDLE).step(199)


@session()
def self_test_down_in_operating_out_of_limits_goes_to_test_at_501():
    script = running().level(HIGH_OUT).hold_self_test(500).step(1)
    return script.self_test_up().step().level(MIDDLE).step()


@session()
def self_test_down_in_shutdown_holds_the_shutdown():
    script = running().enter_shutdown().level(MIDDLE).self_test_down()
    script.step(100).step(99).step(1).step(200).self_test_up().step(1)
    script.run_pump().enter_shutdown().level(MIDDLE).self_test_down().step(100)
    return script.self_test_up().step(99).step()


@session()
def test_passes_every_edge():
    edges = [1_999, 2_000, 2_001, 3_999, 4_000, 4_001]
    for second in range(5, 14):
        edges += [1_000 * second - 1, 1_000 * second]
    return started().enter_test().visit(*edges, 13_999, 14_000, 14_001).step()


@session()
def test_ends_at_14001_with_the_levels_and_reset_unheeded():
    script = running().enter_test().reset_down().level(HIGH_OUT).wait(7_000)
    return script.level(LOW_OUT).wait(7_000).wait(1).level(MIDDLE).step().reset_up().step()


@session()
def test_at_14000_stays_and_steps_over_14001_to_standby():
    return started().enter_test().visit(13_800, 14_000, 14_300).run_pump()


@session()
def test_with_self_test_held_comes_back_after_one_standby_step():
    return started().hold_self_test(501).visit(13_900, 14_001, 14_002, 14_400).self_test_up().step()


@session()
def test_left_late_keeps_the_high_window_until_operating():
    return started().enter_test().wait(1_000).step(13_001).step().run_pump()


@session()
def test_left_late_keeps_the_low_window_until_operating():
    return started().enter_test().wait(3_000).step(11_001).step().run_pump()


@session()
def test_left_late_keeps_the_alarm_alone_until_operating():
    return started().enter_test().wait(4_000).step(10_001).step().run_pump()


# Operating and shutdown.


@session()
def operating_stays_within_the_limits():
    words = (LOW_IN, LOW_UNSETTLED, LOW_SETTLED, HIGH_SETTLED, HIGH_UNSETTLED, HIGH_IN)
    return running().levels(words)


@session()
def high_water_shuts_down_and_then_standby():
    return running().levels((HIGH_IN, HIGH_OUT)).wait(199, 50).step(1).step().step()


@session()
def low_water_shuts_down_and_then_standby():
    return running().levels((LOW_IN, LOW_OUT)).wait(199, 50).step(1).step().step()


@session()
def settled_at_199_in_shutdown_returns_to_operating():
    script = running().enter_shutdown(HIGH_OUT).level(HIGH_SETTLED).step(199).step()
    return script.enter_shutdown(LOW_OUT).level(LOW_SETTLED).step(199).step()


@session()
def settled_at_200_in_shutdown_goes_to_standby():
    return running().enter_shutdown().level(MIDDLE).step(200).step().step()


@session()
def unsettled_at_199_in_shutdown_stays_and_at_200_goes_to_standby():
    script = running().enter_shutdown().level(HIGH_UNSETTLED).step(199).step(1)
    script.level(MIDDLE).step().run_pump()
    return script.enter_shutdown(LOW_OUT).level(LOW_UNSETTLED).step(199).step(1)


@session()
def shutdown_keeps_the_high_window_until_it_is_settled():
    script = running().enter_shutdown().level(HIGH_IN).step(50).level(HIGH_UNSETTLED).step(50)
    return script.level(HIGH_SETTLED).step(50).step()


@session()
def shutdown_keeps_the_low_window_until_it_is_settled():
    script = running().enter_shutdown(LOW_OUT).level(LOW_IN).step(50).level(LOW_UNSETTLED).step(50)
    return script.level(LOW_SETTLED).step(50).step()


@session()
def shutdown_swinging_from_high_to_low_lights_both_windows():
    script = running().enter_shutdown(HIGH_OUT).level(LOW_OUT).step(60).level(HIGH_IN).step(60)
    script.level(MIDDLE).step(60).step()
    script.enter_shutdown(LOW_OUT).level(HIGH_OUT).step(60).step(200).level(MIDDLE).step()
    return script.run_pump()


@session()
def standby_after_high_water_keeps_the_high_window_until_operating():
    script = running().enter_shutdown(HIGH_OUT).step().level(MIDDLE).step()
    return script.levels((LOW_OUT, HIGH_OUT, MIDDLE)).run_pump()


@session()
def standby_after_low_water_keeps_the_low_window_until_operating():
    script = running().enter_shutdown(LOW_OUT).step().level(MIDDLE).step()
    return script.levels((HIGH_OUT, LOW_OUT, MIDDLE)).run_pump()


@session()
def test_after_shutdown_puts_the_windows_out():
    return running().enter_shutdown(LOW_OUT).enter_test().level(MIDDLE).wait(14_001).step()


# Signal and contact.


@session()
def signal_waits_in_operating_until_reset_is_let_go():
    return started().enter_operating().wait(2_000).reset_up().step(1).step()


@session()
def signal_stays_operate_when_reset_goes_down_in_operating():
    return running().hold_reset(3_500).reset_up().step()


@session()
def shutdown_keeps_the_signal_at_operate():
    script = running().enter_shutdown().reset_down().step(100).reset_up().step(99)
    return script.step(1).level(MIDDLE).step()


@session()
def shutdown_keeps_the_signal_at_shutdown():
    script = started().enter_operating().enter_shutdown().reset_up().step(100)
    return script.level(MIDDLE).step(99).step()


@session()
def return_to_operating_with_reset_down_leaves_the_signal():
    script = running().reset_down().enter_shutdown().level(MIDDLE).step(100).step()
    script.enter_shutdown().step(200).level(MIDDLE).reset_up().step().enter_operating()
    return script.enter_shutdown().level(MIDDLE).step(100).step().reset_up().step()


# Failure modes.


@session()
def level_one_word_within_the_marks_is_allok():
    return started().levels((LOWEST_NOT_PAST, HIGHEST_NOT_PAST, MIDDLE))


@session()
def level_past_the_low_mark_is_badlevdev_and_stays_so():
    return started().levels((LOWEST_NOT_PAST, PAST_LOW_MARK, LOWEST_NOT_PAST, MIDDLE, MIDDLE))


@session()
def level_past_the_high_mark_is_badlevdev_and_stays_so():
    return started().levels((HIGHEST_NOT_PAST, PAST_HIGH_MARK, HIGHEST_NOT_PAST, MIDDLE, MIDDLE))


@session()
def words_beyond_the_scale_are_faults():
    script = started()
    for word in (256, 257, 65_535, 65_536, 2**31, 2**32 - 1):
        script.level(word).step().power_off().level(MIDDLE).step()
    return script.level(PAST_HIGH_MARK + 4).step()


def fail_in_every_mode(fail: Callable[[Script], Script]) -> Script:
    """Fails in standby, operating, shutdown and test, with a restart between."""
    script = fail(started()).step()
    script.level(MIDDLE).power_off().step()
    fail(script.run_pump()).step()
    script.level(MIDDLE).power_off().step()
    fail(script.run_pump().enter_shutdown()).step()
    script.level(MIDDLE).power_off().step()
    return fail(script.enter_test().step()).step()


@session()
def gauge_fault_in_every_mode():
    return fail_in_every_mode(lambda script: script.level(BEYOND_SCALE).step(300))


@session()
def memory_failure_in_every_mode():
    return fail_in_every_mode(lambda script: script.step(memory=True))


@session()
def told_clock_failure_in_every_mode():
    return fail_in_every_mode(lambda script: script.step(clock=True))


@session()
def time_not_later_in_every_mode():
    return fail_in_every_mode(lambda script: script.step(0))


@session()
def time_one_later_is_good():
    return running().step(1).step(1).step(1)


@session()
def time_equal_is_a_failed_clock():
    return running().step(0).step().step()


@session()
def time_one_less_is_a_failed_clock():
    return running().step(-1).step().step()


@session()
def time_far_less_is_a_failed_clock_and_counts_on_from_there():
    return running().at(10).step(499).step(500).at(0).step()


@session()
def badlevdev_turns_hardfail_by_memory():
    return started().level(BEYOND_SCALE).step().step(memory=True).level(MIDDLE).step()


@session()
def badlevdev_turns_hardfail_by_a_told_clock_failure():
    return started().level(PAST_LOW_MARK).step().step(clock=True).level(MIDDLE).step()


@session()
def badlevdev_turns_hardfail_by_a_time_not_later():
    return started().level(PAST_HIGH_MARK).step().step(0).level(MIDDLE).step()


@session()
def badlevdev_turns_hardfail_in_every_mode():
    return fail_in_every_mode(
        lambda script: script.level(BEYOND_SCALE).step().level(MIDDLE).step(memory=True)
    )


@session()
def gauge_fault_and_memory_failure_at_once_are_hardfail():
    return running().level(BEYOND_SCALE).step(memory=True).level(MIDDLE).step()


@session()
def hardfail_stays_hardfail_with_a_gauge_fault():
    script = running().step(memory=True).level(BEYOND_SCALE).step().level(PAST_LOW_MARK).step()
    return script.level(MIDDLE).step(clock=True).step(memory=True).step(0).step()


@session()
def badlevdev_flashes_by_the_time_by_500():
    script = Script().level(BEYOND_SCALE).at(0)
    return script.visit(499, 500, 999, 1_000, 1_499, 1_500, 1_501).level(MIDDLE).wait(2_000, 130)


@session()
def badlevdev_rests_the_mode_table():
    script = running().level(BEYOND_SCALE).step().level(HIGH_OUT).step().level(MIDDLE)
    script.power_off().step().level(BEYOND_SCALE).step().level(MIDDLE)
    return script.hold_reset(3_400).reset_up().hold_self_test(900)


@session()
def hardfail_rests_the_mode_table_and_lights_all():
    script = started().step(memory=True).hold_reset(3_400).reset_up().hold_self_test(900)
    script.self_test_up().power_off().step().enter_test().step().step(clock=True)
    return script.wait(1_600).step(14_000)


# Watchdog.


@session()
def step_499_later_keeps_the_watchdog():
    return running().step(499).step(499)


@session()
def step_500_later_shuts_the_watchdog_until_restart():
    script = running().step(500).step().step(1).enter_shutdown().level(MIDDLE).step(100)
    return script.step().power_off().step().run_pump()


@session()
def watchdog_shut_in_standby_lets_the_modes_go_on():
    return started().step(501).run_pump().enter_shutdown().step(200)


@session()
def late_step_in_badlevdev_shuts_the_watchdog():
    return started().level(BEYOND_SCALE).step().step(500).step()


@session()
def late_step_in_hardfail_shuts_the_watchdog():
    return started().step(memory=True).step(499).step(500).step().power_off().step()


@session()
def late_step_with_a_failure_shuts_the_watchdog_too():
    script = running().step(500, memory=True).step().power_off().step()
    return script.level(BEYOND_SCALE).step(700).step()


@session()
def late_step_can_end_a_button_hold_and_a_shutdown():
    script = started().reset_down().step(100).step(3_001).reset_up().step()
    return script.enter_shutdown().level(MIDDLE).step(500)


# Time limit.


@session()
def time_at_the_limit_is_accepted_and_one_above_refused():
    script = started(TIME_LIMIT - 3_900).run_pump().at(TIME_LIMIT - 1).at(TIME_LIMIT)
    script.damaged(flags=POWER_ON, time=TIME_LIMIT + 1)
    script.damaged(flags=POWER_ON, time=2**64 - 1)
    return script.at(TIME_LIMIT).power_off(0).at(TIME_LIMIT)


@session()
def start_above_the_time_limit_is_refused():
    script = Script().damaged(flags=POWER_ON, time=TIME_LIMIT + 1)
    script.damaged(time=TIME_LIMIT + 1).damaged(flags=0, time=2**63)
    return script.at(TIME_LIMIT, power=False).at(TIME_LIMIT)


@session()
def step_above_the_time_limit_changes_nothing():
    script = running().damaged(flags=POWER_ON | MEMORY_FAILED, time=TIME_LIMIT + 1)
    script.damaged(flags=0, time=TIME_LIMIT + 1).level(BEYOND_SCALE)
    script.damaged(flags=POWER_ON | CLOCK_FAILED, time=TIME_LIMIT + 1)
    return script.level(MIDDLE).step(499)


# Refusals of the record reader.


@session()
def no_bytes_at_all():
    return Script()


@session()
def one_byte_is_too_few():
    return Script().raw(MARK[:1])


@session()
def eighteen_bytes_are_too_few():
    return Script().raw(bytes(started().data[:18]))


@session()
def last_record_cut_short_is_refused_at_its_place():
    return running().raw(bytes(started().data[:7]))


@session()
def too_few_bytes_beat_a_bad_mark():
    return started().raw(bytes(18))


@session()
def wrong_marks_are_refused():
    script = started()
    for mark in (b"\x56\x4c", b"\x57\x4d", b"\x4c\x57", b"\x00\x00", b"\xff\xff"):
        script.damaged(mark=mark, flags=POWER_ON, time=1_200)
    return script.step()


@session()
def every_unused_flag_bit_is_refused():
    script = started()
    for flags in (0x21, 0x41, 0x81, 0x20, 0x40, 0x80, 0xE0, 0xFF):
        script.damaged(flags=flags, time=1_200)
    return script.step()


@session()
def every_used_flag_value_is_taken():
    script = Script()
    for flags in range(32):
        script.damaged(flags=flags, time=100 * flags)
    return script


@session()
def earliest_refusal_decides():
    script = started()
    script.damaged(mark=b"\x00\x4c", flags=0xFF, time=2**64 - 1)
    script.damaged(mark=b"\x57\x00", flags=POWER_ON, time=TIME_LIMIT + 1)
    script.damaged(mark=b"\x57\x00", flags=0x80, time=1_200)
    script.damaged(flags=0x40, time=2**64 - 1)
    script.damaged(flags=POWER_ON, time=2**64 - 1)
    return script.step()


@session()
def refused_records_are_no_steps_for_clock_and_watchdog():
    script = running()
    script.damaged(flags=0x21, time=script.time + 300)
    script.damaged(mark=b"WK", flags=POWER_ON, time=script.time + 300)
    script.step(499)
    script.damaged(flags=0x21, time=script.time + 300)
    return script.step(500)


@session()
def words_b_do_not_matter_to_the_cell():
    script = started()
    for word_b in (1, 255, 256, 2**31, 2**32 - 1):
        script.step(unused=word_b)
    return script


# Refusals of readout.

START_LINE_LENGTH = len("1000 standby allok H0 L0 A0 20.0 S0 W1 C0\n")


def from_dark_to_operating_and_failure() -> Script:
    script = started().power_off().step().run_pump().enter_shutdown().power_off()
    return script.level(MIDDLE).step().level(BEYOND_SCALE).step().step(memory=True)


for _name, _room in {
    "readout_without_room_is_always_refused": 0,
    "readout_into_one_byte_is_always_refused": 1,
    "readout_one_byte_short_of_the_first_line": START_LINE_LENGTH - 1,
    "readout_exactly_as_long_as_the_first_line": START_LINE_LENGTH,
    "readout_exactly_as_long_as_the_operating_line": START_LINE_LENGTH + 2,
    "readout_with_room_to_spare": 1_000,
}.items():
    add(_name, from_dark_to_operating_and_failure(), room=_room)


@session(room=58)
def readout_into_58_bytes_takes_the_longest_line():
    script = started(TIME_LIMIT - 4_000).run_pump().level(BEYOND_SCALE)
    return script.at(TIME_LIMIT)


@session(room=57)
def readout_into_57_bytes_refuses_the_longest_line():
    script = started(TIME_LIMIT - 4_000).run_pump().level(BEYOND_SCALE)
    return script.at(TIME_LIMIT).step(-500)


# Plates.


def standard_but(**others: int) -> tuple[int, ...]:
    """The standard plate's numbers with some others in their place."""
    names = ("low_mark", "low_limit", "high_limit", "high_mark", "hysteresis")
    numbers = dict(zip(names, STANDARD_NUMBERS))
    numbers.update(others)
    return tuple(numbers.values())


LARGEST = 2**32 - 1

# Refused plates.

for _name, _numbers in {
    "low_mark_at_low_limit": standard_but(low_mark=1_400_000),
    "low_mark_above_low_limit": standard_but(low_mark=1_400_001),
    "limits_one_closer_than_two_hystereses": standard_but(high_limit=1_499_999),
    "limits_equal": standard_but(low_limit=2_600_000, hysteresis=1),
    "limits_crossed": standard_but(low_limit=2_600_000, high_limit=1_400_000),
    "high_limit_at_high_mark": standard_but(high_limit=2_700_000),
    "high_limit_above_high_mark": standard_but(high_limit=2_700_001),
    "high_mark_9990001": standard_but(high_mark=9_990_001),
    "high_mark_at_the_top_of_the_scale": standard_but(high_mark=10_000_000),
    "hysteresis_0": standard_but(hysteresis=0),
    "all_numbers_0": (0, 0, 0, 0, 0),
    "all_numbers_4294967295": (LARGEST,) * 5,
    "hysteresis_2147483648": standard_but(hysteresis=2**31),
    "hysteresis_2147533648": standard_but(hysteresis=2**31 + 50_000),
    "hysteresis_4294967295": standard_but(hysteresis=LARGEST),
    "low_limit_4294967295": standard_but(low_limit=LARGEST),
    "low_limit_4294967295_and_hysteresis_1": standard_but(low_limit=LARGEST, hysteresis=1),
    "low_limit_4294967295_and_hysteresis_2147483648": standard_but(
        low_limit=LARGEST, hysteresis=2**31
    ),
    "limits_4294967295_and_hysteresis_2147483648": standard_but(
        low_limit=LARGEST, high_limit=LARGEST, hysteresis=2**31
    ),
}.items():
    add(f"plate_with_{_name}_is_refused", started(), plate=_numbers)


# Other good plates.

WIDEST_PLATE = (0, 1, 9_989_999, 9_990_000, 1)


def plate_tour() -> Script:
    """Standby, operating, every edge word and back, the ends of the scale."""
    script = running()
    for word in EDGE_WORDS:
        script.level(word).step(100).level(MIDDLE).step(100)
    return script.step(200).levels((LOW_OUT, MIDDLE, HIGH_OUT, 0, 255))


for _name, _numbers in {
    "low_mark_one_below_low_limit": standard_but(low_mark=1_399_999),
    "limits_two_hystereses_apart": standard_but(
        low_limit=cell_level(MIDDLE) - 50_000, high_limit=cell_level(MIDDLE) + 50_000
    ),
    "high_limit_one_below_high_mark": standard_but(high_limit=2_699_999),
    "high_mark_9990000": standard_but(high_mark=9_990_000),
    "hysteresis_1": standard_but(hysteresis=1),
    "low_mark_0": standard_but(low_mark=0),
    "limits_as_wide_as_can_be": WIDEST_PLATE,
    "the_largest_hysteresis": (0, 1, 9_989_999, 9_990_000, 4_994_999),
    "all_below_the_cell": (0, 1, 3, 4, 1),
    "all_above_the_cell": (9_989_996, 9_989_997, 9_989_999, 9_990_000, 1),
    "every_cell_level_low": (0, 5_000_000, 6_000_000, 7_000_000, 500_000),
    "every_cell_level_high": (0, 1, 1_000_000, 9_990_000, 1),
}.items():
    add(f"plate_with_{_name}_is_good", plate_tour(), plate=_numbers)


@session(plate=WIDEST_PLATE)
def figure_for_every_word():
    return started().levels(range(256), every=250)


# Plates whose six edges lie exactly on, or one unit off, levels of the cell.

MARKS_AND_LIMITS_JUST_KEPT = (
    cell_level(LOWEST_NOT_PAST),
    cell_level(LOW_IN) - 1,
    cell_level(HIGH_IN) + 1,
    cell_level(HIGHEST_NOT_PAST),
    cell_level(LOW_SETTLED) - cell_level(LOW_IN) + 1,
)
MARKS_AND_LIMITS_JUST_BROKEN = (
    cell_level(LOWEST_NOT_PAST) + 1,
    cell_level(LOW_IN),
    cell_level(HIGH_IN),
    cell_level(HIGHEST_NOT_PAST) - 1,
    cell_level(LOW_SETTLED) - cell_level(LOW_IN) + 1,
)


def tour_of_exact_edges() -> Script:
    script = started().level(LOW_SETTLED).enter_operating()
    script.reset_up().power_off().level(MIDDLE).step()
    script.level(HIGH_SETTLED).enter_operating()
    script.reset_up().power_off().level(MIDDLE).step().run_pump()
    script.level(LOW_IN).step(100).level(LOW_SETTLED).step(100).level(MIDDLE).step(99).step()
    script.level(HIGH_IN).step(100).level(HIGH_SETTLED).step(100)
    script.level(MIDDLE).step(99).step().level(LOWEST_NOT_PAST).step()
    return script.power_off().level(MIDDLE).step().level(HIGHEST_NOT_PAST).step()


add("levels_one_unit_inside_every_edge", tour_of_exact_edges(), MARKS_AND_LIMITS_JUST_KEPT)
add("levels_one_unit_outside_every_edge", tour_of_exact_edges(), MARKS_AND_LIMITS_JUST_BROKEN)


# Muddled, damaged and random sessions.

MUDDLED_SESSIONS = 8
MUDDLED_RECORDS = 100

for _seed in range(1, MUDDLED_SESSIONS + 1):
    add(f"muddled_session_{_seed:02d}", muddle(_seed, MUDDLED_RECORDS))

add("muddled_session_on_a_wide_plate", muddle(31, 60), WIDEST_PLATE)
add("muddled_session_on_exact_edges", muddle(32, 60), MARKS_AND_LIMITS_JUST_BROKEN)
add("muddled_session_with_little_room", muddle(33, 60), room=START_LINE_LENGTH + 3)

for _seed in (41, 42, 43):
    add(
        f"damaged_session_{_seed}",
        Script().raw(with_damage(bytes(muddle(_seed, 50).data), _seed, 0.02)),
    )


@session()
def session_with_a_lost_byte_finds_no_more_marks():
    whole = bytes(muddle(51, 30).data)
    return Script().raw(whole[:200] + whole[201:])


@session()
def random_noise():
    return Script().raw(Dice(61).noise(500))


@session()
def random_noise_behind_good_marks():
    dice = Dice(62)
    script = Script()
    for _ in range(40):
        script.raw(MARK + dice.noise(RECORD.size - len(MARK)))
    return script


@session()
def random_noise_behind_good_marks_and_small_times():
    dice = Dice(63)
    script = Script()
    for _ in range(60):
        flags = dice.between(0, 63)
        script.level(dice.between(0, 300)).damaged(flags=flags, time=dice.between(0, 9_999))
    return script


@session()
def random_noise_with_reset_down_for_ever():
    dice = Dice(64)
    script = Script().level(MIDDLE)
    time = 0
    for _ in range(60):
        time += dice.between(1, 700)
        script.damaged(flags=POWER_ON | RESET_DOWN, time=time)
    return script
