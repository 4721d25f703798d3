"""Inputs of wellreport, by name."""

from __future__ import annotations

from script import (
    BEYOND_SCALE,
    HIGH_IN,
    HIGH_OUT,
    HIGH_SETTLED,
    HIGH_UNSETTLED,
    LOW_OUT,
    LOW_UNSETTLED,
    MIDDLE,
    PAST_HIGH_MARK,
    Dice,
    Script,
    muddle,
    running,
    started,
)
from wellref import POWER_ON, RECORD, REPORT_BYTES, TIME_LIMIT


def two_records() -> Script:
    """The example of docs/RULES.md, section 13."""
    return Script().level(0x80).at(1_000).level(0xFB).at(1_400)


def long_session() -> Script:
    """A day at the well."""
    script = Script().at(0, power=False).at(250)
    # Reset is held, let go, and the pump runs.
    script.wait(500, 250).reset_down().wait(3_500, 250).reset_up().wait(2_000, 250)
    # The water rises and falls again in time.
    script.level(HIGH_UNSETTLED).step(250).level(HIGH_IN).step(250).level(HIGH_OUT).step(250)
    script.level(HIGH_UNSETTLED).step(90).level(HIGH_SETTLED).step(90)
    script.level(MIDDLE).wait(1_000, 250)
    # Low water lasts; standby, and reset starts the pump again.
    script.level(LOW_OUT).step(250).step(199).step(1).level(LOW_UNSETTLED).wait(500, 250)
    script.level(MIDDLE).reset_down().wait(3_500, 250).reset_up().wait(500, 250)
    # A record with a bad mark, one with a bad flag, one past the time limit.
    script.damaged(mark=b"WX", flags=POWER_ON, time=script.time + 250)
    script.damaged(flags=0x81, time=script.time + 250)
    script.damaged(flags=POWER_ON, time=TIME_LIMIT + 1)
    script.step(250)
    # Self test runs to its end.
    script.self_test_down().wait(1_000, 250).self_test_up().wait(14_500, 250)
    # The pump runs, the gauge fails, and only power off helps.
    script.reset_down().wait(3_500, 250).reset_up().wait(500, 250)
    script.level(BEYOND_SCALE).wait(1_000, 250).level(MIDDLE).wait(1_000, 250)
    script.power_off(250).power_off(250)
    # A late step shuts the watchdog; the next start sets it to operate.
    script.step(3_000).reset_down().wait(3_500, 250).reset_up().wait(500, 250)
    script.step(500).wait(500, 250).power_off(250)
    # A level past the mark, then failed memory.
    script.step(250).level(PAST_HIGH_MARK).wait(750, 250)
    script.level(MIDDLE).step(250, memory=True).wait(1_000, 250)
    # The clock is set back while the power is off, and then while it is on.
    script.power_off(250).at(1_000).wait(500, 250).step(-1_000).wait(500, 250)
    script.power_off(250).step(250).step(250, clock=True).step(250).power_off(250)
    # The last record is cut short.
    return script.raw(bytes(started().data[:11]))


def one_byte_over() -> Script:
    """As much as wellreport reads, and one byte more."""
    script = muddle(71, REPORT_BYTES // RECORD.size)
    return script.raw(b"W")


def bad_mark() -> Script:
    script = started()
    script.damaged(mark=b"\x57\x4d", flags=POWER_ON, time=1_100)
    script.damaged(mark=b"\x56\x4c", flags=POWER_ON, time=1_200)
    return script.step(300)


def bad_flags() -> Script:
    script = started()
    for flags in (0x21, 0x41, 0x81):
        script.damaged(flags=flags, time=1_200)
    return script.step(300)


def time_past_limit() -> Script:
    script = started(TIME_LIMIT - 100)
    script.damaged(flags=POWER_ON, time=TIME_LIMIT + 1)
    return script.damaged(flags=POWER_ON, time=2**64 - 1)


RUNS = {
    "two_records": two_records(),
    "long_session": long_session(),
    "empty": Script(),
    "eighteen_bytes": Script().raw(bytes(started().data[:18])),
    "noise": Script().raw(Dice(72).noise(4_000)),
    "one_byte_over": one_byte_over(),
    "cut_record": running().raw(bytes(started().data[:9])),
    "bad_mark": bad_mark(),
    "bad_flags": bad_flags(),
    "time_past_limit": time_past_limit(),
    "time_at_limit": started(TIME_LIMIT - 100).at(TIME_LIMIT),
}
