"""Writes random sessions and what the monitor says of them, for the programs that use the static library.

    python3 reference/boundary.py FOLDER COUNT

For each number and each of the two monitors (cell with direct contact; echo gauge at 50.0 with a rest of 60 s over a
drive word) there are FOLDER/N.MONITOR.bin, record bytes with bad ones among them, and FOLDER/N.MONITOR.txt, the lines.
"""

import random
import struct
import sys
from pathlib import Path

sys.dont_write_bytecode = True

import gauges
import switches
import wellref

MOUNT = 50.0
REST = 60_000
RECORDS = 3_200
LEVELS_CM = [20, 20, 20, 20, 14, 26, 13.9, 26.1, 14.5, 25.5]
INTERVALS = [1, 49, 50, 100, 150, 199, 200, 201, 250, 250, 250, 400, 499]
ODD_INTERVALS = [0, 500, 501, -300, -5_000, 70_000, 3_000]
ODD_TIMES = [10**13, 10**13 - 1, 10**13 + 1, 0]


def bits(number):
    return struct.unpack(">I", struct.pack(">f", number))[0]


def echo_word(level, rng):
    odd = [0x7F800000, 0x7FC00001, 0xBF800000, 0x80000000, bits(50.0), bits(50.000004), rng.getrandbits(32)]
    return rng.choice(odd) if rng.random() < 0.002 else bits(MOUNT - level)


def cell_word(level, rng):
    if rng.random() < 0.002:
        return rng.choice([255, 256, rng.getrandbits(32), 0])
    return max(0, int((level * 100_000 - 1_273_372) * 255 / 1_453_242) + rng.randrange(-1, 2))


def next_spell(rng):
    """How many records the buttons and the level stay, the facts, and the level."""
    facts = rng.choices([1, 3, 5, 7, 0, rng.randrange(32)], [94, 70, 16, 6, 13, 1])[0]
    length = rng.randrange(1, 4) if facts == 0 else rng.randrange(1, 40)
    return length, facts, rng.choice(LEVELS_CM)


def session(rng, word):
    """Record bytes: spells of held buttons and levels; now and then a bad time, word or byte, and a cut end."""
    out = bytearray()
    time, left = rng.randrange(10**6), 0
    while len(out) < RECORDS * 19:
        if left == 0:
            left, facts, aim = next_spell(rng)
        left -= 1
        level = aim if rng.random() < 0.7 else aim + rng.uniform(-0.6, 0.6)
        time = max(0, time + rng.choice(ODD_INTERVALS if rng.random() < 0.002 else INTERVALS))
        if rng.random() < 0.0003:
            time = rng.choice(ODD_TIMES)
        step = bytearray(b"WL" + struct.pack(">BQII", facts, time, word(level, rng), rng.getrandbits(32)))
        if rng.random() < 0.002:
            step[rng.randrange(4)] ^= 1 << rng.randrange(8)
        out += step
        if time > 10**12:
            time = rng.randrange(10**6)
    return bytes(out[: RECORDS * 19 - rng.randrange(19)])


def cell_monitor(plate):
    return wellref.Monitor(plate, gauges.PressureCell(), switches.DirectContact())


def echo_monitor(plate):
    switch = switches.RestLayer(switches.DriveWord(0), REST)
    return wellref.Monitor(plate, gauges.EchoGauge(bits(MOUNT)), switch)


def main(folder, count):
    for number in range(count):
        for name, word, monitor in [("cell", cell_word, cell_monitor), ("echo", echo_word, echo_monitor)]:
            data = session(random.Random(f"{name} {number}"), word)
            lines = wellref.lines(monitor(wellref.Plate(*wellref.STANDARD_NUMBERS)), data, 64)
            (folder / f"{number}.{name}.bin").write_bytes(data)
            (folder / f"{number}.{name}.txt").write_text("".join(lines))


if __name__ == "__main__":
    main(Path(sys.argv[1]), int(sys.argv[2]))
