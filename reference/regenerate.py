#!/usr/bin/env python3
"""Writes, or with --check compares, every stored expectation.

    python3 reference/regenerate.py
    python3 reference/regenerate.py --check

--check also asks for full coverage and judges the promises in some sessions.
"""

from __future__ import annotations

import sys
from pathlib import Path
from typing import Iterator

import coverage
import gauge_suite
import promises
import run_suite
import switch_suite
from gauges import PressureCell, shown
from runs import RUNS
from sessions import SESSIONS
from wellref import RECORD, STANDARD_NUMBERS, Plate, report

ROOT = Path(__file__).resolve().parent.parent

# Folders whose matching files are all written here; any other such file is left over.
OWNED = ("crates/session_suite/data/*.session", "runs/*.bin", "runs/*.txt")

PROMISE_SESSIONS = 500

TABLE_WORDS = (*range(260), 65_535, 65_536, 2**31, 2**32 - 1)


def suite_files() -> Iterator[tuple[str, bytes]]:
    for session in SESSIONS:
        yield f"crates/session_suite/data/{session.name}.session", session.file_bytes()
    args = "".join(f"{session.name}.session\n" for session in SESSIONS)
    yield "crates/session_suite/args", args.encode("ascii")
    output = "".join(line for session in SESSIONS for line in session.lines())
    yield "crates/session_suite/stdout", output.encode("ascii")


def cell_line(word: int) -> str:
    plate, cell = Plate(*STANDARD_NUMBERS), PressureCell()
    cell.take(word, 0)
    reading = cell.reading()
    return (
        f"{word} {shown(reading)} past {plate.past_mark(reading):d}"
        f" out {plate.out_of_limits(reading):d} settled {plate.settled(reading):d}\n"
    )


def cell_table_files() -> Iterator[tuple[str, bytes]]:
    yield "crates/cell_table/stdout", "".join(map(cell_line, TABLE_WORDS)).encode("ascii")


def run_files() -> Iterator[tuple[str, bytes]]:
    for name, script in RUNS.items():
        data = bytes(script.data)
        yield f"runs/{name}.bin", data
        yield f"runs/{name}.txt", report(data)
    example = bytes(RUNS["two_records"].data)
    yield "crates/wellreport/stdin", example
    yield "crates/wellreport/stdout", report(example)


def stream_suite_files() -> Iterator[tuple[str, bytes]]:
    """Suites that are one input and one output."""
    for suite in (gauge_suite, switch_suite, run_suite):
        yield f"crates/{suite.__name__}/stdin", suite.suite_input()
        yield f"crates/{suite.__name__}/stdout", suite.suite_output()


def expected_files() -> dict[str, bytes]:
    return dict([*suite_files(), *cell_table_files(), *run_files(), *stream_suite_files()])


def left_over(expected: dict[str, bytes]) -> list[str]:
    found = (path for pattern in OWNED for path in ROOT.glob(pattern))
    names = (path.relative_to(ROOT).as_posix() for path in found)
    return sorted(name for name in names if name not in expected)


def complaints(expected: dict[str, bytes]) -> Iterator[str]:
    for name, content in expected.items():
        path = ROOT / name
        if not path.is_file():
            yield f"missing: {name}"
        elif path.read_bytes() != content:
            yield f"differs: {name}"
    for name in left_over(expected):
        yield f"left over: {name}"
    for name in coverage.missed():
        yield f"never reached by a suite: {name}"
    yield from promises.judge(PROMISE_SESSIONS).complaints()


def write(expected: dict[str, bytes]) -> None:
    for name in left_over(expected):
        (ROOT / name).unlink()
    for name, content in expected.items():
        path = ROOT / name
        path.parent.mkdir(parents=True, exist_ok=True)
        path.write_bytes(content)


def summary() -> str:
    records = sum(len(session.data) // RECORD.size for session in SESSIONS)
    return (
        f"reference: {len(SESSIONS)} sessions, {records} records, {len(RUNS)} runs,"
        f" {len(gauge_suite.VECTORS)} gauge vectors, {len(switch_suite.ENTRIES)} switch entries,"
        f" {len(run_suite.RUNS)} suite runs with {run_suite.records()} records"
    )


def main(arguments: list[str]) -> int:
    expected = expected_files()
    if arguments == ["--check"]:
        found = list(complaints(expected))
        for complaint in found:
            print(f"reference: {complaint}", file=sys.stderr)
        if not found:
            print(f"{summary()}: stored expectations agree")
        return 1 if found else 0
    if arguments:
        print("usage: regenerate.py [--check]", file=sys.stderr)
        return 2
    write(expected)
    print(f"{summary()}: {len(expected)} files written")
    return 0


if __name__ == "__main__":
    sys.exit(main(sys.argv[1:]))
