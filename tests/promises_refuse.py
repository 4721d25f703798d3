#!/usr/bin/env python3
"""Shows that the three promises refuse wrong monitors.

Each change below alters the code and its definition together, so that every function still meets its own
contract up to the promises. The crates below the monitor must stay proved, the monitor must be refused, and the
proof of the contrary, a run for which the promise is false, must be accepted.
Run it from anywhere: `python3 tests/promises_refuse.py [NAME ..]`. It works on a copy and takes some minutes.
"""

import re
import shutil
import subprocess
import sys
import tempfile
from pathlib import Path

ROOT = Path(__file__).resolve().parent.parent
LIBRARY = ["base", "gauges", "switches", "records", "control", "display", "monitor"]

TABLE = "crates/control/src/mode_table.rt"
TABLE_SPEC = "crates/control/specs/ModeTable.antt"
TRANSITION = "crates/control/src/transition.rt"
TRANSITION_SPEC = "crates/control/specs/Transition.antt"
CALLS_SPEC = "crates/monitor/specs/Calls.antt"

CHANGES = {
    "a monitor that never closes": [
        ("crates/control/src/state.rt", "self.signal == Signal::Operate && self.watchdog == Watchdog::Operate", "false"),
        ("crates/control/specs/State.antt", "drives st = operate st.signal && watched st.watchdog", "drives st = false"),
    ],
    "a reset that need not be let go": [
        (TRANSITION, "FailureMode::Allok) if !reset => Signal::Operate,", "FailureMode::Allok) if !reset || reset => Signal::Operate,"),
        (TRANSITION_SPEC, "in_allok mode.Operating reset old = cond reset old signal.Operate", "in_allok mode.Operating reset old = signal.Operate"),
    ],
    "a fault forgotten when the gauge recovers": [
        (TRANSITION, "    failure.max(found)", "    if failure == FailureMode::Badlevdev {\n        found\n    } else {\n        failure.max(found)\n    }"),
        (TRANSITION_SPEC, "worse Badlevdev false bad = Badlevdev", "worse Badlevdev false bad = cond bad Badlevdev Allok"),
    ],
    "a self test held down that keeps the pump on": [
        (TABLE, "Mode::Operating | Mode::Shutdown | Mode::Standby if c.tested > TEST_PRESS", "Mode::Standby if c.tested > TEST_PRESS"),
        (TABLE_SPEC, "(λ m. is m Operating || (is m Shutdown || is m Standby))", "(λ m. is m Standby)"),
    ],
    "a slow shutdown": [
        (TABLE, "const SHUTDOWN_TIME: u64 = 200;", "const SHUTDOWN_TIME: u64 = 3_000;"),
        (TABLE_SPEC, "nat_le 200 c.dwell", "nat_le 3000 c.dwell"),
        (TABLE_SPEC, "nat_lt c.dwell 200", "nat_lt c.dwell 3000"),
    ],
    "a test that lasts too long": [
        (TABLE, "const TEST_TIME: u64 = 14_000;", "const TEST_TIME: u64 = 20_000;"),
        (TABLE_SPEC, "nat_lt 14000 c.dwell", "nat_lt 20000 c.dwell"),
    ],
    "a watchdog fed by a refused step": [
        ("crates/monitor/src/step.rt", "            return Err(Refusal::Time);", "            self.state.time = step.time;\n            return Err(Refusal::Time);"),
        (CALLS_SPEC, "after_step gm sm m s = cond (nat_lt time_limit s.time) m (accepted gm sm m s)", "after_step gm sm m s = cond (nat_lt time_limit s.time) (fed m s) (accepted gm sm m s)"),
        (CALLS_SPEC, "abbrev pub after_step :", "abbrev fed : {G S : Type 0} → Monitor G S → Step → Monitor G S\nfed m s = record { gauge = m.gauge; switch = m.switch; plate = m.plate; state = record { mode = m.state.mode; failure = m.state.failure; signal = m.state.signal; watchdog = m.state.watchdog; time = s.time; entered = m.state.entered; reset = m.state.reset; test = m.state.test }; panel = m.panel }\n\nabbrev pub after_step :"),
    ],
    "a contact left closed at set-up": [
        ("crates/monitor/src/set_up.rt", "        switch.open();\n", ""),
        ("crates/monitor/src/set_up.rt", "mut switch: S", "switch: S"),
        (CALLS_SPEC, "record { gauge = g; switch = sm.opened s; plate = p;", "record { gauge = g; switch = s; plate = p;"),
    ],
}


# A proof that the promises are false of the changed monitor, over a cell, a direct contact and the standard plate.
COUNTER = "crates/monitor/proofs/Counter.antt"
COUNTER_HEAD = """use Rattle.std.proofs.Common.{◌≡◌, ℕ, zero, suc, ◌+◌, ◌*◌, Bool, true, false, List, [], ◌∷◌, refl}
use Rattle.control.specs.Plate.{standard}
use Rattle.gauges.specs.Cell.{cell, nothing_taken}
use Rattle.records.specs.declared.step.Step.{Step}
use Rattle.std.proofs.lemmas.Bool.{both_ways}
use Rattle.switches.specs.Direct.{contact_at, direct}
use Rattle.monitor.specs.Calls.{set_up}
use Rattle.monitor.specs.History.{Call, step}
use Rattle.monitor.specs.Promises.{Promises}

-- a power-on step: the word, the time, reset down, self test down
abbrev at : ℕ → ℕ → Bool → Bool → Step
at word t reset test = record { time = t; a = word; b = 0; power = true; reset = reset; self_test = test; memory_failed = false; clock_failed = false }

-- calls at a settled level with reset down, each 400 ms, from t on
abbrev held : List Call → ℕ → ℕ → List Call
held before t zero = step (at 128 t true false) ∷ before
held before t (suc n) = step (at 128 (t + 400 * suc n) true false) ∷ held before t n

abbrev running : List Call
running = step (at 128 16200 false false) ∷ held [] 1000 37

-- high water with all buttons up, each 400 ms from 16,600 on, after the pump was started
abbrev flooded : ℕ → List Call
flooded zero = running
flooded (suc n) = step (at 240 (16600 + 400 * n) false false) ∷ flooded n

refuted : Promises cell direct standard nothing_taken (set_up direct nothing_taken (contact_at true) standard) → ⊥
"""

# A false statement: that it is refused shows that the file was read.
COUNTER_TAIL = """

control : ◌≡◌ {A = Bool} false true
control = refl
"""

LONG_RESET = "(record { held_long = refl; calm = refl; let_go = refl; no_fault = refl })"

COUNTERS = {
    "a monitor that never closes":
        f"refuted ps = both_ways false refl (ps.closes (step (at 128 16200 false false)) (held [] 1000 37) (at 128 16200 false false) refl {LONG_RESET})",
    "a reset that need not be let go":
        "refuted ps = both_ways false refl (ps.closed_rightly (held [] 1000 8) refl).let_go",
    "a fault forgotten when the gauge recovers":
        "refuted ps = both_ways false refl (ps.closed_rightly (step (at 128 5000 false false) ∷ held (step (at 300 1000 false false) ∷ []) 1400 8) refl).no_fault",
    "a self test held down that keeps the pump on":
        "refuted ps = both_ways false refl (ps.closed_rightly (step (at 128 17400 false true) ∷ step (at 128 17000 false true) ∷ step (at 128 16600 false true) ∷ running) refl).let_go",
    "a slow shutdown":
        "refuted ps = both_ways false refl (ps.closed_rightly (flooded 2) refl).let_go\n\n"
        "late : Promises cell direct standard nothing_taken (set_up direct nothing_taken (contact_at true) standard) → ⊥\n"
        "late ps = both_ways true (ps.opens (flooded 8) refl) refl",
    "a test that lasts too long":
        f"refuted ps = both_ways false refl (ps.closes (step (at 128 17400 false false)) (held (step (at 128 1800 false true) ∷ step (at 128 1400 false true) ∷ step (at 128 1000 false true) ∷ []) 2200 37) (at 128 17400 false false) refl {LONG_RESET})",
    "a watchdog fed by a refused step":
        f"refuted ps = both_ways false refl (ps.closes (step (at 128 16200 false false)) (step (at 128 10000000000001 true false) ∷ held [] 1000 37) (at 128 16200 false false) refl {LONG_RESET})",
    "a contact left closed at set-up":
        "refuted ps = both_ways false refl (ps.closed_rightly [] refl).no_fault",
}


def make_copy(folder: Path) -> None:
    for crate in LIBRARY:
        shutil.copytree(ROOT / "crates" / crate, folder / "crates" / crate, ignore=shutil.ignore_patterns("must-fail", "out"))
    lines = (ROOT / "crates.txt").read_text().splitlines()
    kept = [line for line in lines if line.split(":")[0] in LIBRARY]
    (folder / "crates.txt").write_text("\n".join(kept) + "\n")
    lib = folder / "crates/monitor/proofs/Lib.antt"
    lib.write_text(lib.read_text() + "pub mod Counter\n")
    set_counter(folder, "")


def set_counter(folder: Path, proof: str) -> None:
    (folder / COUNTER).write_text(COUNTER_HEAD + proof + COUNTER_TAIL if proof else "")


def check(folder: Path) -> tuple[bool, str]:
    """Is the monitor proved; and what the check said."""
    run = subprocess.run(["rt", "check"], cwd=folder / "crates/monitor", capture_output=True, text=True)
    return run.returncode == 0, run.stdout + run.stderr


def apply(folder: Path, edits: list[tuple[str, str, str]]) -> None:
    for name, old, new in edits:
        path = folder / name
        text = path.read_text()
        if text.count(old) != 1:
            sys.exit(f"{name}: the text to change stands {text.count(old)} times: {old}")
        path.write_text(text.replace(old, new))


def restore(folder: Path, edits: list[tuple[str, str, str]]) -> None:
    for name in {edit[0] for edit in edits}:
        shutil.copyfile(ROOT / name, folder / name)


REFUTED = "refused, and the promise is refuted by a run"


def judge(proved: bool, said: str) -> str:
    lower = re.findall(r"rt: the library (\w+) did not build", said)
    if proved:
        return "SURVIVED"
    if lower:
        return f"NOT SHOWN: refused below the monitor, in {lower[0]}"
    if "rt: mend these first" in said:
        return "NOT SHOWN: the changed code does not compile"
    errors = [line for line in said.splitlines() if "proofs/Counter.antt:" in line and ": error" in line]
    others = [line for line in errors if "`control`" not in line]
    if others or not errors:
        return f"refused, but NOT REFUTED: {others[0][:300] if others else 'the counterexample was not read'}"
    return REFUTED


def main() -> None:
    wanted = sys.argv[1:] or list(CHANGES)
    survived = []
    with tempfile.TemporaryDirectory() as name:
        folder = Path(name)
        make_copy(folder)
        proved, said = check(folder)
        if not proved:
            sys.exit("the unchanged monitor is not proved:\n" + said[-2000:])
        for change in wanted:
            apply(folder, CHANGES[change])
            set_counter(folder, COUNTERS[change])
            verdict = judge(*check(folder))
            if verdict != REFUTED:
                survived.append(change)
            print(f"{change}: {verdict}", flush=True)
            restore(folder, CHANGES[change])
    if survived:
        sys.exit(1)


main()
