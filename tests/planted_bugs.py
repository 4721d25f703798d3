"""Tries every planted bug, one at a time, on a copy of the repository; the prover must refuse each.

    python3 tests/planted_bugs.py [--outside] [CRATE ..]

The bugs are crates/NAME/must-fail/*.edit, which the gate tries too, and planted/NAME/*.edit, which it leaves out;
with --outside only the latter. `rt must-fail` tries them, a crate at a time, and its lines are printed. An edit is
refused if the prover finds a function that no longer meets its contract: one that does not fit or compile, or that
is refused only by a limit or for a name that a proof cites, counts as a survivor. Ends with status 1 if one survives.
What an earlier run tried is not tried again until something changes that it stands on.
"""

import re
import shutil
import subprocess
import sys
import tempfile
from pathlib import Path

ROOT = Path(__file__).resolve().parent.parent
REFUSED = re.compile(r"^rt: must-fail \S+/(\S+)\.edit: refused, as it must be(?! \()", re.MULTILINE)


def edits(outside, crates):
    """The edit files by crate."""
    places = ["planted/*/*.edit"] if outside else ["crates/*/must-fail/*.edit", "planted/*/*.edit"]
    found = {}
    for pattern in places:
        for path in sorted(ROOT.glob(pattern)):
            crate = path.relative_to(ROOT).parts[1]
            if not crates or crate in crates:
                found.setdefault(crate, []).append(path)
    return found


def copied(folder):
    """A copy of what a check reads, with no edits in it."""
    shutil.copytree(ROOT / "crates", folder / "crates", ignore=shutil.ignore_patterns("out", "must-fail"))
    for name in ["crates.txt", "HANDLES"]:
        if (ROOT / name).exists():
            shutil.copy(ROOT / name, folder)


def refused(folder, crate, paths):
    """The names of the edits that are refused."""
    place = folder / "crates" / crate / "must-fail"
    place.mkdir()
    for path in paths:
        to = place / path.name
        if to.exists() and to.read_text() != path.read_text():
            raise SystemExit(f"{path}: another bug has this name")
        shutil.copy(path, to)
    run = subprocess.run(["rt", "must-fail", crate], cwd=folder, stdout=subprocess.PIPE, stderr=subprocess.STDOUT, text=True)
    print(run.stdout, end="", flush=True)
    return set(REFUSED.findall(run.stdout))


def main():
    crates = [word for word in sys.argv[1:] if word != "--outside"]
    count, survived = 0, []
    with tempfile.TemporaryDirectory() as folder:
        copied(Path(folder))
        for crate, paths in edits("--outside" in sys.argv[1:], crates).items():
            names = {path.stem for path in paths}
            left = names - refused(Path(folder), crate, paths)
            count += len(names)
            survived += [f"{crate}/{name}" for name in sorted(left)]
    for name in survived:
        print(f"{name}: SURVIVED")
    print(f"{count - len(survived)} refused, {len(survived)} survived")
    sys.exit(bool(survived))


if __name__ == "__main__":
    main()
