#!/usr/bin/env python3
"""Shows that a program which makes a token outside its crate, and one which sends an out twice, don't compile.

Each program (NAME.txt, since the gate reads each .rt file) is checked as a crate above `decision_log`, in a copy of the
repository's crates. Run it at the top, once
`rt check` has passed in `crates/decision_log`: python3 refused/check.py
"""

import os
import pathlib
import shutil
import subprocess
import sys
import tempfile

# the program, and what the check says of it, or nothing where it is taken
PROGRAMS = [
    ("token_made_elsewhere", "private"),
    ("sent_twice", "moved"),
    ("sent_once", None),
]

NEEDS = ["at_base", "decision_log"]


def below(lines, names):
    """The crates that these stand on, and they themselves."""
    found = []
    for name in names:
        if name in lines and name not in found:
            found += [n for n in below(lines, lines[name]) if n not in found] + [name]
    return found


def copied(top, to, names, lines):
    """A repository of these crates alone; what was proved of them is shared."""
    (to / "crates").mkdir(parents=True)
    for name in names:
        source, target = top / "crates" / name, to / "crates" / name
        shutil.copytree(source, target, ignore=shutil.ignore_patterns("out"))
        if (source / "out" / "rlib").is_dir():
            (target / "out").mkdir()
            shutil.copytree(source / "out" / "rlib", target / "out" / "rlib", copy_function=os.link)
    text = "".join(f"{name}: {' '.join(lines[name])}\n" for name in names)
    (to / "crates.txt").write_text(text + f"refused: {' '.join(NEEDS)}\n")
    shutil.copy(top / "HANDLES", to / "HANDLES")


def says(to, program):
    """What the check says of a program, and whether it passes."""
    crate = to / "crates" / "refused"
    shutil.rmtree(crate, ignore_errors=True)
    for folder in ["src", "specs", "proofs"]:
        (crate / folder).mkdir(parents=True)
    (crate / "specs" / "Lib.antt").write_text("")
    (crate / "proofs" / "Lib.antt").write_text("")
    shutil.copy(program, crate / "src" / "lib.rt")
    run = subprocess.run(["rt", "check"], cwd=crate, capture_output=True, text=True)
    return run.returncode == 0, run.stdout + run.stderr


def main():
    top = pathlib.Path(__file__).resolve().parent.parent
    lines = {}
    for line in (top / "crates.txt").read_text().splitlines():
        name, colon, needs = line.partition(":")
        if colon and not line.startswith("#"):
            lines[name] = [n for n in needs.split() if (top / "crates" / n).is_dir()]
            lines[name] += [n for n in needs.split() if n not in lines[name]]
    wrong = 0
    with tempfile.TemporaryDirectory() as scratch:
        to = pathlib.Path(scratch) / "atx"
        names = [n for n in below(lines, NEEDS) if (top / "crates" / n).is_dir()]
        copied(top, to, names, lines)
        for name, error in PROGRAMS:
            passed, text = says(to, top / "refused" / f"{name}.txt")
            right = passed if error is None else not passed and "error" in text and error in text
            wrong += not right
            print(f"{name}: {'as wanted' if right else 'not as wanted'}")
            if not right:
                print(text)
    sys.exit(1 if wrong else 0)


main()
