#!/usr/bin/env python3
"""Runs `rt ci` at the top of the repository and says where its processor time went, crate by crate.

    bench/gate.py [LOG] [-- words for rt ci]     runs it; what it says goes to LOG (gate.log), what its processes took to LOG.times
    bench/gate.py --table LOG.times ..           prints the table of earlier runs; of each crate's proof, tests or edits the
                                                 last run counts that tried them

Times are processor minutes of the prover and the compilers, read from /proc while they run; a process that
ends between two looks loses at most the time between them (0.2 seconds). It stands outside the gate.
"""
import os
import subprocess
import sys
import time

LOOK = 0.2
TICK = os.sysconf("SC_CLK_TCK")
KINDS = ["proof", "tests", "edits"]


def facts(pid):
    """The session of a process, its processor seconds, its words and its folder; None where it has gone."""
    try:
        with open(f"/proc/{pid}/stat", encoding="utf-8", errors="replace") as it:
            rest = it.read().rpartition(")")[2].split()
        with open(f"/proc/{pid}/cmdline", "rb") as it:
            words = it.read().decode("utf-8", "replace").split("\0")
        return int(rest[3]), (int(rest[11]) + int(rest[12])) / TICK, words, os.readlink(f"/proc/{pid}/cwd")
    except (OSError, IndexError, ValueError):
        return None


def kind_of(words, folder):
    """What a process of the prover is at. A library is proved as it is built, a program and then compiled."""
    if "/rt-edit" in folder or "/rt-edits" in folder:
        return "edits"
    return "tests" if "--test" in words else "proof"


def watch(run, session):
    """The processor seconds of each process of a session: {(pid, crate, kind): seconds}."""
    took = {}
    while run.poll() is None:
        for pid in os.listdir("/proc"):
            found = facts(pid) if pid.isdigit() else None
            if not found or found[0] != session or "--crate-name" not in found[2]:
                continue
            _, seconds, words, folder = found
            crate = words[words.index("--crate-name") + 1]
            key = pid, crate, kind_of(words, folder)
            took[key] = max(seconds, took.get(key, 0))
        time.sleep(LOOK)
    return took


def sums(rows):
    """Adds lines `crate kind seconds` up: {(crate, kind): seconds}."""
    found = {}
    for crate, kind, seconds in rows:
        found[crate, kind] = found.get((crate, kind), 0.0) + float(seconds)
    return found


def table(found):
    """Prints sums as a Markdown table, in processor minutes, the dearest crate first."""
    took = {}
    for (crate, kind), seconds in found.items():
        took.setdefault(crate, dict.fromkeys(KINDS, 0.0))[kind] += seconds
    whole = {kind: sum(at[kind] for at in took.values()) for kind in KINDS}
    print("| Crate | Proof | Tests | Edits | All |\n|---|---|---|---|---|")
    for crate, at in [*sorted(took.items(), key=lambda it: -sum(it[1].values())), ("all", whole)]:
        cells = [f"{at[kind] / 60:.1f}" for kind in KINDS]
        print(f"| `{crate}` | {' | '.join(cells)} | {sum(at.values()) / 60:.1f} |")


def main(words):
    if words[:1] == ["--table"]:
        found = {}
        for name in words[1:]:
            with open(name, encoding="utf-8") as it:
                found.update(sums(line.split() for line in it))
        return table(found)
    own, _, more = " ".join(words).partition("--")
    log = own.strip() or "gate.log"
    os.chdir(os.path.join(os.path.dirname(os.path.abspath(__file__)), ".."))
    begun = time.time()
    with open(log, "w", encoding="utf-8") as out:
        run = subprocess.Popen(["rt", "ci", *more.split()], stdout=out, stderr=out, start_new_session=True)
        took = watch(run, run.pid)
    with open(f"{log}.times", "w", encoding="utf-8") as out:
        for (_, crate, kind), seconds in took.items():
            out.write(f"{crate} {kind} {seconds:.2f}\n")
    table(sums((crate, kind, seconds) for (_, crate, kind), seconds in took.items()))
    with open(log, encoding="utf-8") as it:
        print(f"\n{it.read().rstrip().rpartition(chr(10))[2]}, in {(time.time() - begun) / 60:.0f} minutes")
    return run.returncode


if __name__ == "__main__":
    sys.exit(main(sys.argv[1:]))
