#!/usr/bin/env python3
"""Draws the layers of crates.txt as a diagram in Mermaid: each with the number of its crates, and what it stands on.

A layer is a comment of crates.txt with the crates behind it. It stands on another where a crate of it does; an arrow is left out where
others lead there too.

    python3 docs/house.py            prints the diagram
    python3 docs/house.py --write    puts it into docs/ARCHITECTURE.md, between its two marks
    python3 docs/house.py --check    status 1 where what stands there is another
"""

import pathlib
import re
import sys

TOP = pathlib.Path(__file__).resolve().parent.parent
DOCUMENT = TOP / "docs/ARCHITECTURE.md"
FIRST, LAST = "<!-- the layers, drawn by docs/house.py -->", "<!-- the end of the layers -->"


def layers(text):
    """The layers in order, each with its crates and what these stand on."""
    found, title = {}, None
    for line in text.splitlines():
        if line.startswith("# "):
            title = line[2:].split(":")[0]
        elif m := re.match(r"([a-z0-9_]+)(?: staticlib)?:(.*)", line):
            found.setdefault(title, {})[m.group(1)] = m.group(2).split()
    return found


def arrows(found):
    """What each layer stands on."""
    home = {crate: title for title, crates in found.items() for crate in crates}
    return {title: {home[need] for needs in crates.values() for need in needs if need in home} - {title}
            for title, crates in found.items()}


def reached(below, title):
    """All that a layer stands on, by others too."""
    return below[title] | {far for near in below[title] for far in reached(below, near)}


def reduced(below):
    return {title: [near for near in below if near in below[title] and
                    not any(near in reached(below, other) for other in below[title])] for title in below}


def diagram(found):
    lines = ["flowchart TD"]
    names = {title: title.lower().replace(" ", "_") for title in found}
    for title in reversed(found):
        count = len(found[title])
        lines.append(f'    {names[title]}["{title}<br>{count} crate{"" if count == 1 else "s"}"]')
    kept = reduced(arrows(found))
    lines += [f"    {names[title]} --> {names[near]}" for title in reversed(found) for near in reversed(kept[title])]
    return "\n".join(lines)


def block(found):
    return f"{FIRST}\n```mermaid\n{diagram(found)}\n```\n{LAST}"


def main():
    words = sys.argv[1:]
    if words not in ([], ["--write"], ["--check"]):
        print("usage: house.py [--write | --check]", file=sys.stderr)
        sys.exit(2)
    found = layers((TOP / "crates.txt").read_text())
    if not words:
        print(diagram(found))
        return
    text = DOCUMENT.read_text()
    before, first, rest = text.partition(FIRST)
    inside, last, behind = rest.partition(LAST)
    if not first or not last:
        print(f"house.py: docs/ARCHITECTURE.md lacks the marks {FIRST} and {LAST}", file=sys.stderr)
        sys.exit(1)
    drawn = before + block(found) + behind
    if words == ["--write"]:
        DOCUMENT.write_text(drawn)
    elif drawn != text:
        print("house.py: the layers in docs/ARCHITECTURE.md aren't those of crates.txt: python3 docs/house.py --write", file=sys.stderr)
        sys.exit(1)


main()
