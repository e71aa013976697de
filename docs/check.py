#!/usr/bin/env python3
"""Checks that what the documents name is there: files, crates, functions, clauses, definitions, options and links.

It reads README.md, CHANGELOG.md if there is one, docs/ and the comments of crates.txt. What stands between backquotes is a name:
of a file, from the top, from crates/ or from the folder of the crate that was named last; of a crate; of a function, a clause, a
definition, a field or a test in some crate; of an option of `atx`. In the tables of docs/CLAIMS.md a function is looked up in its row's
crate, and a clause in the contract of its function. The toolchain is named as `rt version` names it. Run it anywhere:
python3 docs/check.py

Each name that isn't there is printed, as FILE:LINE: what is missing, and the status is 1; else how many were checked, and it is 0.
"""

import pathlib
import re
import shutil
import subprocess
import sys

TOP = pathlib.Path(__file__).resolve().parent.parent

# Names that the documents rightly use and that stand in no file of the repository.
ELSEWHERE = {
    # of Rust's collections, and of XML and WS-Addressing
    "HashMap", "IndexMap", "Char", "IsReferenceParameter", "RelationshipType",
    # members of the JSON that a node shows
    "sent_ago", "aborted_ago", "answers_and_posts_lost", "requests_of_web_pages",
    # options of rt
    "--allow-holes", "--only",
    # what stands for a name
    "LawA", "LawB", "Conclusion", "laws::x", "lives::x",
}
EXTENSIONS = (".antt", ".rt", ".py", ".sh", ".txt", ".md", ".xml", ".schedule", ".edit")
WORD = re.compile(r"[A-Za-z_][A-Za-z0-9_]*")
FN = re.compile(r"^( *)(?:pub(?:\([a-z]+\))? )?(?:const )?fn (\w+)")
TYPE = re.compile(r"^ *(?:pub(?:\([a-z]+\))? )?(?:struct|enum|trait|type|const|static) (\w+)")
IMPL = re.compile(r"^impl(?:<.*?>)? (?:\w[\w:<>', ]* for )?(?:&mut )?(\w+)")
CLAUSE = re.compile(r"^ *(?:ensures|requires|invariant) (\w+) \{")
FOR = re.compile(r"^(?: {4}for |> )(\w+)<")
DEFINED = re.compile(r"^(?:(?:(?:pub|abbrev|unfoldable|opaque|data|record) )+([^\s:(){]+)| *(?:pub )?([^\s:(){]+) :(?: |$))")


class Crate:
    """What a crate defines: its modules, its functions by module and type with their clauses, and its other names."""

    def __init__(self, name, needs):
        self.name, self.needs = name, needs
        self.folder = TOP / "crates" / name
        self.modules, self.names, self.words = set(), set(), set()
        self.functions, self.types = {}, {}
        for file in sorted(self.folder.rglob("*")):
            if file.is_file() and "out" not in file.relative_to(self.folder).parts:
                self.read(file)

    def read(self, file):
        text = file.read_text(errors="replace")
        self.words.update(WORD.findall(text))
        if file.suffix == ".antt":
            self.names.add(file.stem)
            self.names.update(m.group(1) or m.group(2) for m in map(DEFINED.match, text.splitlines()) if m)
        elif file.suffix == ".rt":
            self.modules.update(file.relative_to(self.folder / "src").with_suffix("").parts)
            self.read_code(file.stem, text)

    def read_code(self, module, text):
        owner = clauses = None
        inside = False
        for line in text.splitlines():
            if m := FN.match(line):
                clauses = set()
                for place in [module] + ([owner] if m.group(1) and owner else []):
                    self.functions.setdefault((place, m.group(2)), []).append(clauses)
            elif m := FOR.match(line) or IMPL.match(line) or TYPE.match(line):
                owner = m.group(1)
                self.types.setdefault(owner, [])
            elif m := CLAUSE.match(line):
                self.names.add(m.group(1))
                if clauses is not None:
                    clauses.add(m.group(1))
                    self.types.setdefault(owner, []).append(m.group(1))
            inside = line != "}" and (inside or re.match(r"(?:pub(?:\([a-z]+\))? )?(?:struct|enum) ", line) is not None)
            if inside and (m := re.match(r" {4}(?:pub(?:\([a-z]+\))? )?(\w+)(?:,|: |\(| \{)", line)):
                self.names.add(m.group(1))

    def places_of(self, function):
        return [place for place, name in self.functions if name == function]

    def has(self, word):
        """Whether the crate defines it: a module, a function, a type, a clause, a field, or a definition."""
        return word in self.modules or word in self.names or word in self.types or bool(self.places_of(word))

    def has_path(self, parts):
        """Whether `module::function`, `Type::function`, `module::Type::function` or `Enum::Variant` is there."""
        if len(parts) == 1:
            return self.has(parts[0])
        place, last = parts[-2], parts[-1]
        if not all(part in self.modules or part in self.types for part in parts[:-1]):
            return False
        return (place, last) in self.functions or last in (self.names if place in self.types else self.types)

    def has_clause(self, head, clause):
        """Whether the contract of a function, or of one of a type's or a module's functions, has the clause or the function."""
        parts = head.split("::")
        if len(parts) == 1 and (head in self.modules or head in self.types) and (head, clause) in self.functions:
            return True
        found = [c for (place, name), all_of in self.functions.items() for c in all_of
                 if name == parts[-1] and (len(parts) == 1 or place == parts[-2])]
        return any(clause in clauses for clauses in found) or clause in self.types.get(head, [])


class House:
    """The repository, as the documents may name it."""

    def __init__(self):
        self.crates, self.others, self.layout = {}, set(), []
        for line in (TOP / "crates.txt").read_text().splitlines():
            if m := re.match(r"([a-z0-9_]+)(?: staticlib)?:(.*)", line):
                self.layout.append(m.group(1))
                self.crates[m.group(1)] = Crate(m.group(1), m.group(2).split())
        for crate in self.crates.values():
            self.others.update(need for need in crate.needs if need not in self.crates)
        self.files = {p.relative_to(TOP).as_posix() for p in TOP.rglob("*")
                      if not {".git", "out"} & set(p.relative_to(TOP).parts)}
        outside = [TOP / f for f in self.files if not f.startswith(("crates/", "docs/")) and f.endswith((".py", ".sh", "atx", "diagram"))]
        self.words = set().union(*(c.words for c in self.crates.values()), *(WORD.findall(f.read_text()) for f in outside))
        self.last = None

    def file(self, path, near):
        """Whether there is such a file or folder, from the top, from crates/, or in a crate that was named near it."""
        path = path.rstrip("/")
        if path in ("out", ""):
            return True
        places = ["", "crates/", "docs/", "docs/proving/", "bench/"]
        for name in near:
            places += [f"crates/{name}/", f"crates/{name}/src/", f"crates/{name}/specs/", f"crates/{name}/proofs/"]
        if not any(place + path + end in self.files for place in places for end in ("", ".antt", ".rt")):
            return False
        self.last = next((name for name in self.crates if path.startswith((name + "/", f"crates/{name}/"))), self.last)
        return True

    def stands_on(self, name, below):
        needs = self.crates[name].needs if name in self.crates else []
        return below in needs or any(self.stands_on(need, below) for need in needs)

    def defines(self, word, near):
        return any(self.crates[name].has(word) for name in near if name in self.crates) \
            or any(crate.has(word) for crate in self.crates.values())

    def has_path(self, parts):
        if parts[0] in self.crates:
            return self.crates[parts[0]].has_path(parts[1:])
        return any(crate.has_path(parts) for crate in self.crates.values())


def spread(text):
    """`a/{b, c}.d` as `a/b.d` and `a/c.d`."""
    m = re.search(r"\{([^{}]*)\}", text)
    if not m:
        return [text]
    return [each for part in m.group(1).split(",") for each in spread(text[:m.start()] + part.strip() + text[m.end():])]


class Document:
    """One text, read line by line. `near` are the crates that were named since the paragraph or the row began."""

    def __init__(self, house, path):
        self.house, self.path, self.near, self.checked, self.missing = house, path, [], 0, []
        self.home = ["at_model", "model_laws"] if path.name == "MODEL.md" else []
        self.claims = path.name == "CLAIMS.md"

    def miss(self, number, text):
        self.missing.append(f"{self.path.relative_to(TOP).as_posix()}:{number}: {text}")

    def read(self):
        fenced, head = False, []
        for number, line in enumerate(self.path.read_text().splitlines(), 1):
            if re.search(r"(?<![\w.])/(?:home|work|root|Users|tmp|opt)/\w", line):
                self.miss(number, "an absolute path of a machine")
            if line.startswith("```"):
                fenced = not fenced
            if fenced or line.startswith("    "):
                continue
            if not line.startswith("|"):
                head = []
            elif not head:
                head = cells(line)
            if not line.startswith("- "):
                self.near, self.house.last = [], None
            self.line(number, line, head)
            self.links(number, line)

    def line(self, number, line, head):
        rest = line
        self.beside = [name for name in ticked(line) if name in self.house.crates]
        if head and line.startswith("|"):
            row = cells(line)
            for title, cell in zip(head, row):
                if title in ("Crate", "Stands on") and ".." not in cell:
                    self.crates(number, cell, row[0] if title == "Stands on" else "")
            if self.claims and head[0] == "Crate" and len(row) == 3 and ticked(row[0]):
                self.functions(number, ticked(row[0])[0], row[2])
                rest = "|".join(row[:2])
        for inside in re.findall(r"\((`[a-z0-9_]+`: [^()]*)\)", rest):
            for part in re.split(r"; (?=[^;`]*`[a-z0-9_]+`: )", inside):
                name, told = part.split(": ", 1)
                self.functions(number, ticked(name)[0], told)
        for name in ticked(rest):
            self.name(number, name)

    def crates(self, number, cell, above):
        """A column of crates: each is one; and one that stands on another does so by crates.txt."""
        for name in ticked(cell):
            self.checked += 1
            if name not in self.house.crates:
                self.miss(number, f"no crate {name}")
            elif above and not any(self.house.stands_on(a, name) for a in ticked(above)):
                self.miss(number, f"by crates.txt {above} doesn't stand on {name}")

    def functions(self, number, name, text):
        """Functions and their clauses, as `f`, `T::g`: `clause`; `m`: `h`."""
        crate = self.house.crates.get(name)
        if crate is None:
            return
        self.near = [name]
        for inside in re.findall(r"\(([^()]*)\)", text):
            for path in ticked(inside):
                self.name(number, path)
        for part in re.sub(r"\([^()]*\)", "", text).split(";"):
            heads, colon, tails = part.partition("`:")
            heads = ticked(heads + "`" if colon else heads)
            for head in heads:
                self.checked += 1
                if not crate.has_path(head.split("::")):
                    self.miss(number, f"{name} has no {head}")
            for clause in ticked(tails):
                self.checked += 1
                if not any(crate.has_clause(head, clause) for head in heads):
                    self.miss(number, f"{name}: {', '.join(heads)} has no {clause}")

    def name(self, number, text):
        """One name between backquotes."""
        self.checked += 1
        house, near = self.house, self.near + [self.house.last] * bool(self.house.last) + self.home + self.beside
        bare = re.sub(r"\{[^{}]*\}", "", text)
        if text in house.crates:
            self.near.insert(0, text)
            house.last = text
        elif text in ELSEWHERE or text in house.others:
            pass
        elif " " in bare:
            self.command(number, text)
        elif text.startswith("-") and len(text) > 2:
            self.option(number, text)
        elif re.fullmatch(r"[\w.-]+(?:::[\w{}, ]+)+", text):
            for each in spread(text):
                if not house.has_path(each.split("::")):
                    self.miss(number, f"no {each}")
        elif "://" in text or ".." in text or not re.fullmatch(r"[\w./{}, -]+", text) or text.startswith(("/", ".")):
            self.checked -= 1
        elif "/" in text or text.endswith(EXTENSIONS):
            for each in spread(text):
                if not ("NAME" in each or house.file(each, self.cited(near, each))):
                    self.miss(number, f"no file {each}")
        elif re.fullmatch(r"[A-Za-z]\w*", text):
            self.word(number, text, near)
        else:
            self.checked -= 1

    def cited(self, near, path):
        """The crates in which a path without a crate may lie; a file alone is looked for in all."""
        return near if near and "/" in path else near + list(self.house.crates)

    def word(self, number, text, near):
        """A name in CamelCase or with an underscore is defined in a crate; another word occurs in one."""
        house = self.house
        strict = "_" in text.strip("_") or re.match(r"[A-Z][A-Za-z]*[a-z]", text)
        known = house.defines(text, near) or text in house.files
        if not known and not (text in house.words and (not strict or "proving" in self.path.parts)):
            self.miss(number, f"nothing defines {text}" if strict else f"no word {text}")

    def option(self, number, text):
        """An option of atx, whose name is one of those that the crate command_line gives `clap`, or of a script."""
        name = text.split()[0].split("=")[0]
        words = "".join(f.read_text() for f in (self.house.crates["command_line"].folder / "src").glob("*.rt"))
        scripts = "".join(f.read_text() for folder in ("bench", "docs") for f in (TOP / folder).glob("*.py") if f.name != "check.py")
        if not (name in ELSEWHERE or name in ("--help", "--version") or f'"{name[2:]}"' in words or f'"{name}"' in scripts):
            self.miss(number, f"no option {name}")

    def command(self, number, text):
        """A command, a line or an expression: its options, the files that it names, and its words, which occur somewhere."""
        words = text.split()
        if "/" not in text and not text.startswith(("rt ", "rattle-")):
            for word in sorted(set(re.findall(r"[A-Za-z_]\w{3,}", text))):
                if not word.isupper() and word not in self.house.words | ELSEWHERE:
                    self.miss(number, f"no word {word}")
        for word in words:
            if word.startswith("--") and len(word) > 2 and words[0] != "rt":
                self.option(number, word)
            elif "/" in word and word.endswith(EXTENSIONS) or word.startswith("./"):
                if not self.house.file(re.sub(r"^(\.\.?/)+", "", word), []):
                    self.miss(number, f"no file {word}")

    def links(self, number, line):
        for target in re.findall(r"\]\(([^)\s]+)\)", line):
            path, _, part = target.partition("#")
            if "://" in target:
                continue
            self.checked += 1
            to = self.path if not path else (self.path.parent / path)
            if not to.exists():
                self.miss(number, f"no file {target}")
            elif part and part not in anchors(to):
                self.miss(number, f"no heading {target}")


def cells(line):
    return [cell.strip() for cell in re.split(r" \|(?= |$)", line.strip()[1:])[:-1]]


def ticked(text):
    return re.findall(r"`([^`\n]+)`", text)


def anchors(path):
    heads = re.findall(r"^#+ (.*)$", path.read_text(), flags=re.M)
    return {re.sub(r"[^\w -]", "", head.lower()).replace(" ", "-") for head in heads}


def rows(house):
    """Each crate has one row in docs/ARCHITECTURE.md, in the order of crates.txt; each folder of crates/ stands in crates.txt."""
    missing, found, inside = [], [], False
    for number, line in enumerate((TOP / "docs/ARCHITECTURE.md").read_text().splitlines(), 1):
        if line.startswith("| Crate |"):
            inside = True
        elif inside and line.startswith("| `"):
            found += [(name, number) for name in ticked(cells(line)[0])]
        elif not line.strip():
            continue
        elif not line.startswith("|"):
            inside = False
    place = {name: at for at, name in enumerate(house.layout)}
    before = None
    for name, number in found:
        if before is not None and place.get(name, -1) < place.get(before, -1):
            missing.append(f"docs/ARCHITECTURE.md:{number}: {name} stands before {before} in crates.txt")
        before = name
    for name in house.layout:
        if (times := [n for n, _ in found].count(name)) != 1:
            missing.append(f"docs/ARCHITECTURE.md:1: {name} has {times} rows")
    for folder in sorted((TOP / "crates").iterdir()):
        if folder.is_dir() and folder.name not in house.crates:
            missing.append(f"crates.txt:1: no line for crates/{folder.name}")
    for name, crate in house.crates.items():
        if not crate.folder.is_dir():
            missing.append(f"crates.txt:1: no folder crates/{name}")
    return missing, len(found) + len(house.crates)


def comments(house):
    """Files that the comments of crates.txt name."""
    missing, checked = [], 0
    for number, line in enumerate((TOP / "crates.txt").read_text().splitlines(), 1):
        for path in re.findall(r"[\w./-]+/[\w.-]*\w", line) if line.startswith("#") else []:
            checked += 1
            if not house.file(path, []):
                missing.append(f"crates.txt:{number}: no file {path}")
    return missing, checked


def toolchain():
    """Places that name the toolchain otherwise than `rt version` does, where that is there."""
    if not shutil.which("rt"):
        return [], 0
    said = subprocess.run(["rt", "version"], capture_output=True, text=True).stdout.strip()
    missing, checked = [], 0
    for name in ("README.md", "docs/CLAIMS.md", "crates/command_line/src/commands.rt"):
        for number, line in enumerate((TOP / name).read_text().splitlines(), 1):
            for found in re.findall(r"rattle-kit-\w+ logic \w+", line):
                checked += 1
                if found != said:
                    missing.append(f"{name}:{number}: {found}, and rt version says {said}")
    return missing, checked


def main():
    if len(sys.argv) > 1:
        print("usage: check.py", file=sys.stderr)
        sys.exit(2)
    house = House()
    missing, checked = [], 0
    texts = [TOP / "README.md", TOP / "CHANGELOG.md", *sorted((TOP / "docs").rglob("*.md"))]
    for path in texts:
        if path.exists():
            document = Document(house, path)
            document.read()
            missing += document.missing
            checked += document.checked
    for more, number in (rows(house), comments(house), toolchain()):
        missing += more
        checked += number
    for line in missing:
        print(line)
    if missing:
        sys.exit(1)
    print(f"{checked} names checked")


main()
