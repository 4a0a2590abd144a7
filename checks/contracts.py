"""Holds what the documents name, such as calls, clauses, definitions and paths, to what the crates have."""
import functools
import os
import re

import sources
from sources import CRATES, TOP


# A step of a figure: a call, its crate, and the call's file.
HOP = re.compile(r"\W*([\w:]+) +(\w+) +(src/[\w/]+\.rt)\b")


def quoted(cell):
    return re.findall(r"`([^`]+)`", cell)


def tables(lines):
    """Each row of the tables of these lines: its number, the crate that the heading above it names, the table's head
    and the row's cells."""
    crate, head = "", None
    for number, line in enumerate(lines, 1):
        if line.startswith("#"):
            crate = (quoted(line) or [""])[0]
        if not line.startswith("|"):
            head = None
            continue
        cells = [it.strip() for it in line.strip().strip("|").split("|")]
        if head is None:
            head = cells
        elif not set(line) <= set("|-: "):
            yield number, crate, head, cells


def facts(lines):
    """Each row of the tables of facts: its number, its crate, whether it is in a table that is no crate's and has the
    crate in front, and the names in its four cells: call, promise, clause and definition."""
    for number, crate, head, cells in tables(lines):
        is_first = head[0] == "crate"
        if is_first:
            crate, cells = (quoted(cells[0]) or [""])[0], cells[1:]
        if is_first or head[0] == "call":
            yield number, crate, is_first, [quoted(it) for it in cells]


def functions(crate, call):
    """The functions of a crate that a document names."""
    return sources.crates()[crate].called(call) if crate in sources.crates() else []


@functools.lru_cache(maxsize=None)
def own_definitions(crate):
    """The definitions of a crate's specs, its types and its traits, each with the names of the files that have it."""
    found = {}
    for path in sources.files(f"{CRATES}/{crate}/specs", ".antt"):
        text = re.sub(r"--[^\n]*", "", sources.read(path))
        words = r"(?:(?:pub|abbrev|unfoldable|opaque|record|data)\s+)*"
        for name in re.findall(rf"(?m)^\s*{words}([^\s:(){{}},]+)\s*(?:[({{][^\n]*)?:(?=\s)", text):
            found.setdefault(name, set()).add(os.path.basename(path))
    for path in sources.files(f"{CRATES}/{crate}/src", ".rt"):
        for name in re.findall(r"(?m)^\s*(?:pub\s+)?(?:enum|struct|trait|type)\s+(\w+)", sources.read(path)):
            found.setdefault(name, set()).add(os.path.basename(path))
    return found


@functools.lru_cache(maxsize=None)
def definitions(crate):
    """The definitions of a crate's specs, its types and its traits, and those of the crates that it uses."""
    below = [definitions(it) for it in sources.uses()[crate] if it in sources.uses()]
    return set(own_definitions(crate)).union(*below)


@functools.lru_cache(maxsize=None)
def meanings():
    """What docs/DEFINITIONS.md has in bold: the line, the names, the crates and the files of its definitions. The
    crates are those that the brackets behind the names have, those of the heading where these have a file alone, and
    without brackets those of the names in front."""
    found, of_part = [], []
    for number, line in enumerate(sources.read(os.path.join(TOP, "docs", "DEFINITIONS.md")).split("\n"), 1):
        if line.startswith("#"):
            of_part = quoted(line)
        last = of_part
        for it in re.finditer(r"\*\*([^*]+)\*\*(?:\s*\(([^)]*)\))?", line):
            paths = re.findall(r"`([\w/]+\.(?:antt|rt))`", it[2] or "")
            heads = [one.split("/")[0] for one in [*paths, *quoted(it[2] or "")]]
            crates = [one for one in heads if one in sources.uses()]
            files = [os.path.basename(one) for one in paths]
            last = crates or (of_part if files else last)
            found.append((number, it[1].split(", "), last, files))
    return found


def told_files(crate):
    """The files of a crate that stand in a row of docs/ARCHITECTURE.md: its code, its definitions and its lemmas, but
    for those that list others, and for laws and tests."""
    lists, folder = ("lib", "main", "laws", "tests", "Lib"), f"{CRATES}/{crate}"
    lemmas = (it for it in sources.files(f"{folder}/proofs", ".antt") if os.path.dirname(it) == f"{folder}/proofs")
    found = [*sources.files(f"{folder}/src", ".rt"), *sources.files(f"{folder}/specs", ".antt"), *lemmas]
    return [os.path.relpath(it, folder) for it in found if os.path.basename(it).partition(".")[0] not in lists]


class Documents:
    """What the documents say of the crates, held to what these have."""

    def __init__(self):
        self.crates = sources.crates()
        self.wrong, self.facts = [], 0
        # Each crate, call and clause of a row of docs/PROVED.md, and those of its first part.
        self.rows, self.first = set(), set()

    def fact(self, place, crate, calls, clauses, names=()):
        """Holds one fact to the crate: each call has one of the clauses at least, each clause is one of them, and each
        name is that of a definition of the crate or of one below it."""
        self.facts += 1
        if crate not in self.crates:
            self.wrong.append(f"{place}: there is no crate {crate}")
            return
        had = [self.clauses(crate, call) for call in calls]
        self.wrong += [f"{place}: {crate} has no call {call}" for call, it in zip(calls, had) if it is None]
        self.wrong += [f"{place}: {call} of {crate} has no clause of {clauses}" for call, it in zip(calls, had)
                       if it is not None and not it & set(clauses)]
        every = set().union(*[it or set() for it in had])
        self.wrong += [f"{place}: {' and '.join(calls)} of {crate} lacks the clause {it}" for it in clauses
                       if it not in every]
        self.wrong += [f"{place}: neither {crate} nor a crate below it defines {it}" for it in names
                       if it.rpartition(".")[2] not in definitions(crate)]
        if not calls or not clauses:
            self.wrong.append(f"{place}: the row names no call, or no clause")

    def clauses(self, crate, call):
        """The names of what the functions ensure that this names, or None where there is none."""
        found = functions(crate, call)
        return set().union(*[it.promised() for it in found]) if found else None

    def tables(self, name):
        return tables(sources.read(os.path.join(TOP, name)).split("\n"))

    def proved(self):
        """docs/PROVED.md: rows of calls, what they promise, clauses and definitions."""
        lines = sources.read(os.path.join(TOP, "docs", "PROVED.md")).split("\n")
        self.wrong += [f"docs/PROVED.md:{number}: the row is in no table of calls"
                       for number, _, head, _ in tables(lines) if head[0] not in ("call", "crate")]
        self.wrong += [f"docs/PROVED.md:{number}: there is no crate {it}" for number, line in enumerate(lines, 1)
                       if line.startswith("#") for it in quoted(line) if it not in self.crates]
        for number, crate, is_first, names in facts(lines):
            place = f"docs/PROVED.md:{number}"
            if len(names) != 4:
                self.wrong.append(f"{place}: a row has four cells: call, promise, clause, definition")
                continue
            calls, _, clauses, stated = names
            self.fact(place, crate, calls, clauses, stated)
            rows = {(crate, call, clause) for call in calls for clause in clauses}
            self.rows |= rows
            self.first |= rows if is_first else set()

    def promises(self, name):
        """A document for users: in the table of what holds, the last cell names a crate, a call of it and its clauses,
        and so on behind a semicolon, each of which stands in a row of docs/PROVED.md; those of README.md in its first
        part."""
        rows, where = (self.first, "the first part of ") if name == "README.md" else (self.rows, "")
        for number, _, head, cells in self.tables(name):
            if head[-1] == "Clause":
                for part in cells[-1].split(";"):
                    crate, *names = quoted(part) or [""]
                    self.fact(f"{name}:{number}", crate, names[:1], names[1:])
                    self.wrong += [f"{name}:{number}: {where}docs/PROVED.md has no row of {crate}, {names[0]}, {it}"
                                   for it in names[1:] if (crate, names[0], it) not in rows]

    def statuses(self, name):
        """A document for users: its table of statuses has those that the program may end with, and no others."""
        with open(os.path.join(CRATES, "run_base", "specs", "Errors.antt"), encoding="utf-8") as text:
            known = {int(it) for it in re.findall(r"(?m)^(?:status_of|server_status) .* = (\d+)$", text.read())}
        told = {cells[0] for _, _, head, cells in self.tables(name) if head[0] == "Status"}
        if told != {str(it) for it in known}:
            self.wrong.append(f"{name}: the statuses are {sorted(told)}, and not {sorted(known)}")

    def architecture(self):
        """docs/ARCHITECTURE.md: in the tables of structures, a row names files and laws of its crate, and a section of
        docs/FORMATS.md, and each file of a crate stands in a row; in the glossary the last cell names crates."""
        named = {}
        with open(os.path.join(TOP, "docs", "FORMATS.md"), encoding="utf-8") as text:
            sections = [line[3:].strip() for line in text if line.startswith("## ")]
        for number, _, head, cells in self.tables("docs/ARCHITECTURE.md"):
            place = f"docs/ARCHITECTURE.md:{number}"
            if head[0] == "Word":
                self.wrong += [f"{place}: there is no crate {it}" for it in quoted(cells[-1]) if it not in self.crates]
            if head[0] != "Structure":
                continue
            crate = quoted(cells[1])[0]
            files = [path for cell in cells for path in quoted(cell) if "/" in path]
            self.wrong += [f"{place}: {crate} has no {path}" for path in files
                           if not os.path.exists(os.path.join(CRATES, crate, path))]
            if not any(it.startswith(cells[4]) for it in sections):
                self.wrong.append(f"{place}: docs/FORMATS.md has no section {cells[4]}")
            laws = quoted(cells[5])
            self.wrong += [f"{place}: {crate} has no law {law}" for law in laws if self.clauses(crate, law) is None]
            named.setdefault(crate, set()).update(files)
        self.wrong += [f"docs/ARCHITECTURE.md: no row of {crate} names {it}" for crate, had in named.items()
                       for it in told_files(crate) if it not in had]

    def defined(self):
        """docs/DEFINITIONS.md: the names in bold, but for plain words, are definitions of the crates and the files that
        stand with them, and its files are there."""
        for number, names, crates, files in meanings():
            had = {}
            for crate in crates:
                for name, its in own_definitions(crate).items():
                    had.setdefault(name, set()).update(its)
            for name in (it.rpartition(".")[2] for it in names if re.search(r"[A-Z_]", it)):
                its = had.get(name, set())
                if not its or files and not its & set(files):
                    place = ", ".join(files or crates)
                    self.wrong.append(f"docs/DEFINITIONS.md:{number}: {place} doesn't define {name}")
        specs = [path for it in self.crates for path in sources.files(f"{CRATES}/{it}/specs", ".antt")]
        for number, line in enumerate(sources.read(os.path.join(TOP, "docs", "DEFINITIONS.md")).split("\n"), 1):
            self.wrong += [f"docs/DEFINITIONS.md:{number}: no crate has {it}"
                           for it in re.findall(r"`([\w/]+\.antt)`", line)
                           if not any(path.endswith(f"/{it}") for path in specs)]

    def hops(self):
        """docs/ARCHITECTURE.md: a line of its figures that has a file names a call, its crate, and the call's file."""
        with open(os.path.join(TOP, "docs", "ARCHITECTURE.md"), encoding="utf-8") as lines:
            for number, line in enumerate(lines, 1):
                hop = HOP.match(line)
                if hop:
                    self.hop(f"docs/ARCHITECTURE.md:{number}", *hop.groups())

    def hop(self, place, call, crate, file):
        self.facts += 1
        if crate not in self.crates or self.clauses(crate, call) is None:
            self.wrong.append(f"{place}: {crate} has no call {call}")
            return
        with open(os.path.join(CRATES, crate, file), encoding="utf-8") as text:
            if not re.search(rf"\bfn {call.rpartition('::')[2]}\b", text.read()):
                self.wrong.append(f"{place}: {call} of {crate} doesn't stand in {file}")

    def paths(self, names):
        """Each path in backticks is there."""
        for name in names:
            with open(os.path.join(TOP, name), encoding="utf-8") as text:
                for path in quoted(text.read()):
                    is_path = re.match(r"(crates|docs|bench|checks|samples|tools|examples|\.ci)/[\w./-]+$", path)
                    if is_path and not os.path.exists(os.path.join(TOP, path)):
                        self.wrong.append(f"{name}: there is no {path}")
