"""Finds the rows and the lines of the documents that tell of a function, a definition, a file or a name of the code."""
import collections
import functools
import os
import re

import calls
import contracts
import members
import sources
import stated
import tested
from sources import CRATES, TOP

# The documents whose lines name files and calls of the code as it goes.
PAGES = ("README.md", "docs/ARCHITECTURE.md", "docs/CONTRIBUTING.md", "docs/FORMATS.md", "docs/MANUAL.md",
         "docs/DECISIONS.md")

# A line of a document: its place, the heading that it stands under, its text, what it has in backticks, and the crates
# that it names.
Line = collections.namedtuple("Line", "place heading text words crates")


def page(name):
    return stated.lines_of(os.path.join(TOP, name))


# Rows on functions and on definitions.

@functools.lru_cache(maxsize=None)
def facts():
    """The rows of docs/PROVED.md by the functions that they name, each with the clauses that it names."""
    found = {}
    for number, crate, _, names in contracts.facts(page("docs/PROVED.md")):
        for call in names[0] if names else []:
            for it in contracts.functions(crate, call):
                found.setdefault(it, {})[number] = names[2] if len(names) > 2 else []
    return found


def rows_of(function, clause=None):
    """The rows of docs/PROVED.md on a function, or on a clause of it, on one line; nothing where there are none."""
    return at_rows(it for it, clauses in facts().get(function, {}).items() if clause is None or clause in clauses)


def at_rows(numbers):
    """Rows of docs/PROVED.md on one line, those that follow each other as one; nothing where there are none."""
    numbers, found = sorted(numbers), []
    for first in (it for it in numbers if it - 1 not in numbers):
        last = first
        while last + 1 in numbers:
            last += 1
        found.append(f"{first} to {last}" if last > first else str(first))
    return f"docs/PROVED.md:{', '.join(found)}" if found else ""


def meaning_of(name, crate, path):
    """The lines of docs/DEFINITIONS.md that tell a definition: by its name, its crate and, where one is named, its
    file."""
    return [f"docs/DEFINITIONS.md:{number}" for number, names, crates, files in contracts.meanings()
            if name in names and crate in crates and (not files or os.path.basename(path) in files)]


def meanings_of(definitions):
    """The lines of docs/DEFINITIONS.md on definitions, each with the names that it tells."""
    found = {}
    for it in definitions:
        for line in meaning_of(it.name, it.crate, it.path):
            found.setdefault(line, []).append(it.name)
    return [f"{line} ({', '.join(dict.fromkeys(names))})" for line, names in found.items()]


def levels_above(function):
    """The functions from which calls lead to a function, but for those of tests, the nearest first: those that are
    equally far as one, each with the one that it calls."""
    level, seen = {function: None}, {function}
    while level:
        steps = [(it, one) for one in level for it in tested.steps_up(one)]
        level = {it.function: one for it, one in reversed(steps)
                 if it.function not in seen and not tested.is_test_file(it.crate, it.file.path)}
        seen.update(level)
        yield dict(reversed(level.items()))


# How many levels above the nearest functions with rows one is looked for that has one on a definition asked about; and
# how many files of code may name a definition for it to tell something of a row.
FURTHER, TELLING = 2, 30


def rows_above(function, definitions):
    """The nearest functions with rows of docs/PROVED.md from which calls lead to a function, and those above them up to
    the first with a row on these definitions: each with its rows, the ones on the definitions first; and of a
    function's impl the laws on what that gives."""
    found, left = [], FURTHER
    for level in levels_above(function):
        members_too = [one for it in level for one in (it, members.member_of(it), *laws_on(it, members.member_of(it)))]
        has_rows = [it for it in dict.fromkeys(members_too) if it in facts()]
        found += [(it, *rows_by(it, definitions)) for it in has_rows]
        left -= bool(found)
        if not left or any(on for _, on, _ in found):
            break
    return sorted(found, key=lambda it: not it[1])


def rows_by(function, definitions):
    """The rows of a function whose clauses name these definitions or one that they name, or unfold to such, by their
    names, those first that are named themselves, and by the fewest files; and the others."""
    wanted = {key: (steps, stated.spread(it.name)) for key, (it, steps) in stated.unfolded(definitions, 1).items()
              if it.path.endswith(".antt") and stated.spread(it.name) <= TELLING}
    by_names, others, order = {}, [], {}
    for number, clauses in facts()[function].items():
        texts = members.texts_of(function, members.member_of(function), clauses)
        stated_here = [it for file, text in texts for it in stated.stated_by(file, text)]
        shared = [key for key in stated.unfolded(stated_here) if key in wanted]
        nearest = min((wanted[key][0] for key in shared), default=0)
        names = [key[1] for key in sorted(shared, key=wanted.get) if wanted[key][0] == nearest]
        order.update((name, wanted[path, name]) for path, name in shared)
        if names:
            by_names.setdefault(tuple(names), []).append(number)
        else:
            others.append(number)
    return dict(sorted(by_names.items(), key=lambda it: order[it[0][0]])), others


def has_laws(file):
    """Whether a file has laws: `src/laws.rt`, or one such as `src/session_laws.rt`."""
    return file.module == "laws" or file.module.endswith("_laws")


def laws_on(function, member):
    """The laws of a function's crate that say something of what its impl gives."""
    said = {(it.name, it.path) for text in members.given(function, member).values()
            for it in stated.stated_by(function.file, text)}
    return [it for it in sources.crates()[calls.homes()[function]].functions if has_laws(it.file) and said
            and any((one.name, one.path) in said for clause in it.clauses
                    for one in stated.stated_by(it.file, clause.text))]


# Requests.

@functools.lru_cache(maxsize=None)
def steps():
    """The functions that are a step in a figure of docs/ARCHITECTURE.md, each with its lines and their headings."""
    found, heading = {}, ""
    for number, line in enumerate(page("docs/ARCHITECTURE.md"), 1):
        heading = line.lstrip("# ") if line.startswith("#") else heading
        hop = contracts.HOP.match(line)
        for it in contracts.functions(hop[2], hop[1]) if hop else []:
            said = " ".join(line[hop.end():].split())
            found.setdefault(it, []).append(f"docs/ARCHITECTURE.md:{number} ({heading}{': ' * bool(said)}{said})")
    return {it: ", ".join(its) for it, its in found.items()}


def step_above(function):
    """The nearest step of a figure from which calls lead to a function, and the functions on the way down to it; or
    None."""
    if function in steps():
        return steps()[function], [function]
    below = {}
    for level in levels_above(function):
        below.update(level)
        found = next((it for it in level if it in steps()), None)
        if found:
            way = [found]
            while way[-1] is not function:
                way.append(below[way[-1]])
            return steps()[found], way
    return None


# Structures, and other lines.

@functools.lru_cache(maxsize=None)
def heading_of(name, words):
    """The line of a document's heading that begins so, and the words."""
    numbers = [number for number, it in enumerate(page(name), 1) if it.startswith(f"## {words}")]
    return f"{name}:{numbers[0]} ({words})" if numbers else f"{name}, {words}"


def structures(crate, path=None):
    """The rows of docs/ARCHITECTURE.md that name the file, or else the crate, with the headings of docs/FORMATS.md that
    they have; and the line that tells what the crate is."""
    its = path and os.path.relpath(path, f"{CRATES}/{crate}")
    for number, _, head, cells in contracts.tables(page("docs/ARCHITECTURE.md")):
        if head[0] == "Structure" and f"`{crate}`" in cells[1] and (path is None or f"`{its}`" in cells[2]):
            yield f"docs/ARCHITECTURE.md:{number} ({cells[0]})"
            if cells[4]:
                yield heading_of("docs/FORMATS.md", cells[4])
    if path is None:
        yield from (f"docs/ARCHITECTURE.md:{number} (the crate)"
                    for number, it in enumerate(page("docs/ARCHITECTURE.md"), 1) if it.startswith(f"- `{crate}`: "))


@functools.lru_cache(maxsize=None)
def lines():
    """The lines of the documents but for the rows of structures, of which `structures` tells."""
    rows = {number for number, _, head, _ in contracts.tables(page("docs/ARCHITECTURE.md")) if head[0] == "Structure"}
    found = []
    for name in PAGES:
        heading = ""
        for number, text in enumerate(page(name), 1):
            heading = text.lstrip("# ") if text.startswith("#") else heading
            if name != "docs/ARCHITECTURE.md" or number not in rows:
                crates = [it for it in re.findall(r"\w+", text) if it in sources.uses()]
                found.append(Line(f"{name}:{number}", heading, text, contracts.quoted(text), crates))
    return found


def told(found):
    """These lines, each with its heading, and those below one heading of a document as one."""
    by_heading = {}
    for it in found:
        by_heading.setdefault((it.place.partition(":")[0], it.heading), []).append(it.place.partition(":")[2])
    return [f"{name}:{', '.join(dict.fromkeys(its))} ({heading})" for (name, heading), its in by_heading.items()]


def on_command(said):
    """What docs/MANUAL.md and docs/FORMATS.md have of a command, where a comment begins with its words."""
    word = re.match(r"(?:The command )?`(\w+)[^`]* [A-Z:]", said)
    pages = ("docs/MANUAL.md", "docs/FORMATS.md")
    return told(it for it in lines() if word and it.place.startswith(pages)
                and re.match(rf"(?:#+|\|) `{word[1]}\b", it.text))


def names_file(line, crate, path):
    """Whether a line names a file, by its path or, where its crate is the last that stands before it and has it, by its
    name alone."""
    name, its = os.path.basename(path), os.path.relpath(path, CRATES)
    for it in re.finditer(rf"([\w/]*)\b{re.escape(name)}\b", line.text):
        if "/" in it[1] and (it[0].endswith(its) or re.match(r"\W*[\w:]+ +" + crate + " +src/", line.text)):
            return True
        before = [one for one in re.findall(r"\w+", line.text[:it.start()]) if one in sources.uses()
                  and os.path.exists(f"{CRATES}/{one}/src/{name}")]
        if not it[1] and before and before[-1] == crate and path == f"{CRATES}/{crate}/src/{name}":
            return True
    return False


def on_file(crate, path):
    """The lines that name a file."""
    return told(it for it in lines() if os.path.basename(path) in it.text and names_file(it, crate, path))


def on_function(crate, function):
    """The lines that name a function, with its crate or, where no other crate has one of its name, without."""
    name = function.called()
    others = [it for it in sources.uses() if it != crate and contracts.functions(it, name)]
    hop = re.compile(rf"\W*{re.escape(name)} +{crate} +src/")
    return told(it for it in lines() if hop.match(it.text) or name in it.words
                and (crate in it.crates or not others) and function in contracts.functions(crate, name))


def on_name(crate, name, is_only):
    """The lines that name a type, a constant or a case, with its crate or, where this is the only one, without."""
    return told(it for it in lines() if name in it.words and (is_only or crate in it.crates))


def on_case(type_name, case):
    """The lines that name a case of a type, and the type."""
    return told(it for it in lines() if f"{type_name}::{case}" in it.words or {type_name, case} <= set(it.words))


# Tests.

def whole_paths(text):
    """A text on files, with the whole path of each file that is said to stand beside the one before it."""
    words, folder = text.split(" "), ""
    for number, word in enumerate(words):
        folder = (re.match(r"\W*(crates/[\w/]+/)(?=\w+\.rt)", word) or ["", folder])[1]
        words[number] = re.sub(r"(?<![\w/])\w+\.rt\b", lambda it: folder + it[0], word) if folder else word
    return " ".join(words)


def on_tests(path):
    """The lines of docs/MANUAL.md that tell what the tests of a file show, and those of docs/ARCHITECTURE.md that name
    it as where a crate's calls are tested."""
    found = [it for it in lines() if os.path.relpath(path, TOP) in whole_paths(it.text)]
    headings = [f"tests of {it.words[0]}" if it.text.startswith("- `") else it.heading for it in found]
    return [f"{it.place} ({heading})" for it, heading in zip(found, headings)]
