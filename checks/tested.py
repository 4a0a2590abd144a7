"""Finds the tests from which calls lead to a function, and what rows of tables lead there.

A test of tables goes by functions that look at a case of its rows, as `Act::Commit`, in a `match`, or at the word of a
command. So a way from a test that goes by the arm of such a case is one of this test only where a table on it has the
case; and one that goes by a call of a trait only where a file on it names the type whose impl is called.
"""
import collections
import functools
import os
import re

import calls
import layers
import sources
from sources import CRATES

# How many functions, each with what is wanted above it, are looked at for the tests of one at most.
MOST = 3000
# What stands in front of a row of a test's table that names what leads to a call.
ROW = "; its row"
# The head of an arm of a `match`, whose fields may have a line each.
ARM = re.compile(r"( *)(?:\w+::)*([A-Z]\w*)::([A-Z]\w*)\b(?:.*=>| \{\n(?: *[\w:, ]+\n)+ *\} =>)")
# The head of an arm for what no other arm has.
REST = re.compile(r"( *)(?:_|[a-z]\w*)(?: if .*)? =>")
# A call of a command stands here, in the arm of the command's case.
COMMANDS = f"{CRATES}/vt_commands/src/program.rt"

# What the functions above a call have to have, if a way by it is one of theirs: a table with this, or a file.
Want = collections.namedtuple("Want", "pattern is_of_file")


def is_test_file(crate, path):
    """Whether a file is one of tests: those of a crate of tests, and those of a crate with tests of its own."""
    return crate in layers.tests() or os.path.basename(path) == "tests.rt"


@functools.lru_cache(maxsize=None)
def is_test(function):
    """Whether a function is a test."""
    lines = function.file.lines[function.first - 1:function.line]
    return any(it.strip() == "#[test]" for it in lines)


@functools.lru_cache(maxsize=None)
def reach(crate):
    """The crate, and all that it uses, in one step or in several."""
    return {crate}.union(*[reach(it) for it in sources.uses().get(crate, [])])


def steps_up(function):
    """The calls by which one comes from a function to those above it: those of which the type is known, or else those
    by the trait, or else those that were found by name."""
    found = calls.calls(function)
    known = [it for it in found if it.how != calls.NAME] or found
    return [it for it in known if it.function is not function]


# Tables, and the cases in them.

def constant(file, name):
    """The constant of this name of a file, or None."""
    return next((it for it in file.items if it.name == name and it.kind in ("const", "static")), None)


@functools.lru_cache(maxsize=None)
def constants(its):
    """The constants of its file that a function or a constant names, or that one of those names."""
    file, found, left = its.file, [], [its]
    while left:
        one = left.pop(0)
        text = file.code[file.starts[one.line - 1]:(file.starts + [len(file.code)])[one.last]]
        named = [constant(file, it) for it in re.findall(r"\b[A-Z][A-Z0-9_]*\b", text)]
        new = [it for it in dict.fromkeys(named) if it and it not in found and it is not its]
        found, left = found + new, left + new
    return found


@functools.lru_cache(maxsize=None)
def tables(function):
    """The lines of a function and of the constants that belong to it, but for comments: the number of each, and its
    text."""
    lines = function.file.lines
    numbers = dict.fromkeys(number for it in [function, *constants(function)] for number in range(it.line, it.last + 1))
    return [(it, lines[it - 1]) for it in numbers if not lines[it - 1].lstrip().startswith("//")]


@functools.lru_cache(maxsize=None)
def arm_at(call):
    """The type and the case of the `match` in whose arm a call stands, or nothing; that of the rest has no case."""
    file = call.file
    indent = len(file.lines[call.line - 1]) - len(file.lines[call.line - 1].lstrip())
    for number in range(call.line, call.function.line, -1):
        rest, arm = REST.match(file.lines[number - 1]), ARM.match(file.code, file.starts[number - 1])
        if rest and len(rest[1]) <= indent:
            return "", ""
        if arm and len(arm[1]) <= indent:
            return arm[2], arm[3]
    return "", ""


@functools.lru_cache(maxsize=None)
def case_at(call):
    """The case of a type of tests in whose arm a call stands, or the word for which a command is called, as it is
    wanted of a table; or None."""
    kind, case = arm_at(call)
    if call.file.path == COMMANDS and case:
        said = re.search(rf"/// `(\w+)[^`]*`\n(?:\s*//[^\n]*\n)*\s*{case}\b",
                         sources.read(f"{CRATES}/vt_cli/src/command.rt"))
        return Want(f'"{said[1]}"', False) if said else None
    its = calls.type_in(call.crate, kind, call.file) if is_test_file(call.crate, call.file.path) and case else None
    is_of_tests = its is not None and is_test_file(its.crate, its.file.path)
    return Want(rf"\b{case}\b(?!.*=>)", False) if is_of_tests else None


@functools.lru_cache(maxsize=None)
def names_of(name):
    """A type's name, and the other names that it has."""
    others = [it.name for its in calls.types().values() for it in its if it.kind == "type"
              and re.search(rf"\b{name}\b", it.file.code[it.at:it.file.semicolon(it.at)])]
    return "|".join([name, *others])


def type_at(call, callee):
    """The type whose impl is called by its trait, as it is wanted of a file; or None."""
    is_impl = call.how == calls.TRAIT and callee.trait and callee.subject in calls.types()
    return Want(rf"\b(?:{names_of(callee.subject)})\b", True) if is_impl else None


@functools.lru_cache(maxsize=None)
def line_with(function, want):
    """The first line of a function's tables that has what is wanted, but for the arms of a `match`, or of its file; or
    None."""
    if want.is_of_file:
        found = re.search(want.pattern, function.file.code)
        return function.file.line(found.start()) if found else None
    return next((number for number, text in tables(function) if re.search(want.pattern, text)), None)


def row_on(way):
    """The row of the deepest table on a way that has the case by which the way goes: its file, and its line."""
    for number, call in enumerate(way):
        case = case_at(call)
        for above in (it.function for it in way[number + 1:] if case):
            if line_with(above, case):
                return above.file, line_with(above, case)
    return None


# Ways.

class Ways:
    """The ways from tests to a function."""

    def __init__(self, function):
        # The ways to functions, each by what is wanted of the functions above; and of these the tests of which nothing
        # is, and the others.
        self.known, self.tests, self.others = {(function, frozenset()): []}, {}, {}
        level = list(self.known)
        while level and len(self.known) < MOST:
            level = [above for it in level for above in self.above(*it)]

    def above(self, function, wants):
        """The functions that call one of these, with what is wanted above them."""
        for call in steps_up(function):
            # (the table with a case stands above its arm, and the type may be named in the same file)
            left = {it for it in [*wants, type_at(call, function)] if it and not line_with(call.function, it)}
            left |= {case_at(call)} - {None}
            state = call.function, frozenset(left)
            if state not in self.known:
                self.known[state] = [*self.known[function, wants], call]
                if is_test(call.function):
                    (self.others if left else self.tests).setdefault(call.function, self.known[state])
                yield state


def is_near(test, near):
    """Whether a test stands in a file or a folder that is named for the tests."""
    return any(it in test.file.path for it in re.findall(r"crates/[\w/]+(?:\.rt)?", near))


def comes_to(function):
    """The functions of no tests to which calls lead down from one of tests, by others of tests, but for those in arms
    of cases that no table on the way has."""
    found, left, seen = {}, [(function,)], {function}
    while left:
        way = left.pop(0)
        for callee, lines in calls.callees(way[-1]).items():
            cases = [case_at(calls.Call(calls.homes()[way[-1]], way[-1], way[-1].file, it, calls.SURE)) for it in lines]
            if not any(it is None or any(line_with(one, it) for one in way) for it in cases):
                continue
            for it in [callee, *calls.standing_for(callee)]:
                if not is_test_file(calls.homes()[it], it.file.path):
                    found.setdefault(callee)
                elif it not in seen:
                    seen.add(it)
                    left.append((*way, it))
    return list(found)


# Rows.

def text_from(file, first, last):
    return " ".join(it.strip() for it in file.lines[first - 1:last])


def row_of(test, way):
    """Where the row of a table names what leads to a call; else the line with a text that says what is tested, or
    that of the test by which it comes there."""
    row = row_on(way)
    if row:
        file, first = row
        # (a row whose words have a line each, from its bracket on)
        has_lines = file.lines[first - 1].strip().startswith('"') and file.lines[first - 2].rstrip().endswith("[")
        text = text_from(file, first - 1, first + 3) if has_lines else text_from(file, first, first)
        of_file = "" if file is test.file else f" of {os.path.basename(file.path)}"
        return f"{ROW}, line {first - has_lines}{of_file}: {text}"
    named = next((it for it in way if is_test_file(it.crate, it.file.path) and '"' in it.file.lines[it.line - 1]), None)
    if named:
        text = text_from(named.file, named.line, named.line)
        return f"; line {named.line} of {os.path.basename(named.file.path)}: {text}"
    last = first = way[-1].line
    # (where the name stands alone on its line, from the line of the call that it is handed to)
    while "(" not in test.file.lines[first - 1] and first > max(test.line, last - 8):
        first -= 1
    return f"; line {first}: {text_from(test.file, first, last)}"


def row_naming(test, way, cases):
    """The row or the pattern of a test, or of a function of tests on its way, that names one of these cases."""
    want = Want("|".join(rf"\b{it.owner.name}::{it.name}\b" for it in cases), False)
    for it in [test, *(call.function for call in way)] if cases else []:
        number = line_with(it, want) if is_test_file(calls.homes()[it], it.file.path) else None
        if number:
            return f"{ROW}, line {number} of {os.path.basename(it.file.path)}: {text_from(it.file, number, number)}"
    return ""


def fake_on(function, way):
    """The impl of a trait by tests, in a file on a way, which may be what the way comes to in place of one of the
    code."""
    files = {it.file for it in way if is_test_file(it.crate, it.file.path)} if calls.is_member(function) else ()
    return next((it for it in calls.standing_for(function) if it.file in files), None)


def has_case(test, way, case):
    """Whether a table of a test, or of a function on its way, has a case."""
    return any(line_with(it, case) for it in (test, *(call.function for call in way)))


@functools.lru_cache(maxsize=None)
def told(function, near, cases=()):
    """The tests that call a function or that reach it by others, those first whose rows name one of these cases, then
    those of the nearest files, and those of the whole program last: each with its way, and with what is told of its
    row."""
    ways = Ways(function)
    found = {it: way for it, way in (ways.tests or ways.others).items()
             if calls.homes()[function] in reach(calls.homes()[it])}
    naming = {it: row_naming(it, way, cases) for it, way in found.items()}
    fakes = {it: fake_on(function, way) for it, way in found.items()}
    rows = {it: (naming[it] or row_of(it, way)) + (f"; by its own {fakes[it].called()}" if fakes[it] else "")
            for it, way in found.items()}
    names = [it for it in (function.subject, function.trait) if it]

    def order(test):
        is_named = any(re.search(rf"\b{it}\b", test.file.code) for it in names)
        is_whole = any(it.file.path == COMMANDS for it in found[test])
        is_row = rows[test].startswith(ROW)
        return (not naming[test], bool(fakes[test]), not is_near(test, near), is_whole, not is_row, not is_named,
                len(found[test]))

    return [(it, found[it], rows[it]) for it in sorted(found, key=order)]
