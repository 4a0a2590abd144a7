"""Finds what names an item of the code that is no function, a type with its cases and fields or a constant; and what
the names of a line are of."""
import collections
import functools
import os
import re

import calls
import members
import sources
import stated
import tested
from sources import CRATES

# A line that brings in a name, or a file.
USE = re.compile(r"(?m)^[ \t]*(?:pub(?:\([^)]*\))?\s+)?(?:ghost\s+)?(?:use|mod)\b[^;]*;")
# The name of a case or a field, behind its attributes.
MEMBER = re.compile(r"\s*(?:#\[[^\]]*\]\s*)*(?:pub(?:\([^)]*\))?\s+)?([A-Za-z_]\w*)")


class Member(collections.namedtuple("Member", "owner name line comment")):
    """A case or a field of a type."""

    @property
    def file(self):
        return self.owner.file

    def called(self):
        return self.name

    def place(self):
        return f"{os.path.relpath(self.file.path, sources.TOP)}:{self.line}"


def found_at(file, line):
    """The innermost function or item in whose lines, with the comment above it, a line stands, or None."""
    its = [it for it in [*file.items, *file.functions] if it.first <= line <= it.last]
    return max(its, key=lambda it: it.first, default=None)


@functools.lru_cache(maxsize=None)
def without_uses(file):
    """A file's code with spaces in place of the lines that bring in names."""
    return USE.sub(lambda it: re.sub(r"[^\n]", " ", it[0]), file.code)


def is_pub(item, how=r"pub\s"):
    return re.match(rf"\s*{how}", item.file.lines[item.line - 1]) is not None


def members_of(item):
    """The cases or the fields of a type, each with its lines from the first of its comment to its last."""
    file, (opened, behind) = item.file, item.block()
    if item.kind in ("struct", "enum") and file.code[opened:opened + 1] == "{":
        text = file.code[opened + 1:behind - 1]
        for begin, end in calls.spans(text):
            head = MEMBER.match(text, begin, end)
            if head and head[1] != "ghost":
                at = opened + 1 + head.start(1)
                member = Member(item, head[1], file.line(at), tuple(file.comment(at)))
                yield member, file.first_above(member.line), file.line(opened + 1 + end)


def member_at(item, line):
    """The case or the field of a type in which a line stands, or None."""
    return next((it for it, first, last in members_of(item) if first <= line <= last), None)


def row_at(item, line):
    """The first and the last line of the row of a constant's list in which a line stands, or of the whole value."""
    file = item.file
    opened = re.compile(r"=\s*&?\[\n").search(file.code, item.begin, item.end)
    begin = opened.end() - 1 if opened else item.end
    for first, last in calls.spans(file.code[begin:item.end].rpartition("]")[0]):
        row = file.code[begin + first:begin + last]
        lines = file.line(begin + first + len(row) - len(row.lstrip())), file.line(begin + last)
        if row.strip() and lines[0] <= line <= lines[1]:
            return lines
    return item.line, item.last


# What the names of a line are of.

def of_crate(crate, root, name):
    """What a `use` of this root in a crate brings in by this name: a function or an item, or None."""
    is_inner = root in ("crate", "self", "super") or os.path.exists(f"{CRATES}/{crate}/src/{root}.rt")
    roots = [crate] if is_inner else [root, *[it for it in sources.uses().get(root, []) if calls.re_exports(root, it)]]
    for path in (it for its in roots if its in sources.uses() for it in sources.files(f"{CRATES}/{its}/src", ".rt")):
        file = sources.file(path)
        of_none = [it for it in file.functions if not it.subject]
        for it in [*[one for one in file.items if one.is_outer and one.kind != "impl"], *of_none]:
            if it.name == name:
                return it
    return None


def use_at(file, line):
    """The text of the `use` or the `mod` in which a line stands, or None."""
    return next((it[0].strip() for it in USE.finditer(file.code)
                 if file.line(it.start()) <= line <= file.line(it.end() - 1)), None)


def users(file, word):
    """The functions and items of a file that use a word which it brings in."""
    found = re.finditer(rf"(?<![\w'])({re.escape(word)})(?![\w'])", without_uses(file))
    return list(dict.fromkeys(it for it in (found_at(file, file.line(one.start())) for one in found) if it))


def constant_of(crate, file, name):
    """The constant that a file means by a name, or None."""
    roots = [root for root, rest in calls.uses_of(file) if re.search(rf"\b{name}\b", rest)]
    found = (of_crate(crate, root, name) for root in roots)
    return tested.constant(file, name) or next((it for it in found if it), None)


def on_line(crate, function, line):
    """The types, the cases of types and the constants that a line of a function or of a constant names."""
    file = function.file
    # (what stands behind a type parameter, as `P::Disk` does, is none of these)
    for it in re.finditer(r"(?<!\b[A-Z]::)\b([A-Z]\w+)(?:::([A-Z]\w+))?", file.code.split("\n")[line - 1]):
        its_type = members.type_of(crate, getattr(function, "subject", "") if it[1] == "Self" else it[1], file)
        cases = [one for one, _, _ in members_of(its_type) if one.name == it[2]] if its_type else []
        found = (cases or [its_type or constant_of(crate, file, it[1])])[0]
        if found:
            yield it[0], found


# What names an item.

class Named:
    """An item, or a case of it, and what names it."""

    def __init__(self, crate, item, case=None):
        self.crate, self.item, self.case = crate, item, case
        self.name = re.compile(rf"\b(?:{item.name}|Self)::{case}\b" if case else rf"\b{item.name}\b")

    def scope(self):
        """The files that may name it, each with its crate: of a public one those of all crates above, of a private one
        its own and those of the modules in it."""
        file = self.item.file
        is_of_crate = is_pub(self.item, r"pub\(") or file.module in ("lib", "main")
        for crate, it in calls.every():
            is_inner = is_of_crate or it is file or it.path.startswith(file.path[:-len(".rt")] + "/")
            if self.crate in tested.reach(crate) if is_pub(self.item) else crate == self.crate and is_inner:
                yield crate, it

    def means(self, crate, file):
        """Whether a file of a crate means this item by its name."""
        if self.item.kind in ("const", "static"):
            is_brought = calls.brought_in(self.crate, self.item.name, crate, file)
            return file is self.item.file or is_brought or f"::{self.item.name}" in file.code
        its = calls.type_in(crate, self.item.name, file)
        return its is not None and its.file is self.item.file

    @functools.cached_property
    def places(self):
        """The functions and items in which it is named, each with its crate and the lines."""
        found = {}
        for crate, file in self.scope():
            if self.item.name not in file.code or not self.means(crate, file):
                continue
            for it in self.name.finditer(without_uses(file)):
                holder = found_at(file, file.line(it.start()))
                is_its = not it[0].startswith("Self") or getattr(holder, "subject", "") == self.item.name
                if holder and holder is not self.item and is_its:
                    found.setdefault(holder, (crate, []))[1].append(file.line(it.start()))
        return found

    def code(self):
        """Those that are no tests, with the lines."""
        return {it: lines for it, (crate, lines) in self.places.items()
                if not tested.is_test_file(crate, it.file.path)}

    def matching(self, function):
        """Of each line of a function that names it, whether that is the arm of a `match`."""
        arm = re.compile(rf"{self.name.pattern}[^=]*=>|^\s*\|")
        return [arm.search(function.file.lines[line - 1]) is not None for line in self.code()[function]]

    def functions(self):
        """The functions of the code that name it: of a case those that make it, if some do; of a type those first that
        go by its cases, and of these those that change what they are called on."""
        found = [it for it in self.code() if isinstance(it, sources.Function)]
        if self.case:
            return [it for it in found if not all(self.matching(it))] or found
        return sorted(found, key=lambda it: (not any(self.matching(it)), "mut" not in calls.head_of(it).own))

    def holders(self):
        """The types that have it in a field."""
        return [it for it in self.code() if not isinstance(it, sources.Function) and it.kind in ("struct", "enum")]

    def is_of_tests(self):
        """Whether tests name the type, and of the code nothing but its own functions, laws, and functions that nothing
        else calls."""
        code = self.code()
        others = [it for it in code if self.item.name not in (getattr(it, "subject", ""), it.name)
                  and not it.file.module.endswith("laws")]
        is_type = self.item.kind in ("struct", "enum") and not tested.is_test_file(self.crate, self.item.file.path)
        return is_type and len(code) < len(self.places) and not any(map(self.is_called, others))

    def is_called(self, it):
        """Whether something of the code goes by what names the type: all that is no function does."""
        by = calls.calls(it) if isinstance(it, sources.Function) and it.name != "main" else None
        return by is None or any(not tested.is_test_file(one.crate, one.file.path) and one.function not in self.code()
                                 and not one.file.module.endswith("laws") for one in by)

    def specs(self):
        """The files of specs that name it, each with the numbers of the lines."""
        above = [it for it in sources.uses() if self.crate in tested.reach(it)]
        owner = self.item.name if self.case else ""
        return list(stated.specs_naming(above, self.crate, self.case or self.item.name, owner))

    def tests(self, constants=()):
        """The functions of tests that name it, or a constant that does: each with these constants, and its lines."""
        for it, (crate, lines) in self.places.items():
            if tested.is_test_file(crate, it.file.path):
                if isinstance(it, sources.Function):
                    yield it, constants, lines
                elif it.kind in ("const", "static") and it.name not in constants:
                    yield from Named(crate, it).tests((*constants, it.name))


def accesses(crate, item, field):
    """The functions that read or write a field of a type, each with the lines."""
    found, name = {}, re.compile(rf"\.{field}\b(?!\s*\()|(?<!\.)\b{field}\b(?=\s*[:,}}])")
    for its, file in Named(crate, item).scope():
        for at in (it.start() for it in name.finditer(file.code) if item.name in file.code):
            function = calls.around(file, at)
            if function and of_type(its, item, function, at):
                found.setdefault(function, []).append(file.line(at))
    return found


def of_type(crate, item, function, at):
    """Whether what stands here is a field of the type: behind a dot by the type of what stands before it, and else by
    the name in front of the brace."""
    code = function.file.code
    place = calls.Place(crate, function, at)
    if code[at] == ".":
        found = place.type_of(calls.before(code, at))
        name = place.meant(found) if found else ""
    else:
        name = in_braces_of(code, at)
        name = function.subject if name == "Self" else name
    its = calls.type_in(crate, name, function.file) if name else None
    return its is not None and its.file is item.file and its.name == item.name


def in_braces_of(code, at):
    """The name in front of the innermost brace in which a place stands, as `Log` of `Log { queue, .. }`."""
    depth = 0
    for place in range(at - 1, max(0, at - 3000), -1):
        depth += (code[place] in ")]}") - (code[place] in "([{")
        if depth < 0:
            name = re.search(r"(\w+)\s*$", code[max(0, place - 80):place]) if code[place] == "{" else None
            return name[1] if name and name[1][0].isupper() else ""
    return ""
