"""Reads the code of the crates: which functions there are, and what their contracts say."""
import bisect
import functools
import os
import re

TOP = os.path.dirname(os.path.dirname(os.path.realpath(__file__)))
CRATES = os.path.join(TOP, "crates")
# What stands for a clause without a name.
UNNAMED = "ensures"


def read(path):
    with open(path, encoding="utf-8") as text:
        return text.read()


def files(folder, ending):
    """The paths of a folder's files with this ending, in order."""
    for at, folders, names in os.walk(folder):
        folders.sort()
        yield from (os.path.join(at, name) for name in sorted(names) if name.endswith(ending))


@functools.lru_cache(maxsize=None)
def uses():
    """The lines of crates.txt: each crate of the repository, and what it uses."""
    rows = [line.partition("#")[0].partition(":") for line in read(os.path.join(TOP, "crates.txt")).split("\n")]
    return {name.strip(): used.split() for name, colon, used in rows if colon}


@functools.lru_cache(maxsize=None)
def crates():
    """The crates of the repository, each read once."""
    return {name: Crate(name) for name in uses()}


def blanked(text):
    """The text with spaces in place of comments and of what is quoted, so that each place stays what it is."""
    quiet = r"""//[^\n]*|"(?:\\.|[^"\\])*"|'(?:\\.|[^'\\\n])'"""
    return re.sub(quiet, lambda it: re.sub(r"[^\n]", " ", it[0]), text, flags=re.DOTALL)


@functools.lru_cache(maxsize=None)
def members():
    """The members of all public traits, by the trait's name and their own."""
    return {(it.subject, it.name): it for crate in crates().values() for it in crate.functions
            if it.owner.startswith("pub trait")}


def named_in(owner):
    """The trait and the type of a head `impl TRAIT for TYPE`; of one that names one of them, nothing and that."""
    head, before = owner.partition(" where ")[0], None
    while head != before:
        head, before = re.sub(r"<[^<>]*>", "", head), head
    named = re.findall(r"\b(?:impl|trait|for)\s+&?(?:mut )?(?:\w+::)*(\w+)", head)
    return ["", "", *named][-2:]


class Clause:
    """A clause of a contract: its name, its text, its lines, and the lines of the comment that it stands under."""

    def __init__(self, kind, name, text, line, comment):
        self.kind, self.name, self.line, self.comment = kind, name or UNNAMED, line, comment
        self.last = line + text.count("\n")
        self.text = " ".join(text.split()).partition("{")[2].rpartition("}")[0].strip()

    def called(self):
        """Its kind, and its name if it has one."""
        return self.kind if self.name == UNNAMED else f"{self.kind} {self.name}"

    def is_frame(self):
        """Whether it says of what was lent that it is as it was, and nothing else."""
        parts = self.text.split(" × ")
        if len(parts) > 1:
            parts = [re.sub(r"^\((.*)\)$", r"\1", it) for it in parts]
        sides = [it.split(" ≡ ") for it in parts]
        return all(len(set(both)) == 2 and len({re.sub(r"\.(new|old)\b", "", it) for it in both}) == 1 for both in sides)


class Function:
    """A function: the head of its `impl` or `trait`, its clauses, and how long these and its body are."""

    def __init__(self, file, item, owner, block):
        self.file, self.owner, self.name, self.is_pub = file, owner, item["name"], bool(item["pub"])
        # Where the block of its `impl` or its `trait` begins and ends.
        self.block = block
        self.trait, self.subject = named_in(owner)
        self.line, self.comment = file.line(item.start("name")), file.comment(item.start("name"))
        # Its lines, from the first of its comment to its closing brace.
        self.first, self.last = file.first_above(self.line), self.line
        self.clauses, self.contract_len, self.body_len = [], 0, 0
        self.ensures = []
        self.read(item.end())

    def read(self, at):
        """Reads the clauses, and where the body ends, behind this place of the head."""
        code, line = self.file.code, self.file.line
        while True:
            stop = self.file.stop(at)
            head, behind = re.search(r"\b(ensures|requires)\*?\s*([\w']*)\s*$", code[at:stop]), self.file.behind(stop)
            if not head:
                break
            self.add(*head.groups(), at + head.start(), behind)
            at = behind
        # Where its body begins, or the semicolon in its place.
        self.body, self.last = stop, line(behind - 1)
        self.body_len = max(0, self.last - line(stop) - 1)
        self.ensures = [it for it in self.clauses if it.kind == "ensures"]
        if self.clauses:
            self.contract_len = line(at - 1) - self.clauses[0].line + 1

    def add(self, kind, name, start, behind):
        """Notes a clause. Without a comment of its own it stands under that of the clause right above it."""
        comment = self.file.comment(start)
        if not comment and self.clauses and not self.file.is_blank(self.file.line(start) - 1):
            comment = self.clauses[-1].comment
        self.clauses.append(Clause(kind, name, self.file.text[start:behind], self.file.line(start), comment))

    def promised(self):
        """The names of what it ensures, by itself or as a trait's member."""
        member = members().get((self.trait, self.name))
        return {it.name for it in self.ensures + (member.ensures if member else [])}

    def called(self):
        """Its name as the documents have it."""
        return f"{self.subject}::{self.name}" if self.subject else self.name

    def place(self):
        return f"{os.path.relpath(self.file.path, TOP)}:{self.line}"


class Item:
    """An item of a file that is no function: a type, a trait, a constant, an `impl`, or what stands in one of these: a
    ghost member, or a type that belongs to a trait."""

    def __init__(self, file, kind, name, begin, end):
        # Where its text begins and ends; and its lines, from the first of its comment to its last.
        self.file, self.kind, self.name, self.begin, self.end = file, kind, name, begin, end
        self.line, self.last = file.line(begin), file.line(end - 1)
        self.first, self.comment = file.first_above(self.line), file.comment(begin)
        self.is_outer = not file.lines[self.line - 1].startswith(" ")

    def head(self):
        """What stands before its block, on one line."""
        return " ".join(self.file.code[self.begin:self.file.stop(self.begin)].split()).rstrip(",")

    def block(self):
        """Where its block begins and ends."""
        opened = self.file.stop(self.begin)
        return opened, self.file.behind(opened)

    def trait(self):
        """The trait that an `impl` is of, or that it is."""
        return self.name if self.kind == "trait" else named_in(self.head())[0]

    def owner(self):
        """The item in which it stands, or None."""
        above = [it for it in self.file.items if it.line < self.line and self.last <= it.last]
        return max(above, key=lambda it: it.line, default=None)

    def called(self):
        return f"{self.kind} {self.name}"

    def place(self):
        return f"{os.path.relpath(self.file.path, TOP)}:{self.line}"


class File:
    """A file of code, with its functions."""

    ITEMS = re.compile(r"(?m)^(?P<owner>(?:pub(?:\([^)]*\))?\s+)?(?:unsafe\s+)?(?:impl|trait)\b[^{;]*)\{"
                       r"|^[ \t]*(?P<pub>pub\s+)?(?:pub\([^)]*\)\s+)?(?:const\s+)?fn\s+(?P<name>\w+)")

    HEADS = re.compile(r"(?m)^[ \t]*(?:pub(?:\([^)]*\))?\s+)?(?:unsafe\s+)?"
                       r"(struct|enum|trait|const(?!\s+fn)|static|type|impl|ghost(?!\s+use))\b(?:\s*<|\s*([\w']*))")

    def __init__(self, path):
        self.path, self.text = path, read(path)
        self.module = os.path.basename(path).partition(".")[0]
        self.code = blanked(self.text)
        self.lines = self.text.split("\n")
        self.starts = [0] + [it.end() for it in re.finditer("\n", self.text)]
        self.blocks = self.read_blocks()
        self.functions = list(self.read_functions())

    def read_blocks(self):
        """The place behind each block, by the place where it begins."""
        found, opened = {}, []
        for brace in re.finditer("[{}]", self.code):
            if brace[0] == "{":
                opened.append(brace.start())
            elif opened:
                found[opened.pop()] = brace.end()
        return found

    def read_functions(self):
        owner, begin, until = "", 0, 0
        for item in self.ITEMS.finditer(self.code):
            if item["owner"]:
                owner, begin, until = " ".join(item["owner"].split()), item.end(), self.behind(item.end() - 1)
            else:
                is_in = item.start() < until
                yield Function(self, item, owner if is_in else "", (begin, until) if is_in else (0, 0))

    @functools.cached_property
    def items(self):
        """The items that are no functions, outside of these."""
        found = []
        for head in self.HEADS.finditer(self.code):
            begin, number = head.start(1), self.line(head.start(1))
            if any(it.line <= number <= it.last for it in self.functions):
                continue
            has_block = head[1] in ("struct", "enum", "trait", "impl", "ghost")
            end = self.behind(self.stop(begin)) if has_block else self.semicolon(begin)
            name = named_in(" ".join(self.code[begin:self.stop(begin)].split()))[1] if head[1] == "impl" else head[2]
            found.append(Item(self, head[1], name, begin, end))
        return found

    def semicolon(self, at):
        """The place behind the next semicolon outside of brackets."""
        depth = 0
        for it in re.compile(r"[(\[{}\]);]").finditer(self.code, at):
            depth += (it[0] in "([{") - (it[0] in ")]}")
            if it[0] == ";" and not depth:
                return it.end()
        return len(self.code)

    def first_above(self, number):
        """The first line of the comment and the attributes above a line, or itself."""
        while number > 1 and re.match(r"\s*(//(?!!)|#\[)", self.lines[number - 2]):
            number -= 1
        return number

    def line(self, at):
        """The number of the line with this place."""
        return bisect.bisect_right(self.starts, at)

    def is_blank(self, line):
        return not self.lines[line - 1].strip()

    def behind(self, at):
        """The place behind the block that begins at this place, or behind what else stands there."""
        return self.blocks.get(at, at + 1)

    def stop(self, at):
        """The next brace, or the next semicolon outside of brackets (a type such as [u8; 2] goes on)."""
        for it in re.compile("[{;]").finditer(self.code, at):
            if it[0] == "{" or self.code.count("[", at, it.start()) == self.code.count("]", at, it.start()):
                return it.start()
        return len(self.code)

    def comment(self, at):
        """The lines of the comment above the line with this place, and above its attributes."""
        number, found = self.line(at) - 1, []
        while number and self.lines[number - 1].strip().startswith("#["):
            number -= 1
        while number and re.match(r"\s*//", self.lines[number - 1]):
            found.insert(0, re.sub(r"^\s*//[/!]? ?", "", self.lines[number - 1]))
            number -= 1
        return found

    @functools.cached_property
    def imported(self):
        """The definitions of the repository's specs that its `ghost use` lines name, by what they are called here."""
        used = re.findall(r"ghost use Rattle\.(\w+)\.specs\.(?!declared|contracts)[\w.]+\.\{([^}]*)\}", self.code)
        pairs = [it.strip().split(" as ") for crate, names in used if crate in uses() for it in names.split(",")]
        return {pair[-1]: pair[0] for pair in pairs}


@functools.lru_cache(maxsize=None)
def file(path):
    """A file of code, read once."""
    return File(path)


class Crate:
    """A crate: its functions outside of tests, and which of them others may call."""

    def __init__(self, name):
        code = [file(path) for path in files(f"{CRATES}/{name}/src", ".rt")]
        lib = "".join(it.code for it in code if it.module == "lib")
        tests = re.findall(r"#\[cfg\(test\)\]\s*mod (\w+)", lib)
        self.functions = [it for one in code if one.module not in tests for it in one.functions]
        self.open = {"lib", *re.findall(r"(?m)^pub mod (\w+);", lib)}
        self.exports = {it: "lib" for it in re.findall(r"(?m)^pub (?:struct|enum|trait|type) (\w+)", lib)}
        for module, many, one in re.findall(r"(?m)^pub use (?:\w+::)*(\w+)::(?:\{([^}]*)\}|(\w+));", lib):
            self.exports.update((it, module) for it in re.findall(r"\w+", many or one))

    def is_public(self, it):
        """Whether others may call this function: it, or the type or the trait that has it, is exported."""
        is_open = it.file.module in self.open
        if not it.subject:
            return it.is_pub and (is_open or self.exports.get(it.name) == it.file.module)
        is_member = it.owner.startswith("pub trait") or bool(it.trait)
        return (it.is_pub or is_member) and (is_open or it.subject in self.exports)

    def public(self):
        """The public functions that have a clause on what they ensure."""
        return [it for it in self.functions if it.ensures and self.is_public(it)]

    def called(self, call):
        """The functions that this names, as `name` or `Type::name`; of those of a bare name the ones of no type, if
        there are any, and of these the public ones, if there are any."""
        owner, _, name = call.rpartition("::")
        found = [it for it in self.functions if it.name == name and owner in ("", it.subject)]
        found = [it for it in found if not it.subject] or found
        return [it for it in found if self.is_public(it)] or found
