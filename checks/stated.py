"""Finds the definitions that a text of the code names: those of the files of specs, what is generated of the code, and
the words of std and of other libraries; and the lines of specs that name a type, a constant or a case of the code."""
import collections
import functools
import os
import re

import calls
import sources
from sources import CRATES

# What a text names of what its file brings in: a crate, a module of its specs, a name there, and how the text calls it.
Name = collections.namedtuple("Name", "crate module name here")
# The definition of a name: how the text calls it, its crate, its file and line, and what stands above it.
Definition = collections.namedtuple("Definition", "name here crate path line said")


@functools.lru_cache(maxsize=None)
def lines_of(path):
    return sources.read(path).split("\n")


def comment_above(lines, number):
    """The comment right above a line of a file of specs."""
    above = number
    while above and lines[above - 1].strip().startswith("--"):
        above -= 1
    return " ".join(it.strip().lstrip("-").strip() for it in lines[above:number])


# How a comment begins that leans on the one before it.
LEANS = re.compile(r"(?i)(\.\.|the same|so (?!many|much|few)|and |they |it |no two|one that|there (is|are|isn't)\b|"
                   r"their |its )")


# What stands in front of the name of a definition, as a pattern.
WORDS = r"pub|abbrev|unfoldable|opaque|record|data"


@functools.lru_cache(maxsize=None)
def definition(path, name):
    """The line of a file of specs that defines a name, and the comment above it; where that leans on the one before it,
    as by `the same`, this too; and of a member without one, what stands above what it is a member of."""
    head = re.compile(rf"\s*(?:(?:{WORDS})\s+)*{re.escape(name)}\s*[:({{]")
    lines = lines_of(path)
    numbers = [it for it, line in enumerate(lines) if head.match(line) and ":" in " ".join(lines[it:it + 9])]
    if not numbers:
        return None
    # (a field or a parameter of another definition may have its name too)
    number = min(numbers, key=lambda it: lines[it].startswith(" "))
    # (what stands in a module is indented too, and is no member)
    indent = re.match(r"\s*", lines[number])[0]
    owner = next((it for it in reversed(lines[:number]) if it.strip() and not it.startswith(indent)), "")
    is_member = bool(indent) and not re.match(r"\s*(pub\s+)?module\b", owner)
    tops = [it for it in range(number) if re.match(rf"{'' if is_member else indent}(?:{WORDS})\b", lines[it])]
    if tops and is_member and not comment_above(lines, number):
        return number + 1, f"(a member) {comment_above(lines, tops[-1])}"
    said = [comment_above(lines, number)]
    while tops and len(said) < 4 and LEANS.match(said[-1]):
        said.append(comment_above(lines, tops.pop()))
    return number + 1, " / above it: ".join(it for it in said if it)


def imported(text):
    """What the `ghost use` lines of a text bring in, by what it is called there. What is brought in as a module has no
    name."""
    found = {}
    lines = re.findall(r"\buse Rattle\.(\w+)\.specs\.([\w.]+?)(\.\{[^}]*\}| as \w+)", text)
    for crate, module, rest in lines:
        if rest.startswith(" as "):
            found[rest[4:]] = Name(crate, module, None, rest[4:])
        for name in rest[2:-1].split(",") if rest.startswith(".{") else []:
            name, _, alias = name.strip().partition(" as ")
            found[alias or name] = Name(crate, module, name, alias or name)
    return found


@functools.lru_cache(maxsize=None)
def imports(file):
    """What the `ghost use` lines of a file bring in."""
    return imported(file.code)


def words_in(text):
    """The words of a clause, in its order, and those in front of a dot with what stands behind it."""
    return list(dict.fromkeys(re.findall(r"[^\s(){}.,\[\]:]+(?:\.[^\s(){}.,\[\]:]+)*", text)))


def brought(file, text):
    """What a text names of what its file brings in."""
    return among(imports(file), text)


def among(known, text):
    """What a text names of what is known."""
    for word in words_in(text):
        first, *rest = word.split(".")
        yield from (known[it] for it in [first, *rest] if it in known and known[it].name)
        if first in known and not known[first].name and rest:
            yield known[first]._replace(name=rest[0], here=f"{first}.{rest[0]}")


def declared(crate, module, name, here):
    """What is generated of the code: a constant, the case of a type, or the type as definitions see it."""
    owner = next((it for it in reversed(module.split(".")) if it[0].isupper() and it != "TheVariants"), "")
    its = calls.type_in(crate, owner)
    for path in sources.files(f"{CRATES}/{crate}/src", ".rt"):
        file = sources.file(path)
        is_case = its is not None and its.file is file and "TheVariants" in module
        head = rf"(?m)^\s*{name}\b(?=\s*[({{,=])" if is_case else rf"\b(?:const|struct|enum|type) {name}\b"
        found = re.compile(head).search(file.code, its.at if is_case else 0)
        if found:
            begin = re.compile(name).search(file.code, found.start()).start()
            what = f"a case of {owner}. " if is_case else ""
            return Definition(name, here, crate, path, file.line(begin), what + " ".join(file.comment(begin)))
    return None


def specs_of(crate, module, name):
    """The file of specs that defines a name: the module's, that of the module above it, where it is the case of a type
    there, or the one that this has it of (`pub use`)."""
    path = f"{CRATES}/{crate}/specs/{module.replace('.', '/')}.antt"
    if not os.path.exists(path) and "." in module:
        return specs_of(crate, module.rpartition(".")[0], name)
    if os.path.exists(path) and not definition(path, name):
        line = r"pub use Rattle\.(\w+)\.specs\.([\w.]+)\.\{([^}]*)\}"
        for crate, module, names in re.findall(line, sources.read(path)):
            if name in re.split(r"[,\s]+", names):
                return specs_of(crate, module, name)
    return crate, path


def found_as(named):
    """The definitions of the repository that these name."""
    for crate, module, name, here in (it for it in named if it.crate in sources.uses() and it.name):
        crate, path = specs_of(crate, module, name)
        if module.startswith("declared"):
            found = declared(crate, module, name, here)
            if found:
                yield found
        elif os.path.exists(path):
            yield Definition(name, here, crate, path, *(definition(path, name) or (1, "")))


def stated_by(file, text):
    """The definitions of the repository that a text of a file names."""
    return list(found_as(brought(file, text)))


# What definitions unfold to.

@functools.lru_cache(maxsize=None)
def known_in(path):
    """What the definitions of a file of specs may name: what it brings in, and its own."""
    crate, _, module = os.path.relpath(path, CRATES)[:-len(".antt")].split(os.sep, 2)
    heads = re.findall(rf"(?m)^(?:(?:{WORDS})\s+)+([^\s:({{]+)", sources.read(path))
    return {**{it: Name(crate, module.replace(os.sep, "."), it, it) for it in heads}, **imported(sources.read(path))}


@functools.lru_cache(maxsize=None)
def unfolds_to(path, line):
    """The definitions of the repository that the one at this line of a file of specs names."""
    lines = lines_of(path)
    last = next((it for it in range(line, len(lines)) if not lines[it].strip()), len(lines))
    text = "\n".join(it.partition("--")[0] for it in lines[line - 1:last])
    return [it for it in found_as(among(known_in(path), text)) if (it.path, it.line) != (path, line)]


def unfolded(definitions, most=3):
    """The definitions that these unfold to in so many steps at most, themselves first: each by its file and its name,
    with the steps."""
    found, level = {}, list(definitions)
    for steps in range(most + 1):
        level = [it for it in level if (it.path, it.name) not in found]
        found.update({(it.path, it.name): (it, steps) for it in reversed(level)})
        level = [one for it in level if it.path.endswith(".antt") for one in unfolds_to(it.path, it.line)]
    return found


@functools.lru_cache(maxsize=None)
def spread(name):
    """How many files of code have a name."""
    return sum(name in file.code for _, file in calls.every())


def of_others(named):
    """The names of std and of other libraries among these, by their crates and modules."""
    found = {}
    for crate, module, name, _ in named:
        if crate not in sources.uses() and name and re.match(r"\w", name):
            found.setdefault(f"{crate} {module}", []).append(name)
    return {module: list(dict.fromkeys(names)) for module, names in found.items()}


def defined_at(path, line):
    """The name of the definition of a file of specs, or of a module in it, in which a line stands."""
    for indent in ("", "  ", "    "):
        heads = (it for it in reversed(lines_of(path)[:line]) if re.match(rf"{indent}[^\s-]", it))
        found = re.match(rf"\s*(?:(?:{WORDS})\s+)*(\S+)", next(heads, ""))
        if found and found[1] != "module":
            return found[1]
    return ""


def specs_naming(crates, crate, name, owner=""):
    """The lines of the specs of these crates that name what is generated of a type, a constant or, with its type, a
    case of a crate: each file, with the numbers of the lines."""
    # (a case's name stands below its type's, as `mount.MountField.TheVariants`)
    is_its = re.compile(rf"declared\.(\w+\.)*{owner}\.TheVariants$" if owner else r"declared\.(?!.*TheVariants)")
    for path in (it for its in crates for it in sources.files(f"{CRATES}/{its}/specs", ".antt")):
        known = [it for it in imported(sources.read(path)).values()
                 if it.crate == crate and it.name in (name, None) and is_its.match(it.module)]
        words = [rf"\b{it.here}\b" if it.name else rf"\b{it.here}\.{name}\b" for it in known]
        numbers = [number for number, line in enumerate(lines_of(path), 1)
                   if not line.startswith(("use ", "pub use ", "--")) and any(re.search(it, line) for it in words)]
        if numbers:
            yield path, numbers
