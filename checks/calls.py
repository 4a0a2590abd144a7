"""Finds the calls of a function, as far as names and declared types tell.

Of a method's call it looks for the type of what it is called on: `self`, a parameter, a field, what a `let` or a `for`
names, and what a call gives. Where that can't be known a call is told as found by its name alone, and only in files
that name the method's type or its trait.
"""
import bisect
import collections
import functools
import os
import re

import sources
from sources import CRATES

# What a call is known by: the type or the path, the trait of a type that isn't fixed, or its name alone.
SURE, TRAIT, NAME = "", "by its trait", "by name"
# A name in front of a bracket, and one that is handed on as a value.
CALL = re.compile(r"\b(?=[a-z_])(\w+)(?=[(:])(?:::<[^(;{}]*>)?\(")
VALUE = re.compile(r"[(,]\s*(?:\w+::)*([a-z_]\w*)(?=\s*[,)])")
ITEM = re.compile(r"(?m)^[ \t]*(?:pub(?:\([^)]*\))?\s+)?(struct|enum|trait|type)\s+(\w+)")
# Types that are what they have, and calls that give what they are called on, where the type of a value is looked for.
POINTERS = ("Box", "Rc", "Arc")
BOXES = (*POINTERS, "Vec", "Option", "Result", "[]")
SAME = ("as_ref", "as_mut", "clone", "iter", "iter_mut", "into_iter", "by_ref", "as_slice", "as_mut_slice", "rev")

Site = collections.namedtuple("Site", "crate file at is_value")
Call = collections.namedtuple("Call", "crate function file line how")
Type = collections.namedtuple("Type", "crate file kind name at")


@functools.lru_cache(maxsize=None)
def every():
    """Each file of code with its crate, those of tests too."""
    return [(crate, sources.file(path)) for crate in sources.uses()
            for path in sources.files(f"{CRATES}/{crate}/src", ".rt")]


@functools.lru_cache(maxsize=None)
def functions():
    """All functions by their names, each with its crate."""
    found = {}
    for crate, file in every():
        for it in file.functions:
            found.setdefault(it.name, []).append((crate, it))
    return found


@functools.lru_cache(maxsize=None)
def homes():
    return {it: crate for its in functions().values() for crate, it in its}


def home_of(it):
    """The crate in whose folder a function or an item stands."""
    return os.path.relpath(it.file.path, CRATES).split(os.sep)[0]


@functools.lru_cache(maxsize=None)
def sites():
    """Where each name of a function is called or handed on, its own heads left out."""
    found, known = {}, functions()
    for crate, file in every():
        for pattern in (CALL, VALUE):
            for it in pattern.finditer(file.code):
                if it[1] in known and not file.code[max(0, it.start(1) - 12):it.start(1)].rstrip().endswith("fn"):
                    found.setdefault(it[1], []).append(Site(crate, file, it.start(1), pattern is VALUE))
    return found


@functools.lru_cache(maxsize=None)
def types():
    """All types and traits by their names."""
    found = {}
    for crate, file in every():
        for it in ITEM.finditer(file.code):
            # (a `type` in a trait or an impl is no name by itself)
            if it[1] != "type" or not it[0][0].isspace():
                found.setdefault(it[2], []).append(Type(crate, file, it[1], it[2], it.end()))
    return found


def type_in(crate, name, near=None):
    """The type or trait of this name that a crate means: that of the file near by, of the crate that this has it of, of
    its own crate, or of one that it uses."""
    found = [it for it in types().get(name, []) if it.crate == crate or it.crate in sources.uses().get(crate, [])]
    roots = {} if len(found) < 2 or near is None else {
        root for root, rest in uses_of(near) if re.search(rf"\b{name}\b", rest)}
    return min(found, key=lambda it: (it.file is not near, it.crate not in roots, it.crate != crate), default=None)


def meant(crate, name, near=None):
    """The name of the type that a name means, where it is another name for it (`type A = B`)."""
    its = type_in(crate, name, near)
    while its and its.kind == "type":
        crate, near = its.crate, its.file
        name = outer(its.file.code[its.file.code.find("=", its.at) + 1:])[0]
        its = type_in(crate, name, near)
    return name


@functools.lru_cache(maxsize=None)
def uses_of(file):
    """The `use` lines of a file, each with what it begins with."""
    return re.findall(r"(?m)^\s*(?:pub )?use (\w+)([^;]*);", file.code)


def around(file, at):
    """The function of a file in which a place stands, if it stands in one."""
    line = file.line(at)
    number = bisect.bisect_right([it.line for it in file.functions], line)
    return file.functions[number - 1] if number and line <= file.functions[number - 1].last else None


def closing(code, at):
    """The place behind the bracket that closes the one at this place."""
    pairs, depth = {"(": ")", "[": "]", "<": ">", "{": "}"}, 0
    opened, closed = code[at], pairs[code[at]]
    for place in range(at, min(len(code), at + 4000)):
        if code[place] == opened:
            depth += 1
        elif code[place] == closed and not (closed == ">" and code[place - 1] in "-="):
            depth -= 1
            if not depth:
                return place + 1
    return len(code)


def spans(text, mark=","):
    """Where what stands between the marks that are in no bracket begins and ends."""
    depth, begin = 0, 0
    for place, it in enumerate(text):
        depth += (it in "([<{") - (it in ")]}" or it == ">" and text[place - 1] not in "-=")
        if it == mark and not depth:
            yield begin, place
            begin = place + 1
    yield begin, len(text)


def parts(text, mark=","):
    """What stands between the marks that are in no bracket."""
    return [text[begin:end].strip() for begin, end in spans(text, mark) if text[begin:end].strip()]


def bounds_in(text):
    """The bounds of type parameters, as `T: Disk + Drop, G` has them, by the parameters' names, and of what belongs to
    one, as `O::File: Drop` has them, by `O::File`."""
    found = {}
    for it in parts(text):
        name, *bounds = re.split(r"(?<!:):(?!:)", it, maxsplit=1)
        found.setdefault(name.replace("const ", "").strip(), []).extend(
            re.sub(r"<.*", "", one).split("::")[-1].strip() for one in parts("".join(bounds), "+"))
    return found


def joined(*lists):
    """Lists of bounds as one."""
    found = {}
    for name, bounds in (it for one in lists for it in one.items()):
        found[name] = [*found.get(name, []), *bounds]
    return found


def generics_at(code, at):
    """The type parameters whose list begins at this place, and the place behind it."""
    if code[at:at + 1] != "<":
        return {}, at
    behind = closing(code, at)
    return bounds_in(code[at + 1:behind - 1]), behind


class Head:
    """What a function's head declares: its type parameters, its parameters, and what it gives."""

    def __init__(self, function):
        code, line = function.file.code, function.file.starts[function.line - 1]
        at = re.compile(rf"\bfn\s+{function.name}\b").search(code, line).end()
        own, at = generics_at(code, at)
        behind = closing(code, at)
        listed = [it.partition(":") for it in parts(code[at + 1:behind - 1])]
        self.params = {re.sub(r"^mut ", "", name.strip()): kind.strip() for name, colon, kind in listed if colon}
        # How it takes `self`, if it does: `self`, `&self` or `&mut self`.
        self.own = next((re.sub(r"^mut ", "", name.strip()) for name, colon, _ in listed if not colon), "")
        given = re.compile(r"\s*->\s*((?:[^{;\[]|\[[^\]]*\])*?)\s*(?=\b(?:requires|ensures|where)\b|[{;])")
        self.gives = (given.match(code, behind) or ["", "()"])[1]
        where = re.compile(r"\bwhere\b([^{;]*?)(?=\b(?:requires|ensures)\b|[{;])").match(code, behind)
        of_owner = re.match(r"(?:pub(?:\([^)]*\))? )?(?:unsafe )?(?:impl|trait \w+)\s*(?=<)", function.owner)
        outer = generics_at(function.owner, of_owner.end())[0] if of_owner else {}
        behind_where = function.owner.partition(" where ")[2]
        self.generics = joined(outer, bounds_in(behind_where), own, bounds_in(where[1] if where else ""))


    def kinds(self, subject):
        """The types of what it takes, `self` among it."""
        own = {"self": re.sub(r"\bself$", subject, self.own)} if self.own else {}
        return {**own, **self.params}


@functools.lru_cache(maxsize=None)
def head_of(function):
    return Head(function)


# Types that are copied, and those that are where what they have is.
COPIED = {"bool", "char", "Global", *[f"{sign}{size}" for sign in "iu" for size in (8, 16, 32, 64, 128, "size")]}
COPIED_WITH = ("[]", "()", "Option")


def is_copied(crate, function, text):
    """Whether a value of this type is handed to a function as a copy, or borrowed."""
    text = text.strip()
    name, has = outer(text)
    if text.startswith("&") or name in COPIED:
        return True
    if name in COPIED_WITH:
        return all(is_copied(crate, function, it) for it in has)
    its = type_in(crate, name, function.file)
    number = its.file.line(its.at) if its else 0
    attributes = its.file.lines[its.file.first_above(number) - 1:number] if its else []
    return any("Copy" in it for it in attributes) or "Copy" in head_of(function).generics.get(name, [])


def plain(text):
    """A type's text without what borrows it."""
    return re.sub(r"^(?:&|\*|mut\b|dyn\b|ref\b|'\w+|\(\s*\)|\s)+(?=\S)", "", text.strip())


def outer(text):
    """The name of a type and the types that it has: `Vec` and `u8` of `Vec<u8>`."""
    text = plain(text)
    if text.startswith("["):
        return "[]", [text[1:closing(text, 0) - 1].partition(";")[0]]
    if text.startswith("("):
        return "()", parts(text[1:closing(text, 0) - 1])
    name = re.match(r"(?:\w+::)*(\w+)", text)
    if not name:
        return "", []
    opened = text.find("<", name.end())
    return name[1], parts(text[opened + 1:closing(text, opened) - 1]) if opened == name.end() else []


def inside(text):
    """What a type that has others is taken to be, as `Section` of `Option<&mut Section>`."""
    name, has = outer(text)
    while name in BOXES and has:
        text = has[0]
        name, has = outer(text)
    return plain(text)


@functools.lru_cache(maxsize=None)
def fields(its):
    """The fields of a type, with their types."""
    code = its.file.code
    at = generics_at(code, its.at)[1]
    opened = re.compile(r"[({;]").search(code, at)
    if its.kind not in ("struct", "enum") or not opened or opened[0] == ";":
        return {}
    listed = parts(code[opened.end():closing(code, opened.start()) - 1])
    if opened[0] == "(":
        return {str(number): re.sub(r"^pub(\([^)]*\))? ", "", it) for number, it in enumerate(listed)}
    found = (re.match(r"(?:#\[[^\]]*\]\s*)*(?:pub(?:\([^)]*\))?\s+)?(\w+):\s*(.+)", it, re.DOTALL) for it in listed)
    return {it[1]: " ".join(it[2].split()) for it in found if it}


@functools.lru_cache(maxsize=None)
def cases(its):
    """The cases of an enum that have types and no names for these, with these types."""
    code = its.file.code
    generics, at = generics_at(code, its.at)
    opened = code.find("{", at)
    if its.kind != "enum" or generics:
        return {}
    found = (re.match(r"(?:#\[[^\]]*\]\s*)*(\w+)\((.*)\)$", it, re.DOTALL)
             for it in parts(code[opened + 1:its.file.behind(opened) - 1]))
    return {it[1]: parts(it[2]) for it in found if it}


def before(code, at):
    """The expression that ends at this place, such as `self.parts[i]` in front of a dot."""
    place = at
    while place > 0:
        last = code[place - 1]
        if last in ")]":
            depth = 0
            while place > 0:
                place -= 1
                depth += (code[place] in ")]") - (code[place] in "([")
                if not depth:
                    break
        elif last == "?":
            place -= 1
        elif last.isalnum() or last == "_":
            place = re.search(r"\w+$", code[max(0, place - 80):place]).start() + max(0, place - 80)
            front = code[:place][-200:].rstrip()
            if front.endswith(".") and not front.endswith(".."):
                place = max(0, place - 200) + len(front) - 1
            elif front.endswith("::"):
                place = place - 2
            else:
                break
            if code[place - 1:place].isspace():
                place = len(code[:place].rstrip())
        elif last.isspace() and code[:place].rstrip()[-1:] in ")]?":
            place = len(code[:place].rstrip())
        else:
            break
    return code[place:at].strip()


class Place:
    """A place in a function, and what the names there are."""

    def __init__(self, crate, function, at, depth=0):
        self.crate, self.function, self.at, self.depth = crate, function, at, depth
        self.head, self.bounds = head_of(function), {}
        for bounds in head_of(function).generics.values():
            self.bounds.update(belonging(crate, tuple(bounds)))
        self.bounds.update(head_of(function).generics)

    def own(self, text):
        return re.sub(r"\bSelf\b", self.function.subject or "Self", text)

    def local(self, name):
        """The type of what is called so here, or None."""
        start = self.function.file.starts[self.function.line - 1]
        body, word = self.function.file.code[start:self.at], re.escape(name)
        last = None
        for it in re.finditer(rf"\blet (?:mut )?{word}(?:: (?P<type>[^=;]+))? = (?P<let>[^;{{]*)"
                              rf"|\b(?:Some|Ok|Err)\((?:mut |ref )*{word}\) = (?P<in>[^;{{]*)"
                              rf"|\bfor (?:mut )?(?:\(\w+, )?&?{word}\)? in (?P<each>[^{{]*)"
                              rf"|(?P<odd>\|[^|\n;]*\b{word}\b[^|\n;]*\|)"
                              rf"|(?P<arm>[(,] ?(?:mut |ref )?{word}\b[^\n;]*=>)", body):
            last = it
        if last is None:
            kind = self.head.params.get(name)
            return self.own(kind) if kind else None
        if last["type"]:
            return self.own(last["type"])
        if last["odd"]:
            return None
        if last["arm"]:
            return self.in_arm(start + last.start() + 1)
        there = Place(self.crate, self.function, start + last.start(), self.depth + 1)
        found = there.type_of(last["let"] or last["in"] or last["each"] or "")
        self.bounds.update(there.bounds)
        return inside(found) if found and not last["let"] else found

    def in_arm(self, at):
        """The type of what stands alone at this place of a pattern, as `Type::Case(_, it)` and `Some(it)` have it at
        the head of an arm; or None."""
        code = self.function.file.code
        line = code.rfind("\n", 0, at) + 1
        case = re.search(r"(?:(\w+)::)?([A-Z]\w*)\(([^()]*)$", code[line:at])
        if not case:
            return None
        if case[1]:
            its = type_in(self.crate, self.own(case[1]), self.function.file)
            has = cases(its).get(case[2], []) if its else []
        else:
            has = self.matched(line)
            has = has[case[2] == "Err":] if case[2] in ("Some", "Ok", "Err") else []
        number = case[3].count(",")
        return has[number] if number < len(has) else None

    def matched(self, line):
        """The types that what is matched has, as an `Option` or a `Result` does, where an arm has this line."""
        code, start = self.function.file.code, self.function.file.starts[self.function.line - 1]
        indent = re.compile(r" *").match(code, line)[0]
        until = line + len(indent) + 1
        found = list(re.compile(rf"\bmatch ([^{{;]*) \{{\n(?={indent}\S)").finditer(code, start, until))
        if not found:
            return []
        there = Place(self.crate, self.function, found[-1].start(), self.depth + 1)
        kind = there.type_of(found[-1][1])
        self.bounds.update(there.bounds)
        return outer(kind)[1] if kind else []

    def named(self, path, name):
        """What a call of this path and name gives, or None."""
        owner = path.split("::")[-2] if path else ""
        owner = self.function.subject if owner == "Self" else owner
        if owner[:1].isupper():
            return self.method(meant(self.crate, owner, self.function.file), name)
        found = [it for _, it in functions().get(name, []) if not it.subject]
        found = [it for it in found if it.file is self.function.file] or [
            it for it in found if homes()[it] in (self.crate, *sources.uses()[self.crate])]
        gives = {head_of(it).gives for it in found}
        return gives.pop() if len(gives) == 1 else None

    def method(self, owner, name):
        """What a type's method gives, or None."""
        owners = {owner, *(one for it in self.bounds.get(owner, []) for one in above(self.crate, it))}
        found = [it for _, it in functions().get(name, []) if it.subject in owners]
        gives = {re.sub(r"\bSelf\b", owner, head_of(it).gives) for it in found}
        return gives.pop() if len(gives) == 1 else None

    def meant(self, text):
        """The name of the type that a text of a type means, without what boxes it."""
        return meant(self.crate, outer(inside(text))[0], self.function.file)

    def field(self, text, name):
        its = type_in(self.crate, self.meant(text), self.function.file)
        if not its or name not in fields(its):
            return None
        of_type = generics_at(its.file.code, its.at)[0]
        self.bounds = {**of_type, **self.bounds}
        return fields(its)[name]

    def type_of(self, text):
        """The type of an expression, or None where it isn't known."""
        text = plain(text.strip())
        if self.depth > 5:
            return None
        begin = re.match(r"((?:\w+::)*)(\w+)(?:::<[^(]*>)?", text)
        if not begin or text[0].isdigit():
            return None
        path, name, at = begin[1], begin[2], begin.end()
        if text[at:at + 1] == "(":
            found, at = self.named(path, name), closing(text, at)
        elif name[0].isupper():
            found = name
        else:
            found = self.function.subject if name == "self" else self.local(name)
        while found and at < len(text):
            found, at = self.behind(found, text, at)
        return found

    def behind(self, found, text, at):
        """The type of what stands behind an expression of this type, up to where that is read."""
        if text[at] in "? \n":
            return (outer(found)[1] or [found])[0] if text[at] == "?" else found, at + 1
        if text[at] == "[":
            behind = closing(text, at)
            return found if ".." in text[at:behind] else inside(found), behind
        name = re.compile(r"\.(\w+)(?:::<[^(]*>)?").match(text, at)
        if not name:
            return None, len(text)
        if text[name.end():name.end() + 1] == "(":
            is_same = name[1] in SAME
            return found if is_same else self.method(self.meant(found), name[1]), closing(text, name.end())
        return self.field(found, name[1]), name.end()


@functools.lru_cache(maxsize=None)
def above(crate, name):
    """A trait and those that it stands on."""
    found, its = {name}, type_in(crate, name)
    if its and its.kind == "trait":
        bounds = re.match(r"(?:<[^>]*>)?\s*:([^{]*)", its.file.code[its.at:its.at + 200])
        for it in parts(bounds[1], "+") if bounds else []:
            found |= above(its.crate, re.match(r"\w*", it)[0]) if it != name else set()
    return found


@functools.lru_cache(maxsize=None)
def associated(crate, trait):
    """The types that belong to a trait, as its `type File: FileCalls` has them, each with its bounds."""
    its = type_in(crate, trait)
    if not its or its.kind != "trait":
        return {}
    opened = its.file.code.find("{", its.at)
    return bounds_in(",".join(re.findall(r"\btype ([^;=]+);", its.file.code[opened:its.file.behind(opened)])))


@functools.lru_cache(maxsize=None)
def belonging(crate, bounds):
    """The types that belong to what has these bounds, each with its own."""
    return joined(*[associated(crate, it) for bound in bounds for it in sorted(above(crate, bound))])


@functools.lru_cache(maxsize=None)
def impls_of(trait):
    """The types that have an impl of a trait."""
    return {it.subject for its in functions().values() for _, it in its if it.trait == trait}


def is_member(function):
    """Whether a function is a member of a trait."""
    return re.match(r"(?:pub(?:\([^)]*\))? )?trait\b", function.owner) is not None


def standing_for(function):
    """The functions that stand for a member of a trait, each in its impl; none for what is no member."""
    return [it for _, it in functions()[function.name] if is_member(function) and it.trait == function.subject]


def has_own(name, method):
    """Whether a type has a method of this name that is of no trait."""
    return any(it.subject == name and not it.trait and not is_member(it) for _, it in functions()[method])


def owner_is(crate, function, place, name):
    """By what a call on this type, or by it as `Type::name`, is known as one of the function; None where it isn't."""
    # (of an impl for `&S` a call on `S` is one by the trait)
    is_its = function.subject == name and not re.search(rf"\bfor &(?:mut )?{name}\b", function.owner)
    its = head_of(function).generics if is_its else {}
    bounds = place.bounds.get(name)
    if bounds is None:
        name = meant(place.crate, name, place.function.file)
    if name in ("", "()"):
        return None
    if bounds is not None and name not in its or name == "impl":
        wide = set().union(*[above(place.crate, it) for it in bounds or []])
        return TRAIT if (function.subject if is_member(function) else function.trait) in wide - {""} else None
    if function.trait and has_own(name, function.name):
        return None
    if name == function.subject:
        mine, other = type_in(crate, name, function.file), type_in(place.crate, name, place.function.file)
        return SURE if not mine or not other or mine == other else None
    is_of = is_member(function) and name in impls_of(function.subject) and not has_own(name, function.name)
    return SURE if is_of else None


def sees(file, function):
    """Whether a file names the type or the trait of a method."""
    return any(re.search(rf"\b{it}\b", file.code) for it in (function.subject, function.trait) if it)


def is_trait_of(crate, function, place, name):
    """Whether a name is that of the trait that a function's impl is of."""
    its = type_in(place.crate, name, place.function.file)
    return name == function.trait and its is not None and its == type_in(crate, name, function.file)


def by_path(crate, function, site, place, path):
    """By what `Type::name` or `Trait::name` is known as a call of a method; of `<Type as Trait>::name`, by the name."""
    if path == ">":
        return NAME if sees(site.file, function) else None
    name = place.function.subject if path == "Self" else path
    return TRAIT if is_trait_of(crate, function, place, name) else owner_is(crate, function, place, name)


def of_method(crate, function, site, caller):
    """By what a site is known as a call of a method."""
    code, place = site.file.code, Place(site.crate, caller, site.at)
    path = re.search(r"(\w+|>)(?:::<[^<>]*(?:<[^<>]*>[^<>]*)*>)?::$", code[max(0, site.at - 90):site.at])
    if path:
        return by_path(crate, function, site, place, path[1])
    if site.is_value or code[site.at - 1:site.at] != "." or code[site.at - 2:site.at] == "..":
        return None
    found = place.type_of(before(code, site.at - 1))
    if found is None:
        return NAME if sees(site.file, function) else None
    bounds = re.match(r"(?:&(?:'\w+ )?(?:mut )?)?(?:impl|dyn) (.*)", found)
    if bounds:
        place.bounds["impl"] = [re.match(r"\w*", it)[0] for it in parts(bounds[1], "+")]
    name, has = outer(found)
    if name in POINTERS and has:
        name = outer(has[0])[0]
    return owner_is(crate, function, place, "impl" if bounds else name)


def brought_in(crate, name, into, file):
    """Whether the `use` lines of a file of a crate bring in what has this name in the other crate."""
    named = [root for root, rest in uses_of(file) if re.search(rf"\b{name}\b", rest) or rest.endswith("*")]
    inner = {"crate", "self", "super"}
    return any(into == crate if it in inner else it == crate or it != into and re_exports(it, crate) for it in named)


@functools.lru_cache(maxsize=None)
def re_exports(crate, other):
    lib = f"{CRATES}/{crate}/src/lib.rt"
    return os.path.exists(lib) and f"pub use {other}" in sources.file(lib).code


def is_bound(name, site, caller):
    """Whether a name is that of a value in the function where it is handed on."""
    body = site.file.code[site.file.starts[caller.line - 1]:site.at]
    bound = rf"[|(,]\s*(?:mut )?{name}\s*[|,)]\s*(?:=|in\b|\|)|\blet (?:mut )?{name}\b"
    return name in head_of(caller).params or re.search(bound, body) is not None


def of_function(crate, function, site, caller):
    """By what a site is known as a call of a function of no type."""
    code = site.file.code
    if code[site.at - 1:site.at] == "." and code[site.at - 2:site.at] != "..":
        return None
    path = re.search(r"(\w+)::$", code[max(0, site.at - 60):site.at])
    if path:
        is_home = path[1] in (function.file.module, crate) or site.crate == crate and path[1] in ("crate", "super")
        return SURE if is_home and (site.crate == crate or crate in sources.uses()[site.crate]) else None
    if site.is_value and is_bound(function.name, site, caller):
        return None
    own = [it for it in site.file.functions if it.name == function.name and not it.subject]
    is_brought = not own and brought_in(crate, function.name, site.crate, site.file)
    return SURE if site.file is function.file or is_brought else None


def conversions(function):
    """The `?` behind which a `from` is wanted, as far as types tell; where the error is std's, each `?` of which
    that isn't known is told as one by its name."""
    wanted = outer(next(iter(head_of(function).params.values()), ""))[0]
    for crate, file in every():
        if function.subject not in file.code:
            continue
        for caller in file.functions:
            gives = outer(head_of(caller).gives)
            if gives[0] == "Result" and len(gives[1]) > 1 and outer(gives[1][1])[0] in (function.subject, "Self"):
                yield from (Call(crate, caller, file, file.line(at), how)
                            for at, how in asked_in(crate, caller, wanted))


def asked_in(crate, caller, wanted):
    """The places of a function's body with a `?` behind an error of this type."""
    file = caller.file
    start, stop = file.starts[caller.line - 1], (file.starts + [len(file.code)])[caller.last]
    for it in re.compile(r"\?(?=[\s;,.)\]}])").finditer(file.code, start, stop):
        text = before(file.code, it.start())
        found = Place(crate, caller, it.start()).type_of(text)
        if found and outer(found)[0] == "Result":
            has = outer(found)[1]
            if len(has) > 1 and outer(has[1])[0] == wanted:
                yield it.start(), SURE
        elif not found and not type_in(crate, wanted):
            yield it.start(), NAME


def known_as(function, site):
    """By what a site is known as a call of a function; None where it isn't."""
    crate, caller = homes()[function], around(site.file, site.at)
    is_open = function.is_pub or bool(function.trait) or is_member(function)
    if caller is None or not is_open and site.crate != crate:
        return None
    return (of_method if function.subject else of_function)(crate, function, site, caller)


@functools.lru_cache(maxsize=None)
def calls(function):
    """The calls of a function, each with the function that it stands in, those of which the type is known first."""
    found = {}
    for call in conversions(function) if function.trait == "From" else []:
        found.setdefault((call.file.path, call.line), call)
    for site in sites().get(function.name, []):
        how = known_as(function, site)
        if how is not None:
            line, caller = site.file.line(site.at), around(site.file, site.at)
            found.setdefault((site.file.path, line), Call(site.crate, caller, site.file, line, how))
    return sorted(found.values(), key=lambda it: [SURE, TRAIT, NAME].index(it.how))


@functools.lru_cache(maxsize=None)
def callees(function):
    """The functions that a function calls, each with its lines that do, in order: those of which the type is known, and
    the members of traits that it calls of a type that isn't fixed."""
    file, found = function.file, {}
    start, stop = file.starts[function.line - 1], (file.starts + [len(file.code)])[function.last]
    for name in {it[1] for it in CALL.finditer(file.code, start, stop)} & set(functions()):
        for site in (it for it in sites().get(name, []) if it.file is file and start <= it.at < stop):
            for it in (one for _, one in functions()[name]):
                how = known_as(it, site)
                if how == SURE or how == TRAIT and is_member(it):
                    found.setdefault(it, set()).add(site.at)
    ordered = sorted(found, key=lambda it: min(found[it]))
    return {it: [file.line(at) for at in sorted(found[it])] for it in ordered if it is not function}
