"""Tells what types, traits and impls have: the invariants of a type and what contracts see of it, ghost members, what
of these the contract of a function leans on, and the files of its proof."""
import functools
import glob
import os
import re

import calls
import sources
import stated
from sources import CRATES


def ghosts(file, begin, end):
    """The ghost members in this part of a file, by their names, with their texts."""
    heads = re.compile(r"\bghost\s+(?!use\b)([\w']+)\s*[=:]\s*\{").finditer(file.code, begin, end)
    return {it[1]: " ".join(file.text[it.end():file.behind(it.end() - 1) - 1].split()) for it in heads}


# Types and traits.

def type_of(crate, name, near):
    """The item of the type or the trait of this name that a crate means, or None."""
    its = calls.type_in(crate, name, near) if name else None
    return next((it for it in its.file.items if (it.kind, it.name) == (its.kind, name)), None) if its else None


def told_of_type(item):
    """The invariants of a type, and what contracts see it as and by what: each by its name, with its text."""
    file = item.file
    if item.kind in ("struct", "enum"):
        yield from ((f"invariant {name}", text) for name, text in ghosts(file, *item.block()).items())
    model = next((it for it in file.items if it.kind == "impl" and (it.trait(), it.name) == ("Model", item.name)), None)
    gives = ghosts(file, *model.block()) if model else {}
    for name, said in ("Value", "contracts see"), ("view", "by"), ("invariant", "invariant"):
        if name in gives:
            yield said, gives[name]


def functions_of(crate, name):
    """The functions of a type or a trait, wherever their `impl` stands in the crate."""
    return [it for it in sources.crates()[crate].functions if it.subject == name]


def impls_of(trait):
    """The impls of a trait of this name."""
    return [it for _, file in calls.every() for it in file.items if it.kind == "impl" and it.trait() == trait]


def impls_for(item):
    """The impls of traits for a type, in its file, but for that by which contracts see it."""
    its = [it for it in item.file.items if it.kind == "impl" and it.name == item.name]
    return [it for it in its if it.trait() not in ("", "Model")]


# What the contract of a function leans on.

def member_of(function):
    """The member of a trait that a function stands for: that of a public trait, or of one of its own file."""
    own = [it for it in function.file.functions if it.name == function.name and it.subject == function.trait
           and calls.is_member(it)]
    return sources.members().get((function.trait, function.name)) or (own[0] if own and function.trait else None)


def given(function, member):
    """The ghost members that a function's impl gives, those which the member's clauses name; all of a trait of std."""
    found = ghosts(function.file, *function.block) if function.trait else {}
    if not member:
        return found
    said = {part for it in member.clauses for word in stated.words_in(it.text) for part in word.split(".")}
    return {name: text for name, text in found.items() if name in said}


def clauses_of(function, member):
    """The clauses of a function and of the member that it stands for, each with the file that it stands in."""
    return [(its.file, it) for its in (function, member) if its for it in its.clauses]


def texts_of(function, member, names=None):
    """The texts that a function's contract is made of, each with its file: its clauses, or those of these names, and
    what its impl gives."""
    return [*[(file, it.text) for file, it in clauses_of(function, member) if not names or it.name in names],
            *[(function.file, it) for it in given(function, member).values()]]


def definitions_of(function):
    """The definitions that a function's contract names."""
    return [it for file, text in texts_of(function, member_of(function)) for it in stated.stated_by(file, text)]


def saying(definitions):
    """The functions, but for laws, whose contracts name these definitions, those first that name those which the fewest
    files do: each with the names."""
    found, wanted = {}, {(it.path, it.name) for it in definitions}
    word = re.compile(rf"(?<![\w'])(?:{'|'.join(re.escape(it.name) for it in definitions)})(?![\w'])")
    for it in (one for name in sources.crates() if definitions for one in sources.crates()[name].functions):
        if it.file.module.endswith("laws") or not any(word.search(text) for _, text in texts_of(it, None)):
            continue
        its = [one.name for one in definitions_of(it) if (one.path, one.name) in wanted]
        if its:
            found[it] = sorted(dict.fromkeys(its), key=stated.spread)
    return dict(sorted(found.items(), key=lambda it: (stated.spread(it[1][0]), -len(it[1]))))


def traits_of(crate, function):
    """The trait of a member, the traits of the type parameters of a function, and those of what belongs to these or to
    the trait: each with what is of that type, as `D` or `O.File`."""
    bounds = dict(calls.head_of(function).generics)
    if calls.is_member(function):
        yield function.subject, ""
        bounds["Self"] = [function.subject]
    for name, its in bounds.items():
        for trait in (it for bound in its for it in calls.above(crate, bound)):
            of = name.replace("::", ".")
            yield trait, of
            yield from ((it, f"{of}.{one}") for one, wide in calls.associated(crate, trait).items() for it in wide)


def ghost_members(function):
    """The ghost members of traits that a function's clauses name, each with its trait."""
    said = [word for it in function.clauses for word in stated.words_in(it.text)]
    crate = calls.homes()[function]
    for name, of in traits_of(crate, function):
        trait = type_of(crate, name, function.file)
        for it in trait.file.items if trait and trait.kind == "trait" else []:
            if it.kind == "ghost" and it.owner() is trait and (f"{of}.{it.name}" if of else it.name) in said:
                yield trait, it


@functools.lru_cache(maxsize=None)
def proof_files(crate):
    """The files of a crate's proofs, with those of lemmas."""
    return glob.glob(f"{CRATES}/{crate}/proofs/**/*.antt", recursive=True)


def proofs_of_impl(item):
    """The files of the proof of what an `impl` gives."""
    crate = calls.home_of(item)
    return sorted(it for it in proof_files(crate) if f"/{item.name}{item.trait()}/TheImpl/" in it)


def proofs(function):
    """The files of a function's proof, and those of lemmas, each with the ones that these bring in. A method's stand
    under the module of its type, in a folder of the type's name, or of the type's and the trait's."""
    crate = calls.homes()[function]
    begin = f"{CRATES}/{crate}/proofs/"
    module = os.path.relpath(function.file.path, f"{CRATES}/{crate}/src")[:-len(".rt")]
    folder = {"lib": "", "main": ""}.get(module, module + "/")
    if function.subject:
        folder = rf"(\w+/)*{function.subject}{function.trait or ''}[^/]*/"
    # (functions that call each other have one proof, under the name of their cycle)
    cycle = re.search(r"#\[cycle\((\w+)\)\]", "\n".join(function.file.lines[function.first - 1:function.line]))
    own = [it for it in proof_files(crate)
           if re.fullmatch(rf"{folder}\+?{cycle[1] if cycle else function.name}/\w+\.antt", it[len(begin):])]
    cited = {}
    for it in own:
        for name, path, names in re.findall(r"use Rattle\.(\w+)\.proofs\.([A-Z][\w.]*)\.\{([^}]*)\}", sources.read(it)):
            its = cited.setdefault(f"{CRATES}/{name}/proofs/{path.replace('.', '/')}.antt", {})
            its.update(dict.fromkeys(one.strip().partition(" as ")[0] for one in names.split(",")))
    return sorted(own), {it: list(cited[it]) for it in sorted(cited) if os.path.exists(it)}
