"""Counts what the code is to have little of, and holds each count to the most that it may be.

The bounds are what was reached: one is lowered where its count has fallen, and raised for nothing.
"""
import functools
import os
import re

import layers
import sources

# The most lines that a body and a contract have, and those of a proof file.
LINES, PROOF_LINES = 40, 800
# A clause's text is told as repeated where it has so many characters, and more than so many functions have it.
LONG, MANY = 60, 8
# The most ways that may lead down through crates.txt, and of how many crates it is told how many of them begin there.
WAYS, TOLD = 507_791, 12


def functions():
    """The functions outside of tests, with their crates."""
    left_out = layers.tests()
    return [(name, it) for name, crate in sources.crates().items() if name not in left_out for it in crate.functions]


def clauses():
    """The clauses of these functions, each with its crate, its function and how it is told."""
    for crate, function in functions():
        path = os.path.relpath(function.file.path, sources.TOP)
        for it in function.clauses:
            yield crate, function, it, f"{path}:{it.line}: {function.called()}: {it.name}"


@functools.lru_cache(maxsize=None)
def proofs():
    """The texts of the proof files of each crate, by their paths."""
    return {crate: {path: sources.read(path) for path in sources.files(f"{sources.CRATES}/{crate}/proofs", ".antt")}
            for crate in sources.uses()}


def told_proofs(is_told):
    """The proof files of which this holds."""
    return [os.path.relpath(path, sources.TOP) for texts in proofs().values() for path, text in texts.items()
            if is_told(text)]


def frames():
    is_command = re.compile(r"run_|vt_commands$").match
    return [place for crate, _, it, place in clauses() if is_command(crate) and it.kind == "ensures" and it.is_frame()]


def unnamed_uses():
    found = []
    for crate, used in sources.uses().items():
        code = [sources.read(it) for it in sources.files(f"{sources.CRATES}/{crate}/src", ".rt")]
        specs = [sources.read(it) for it in sources.files(f"{sources.CRATES}/{crate}/specs", ".antt")]
        text = "\n".join([*code, *specs, *proofs()[crate].values()])
        found += [f"crates.txt: {crate} uses {it}, which no file of it names" for it in used
                  if not any(form in text for form in (f"{it}::", f"Rattle.{it}.", f"use {it};"))]
    return found


def long_bodies():
    return [f"{it.place()}: {it.called()}: {it.body_len} lines" for _, it in functions() if it.body_len > LINES]


def long_contracts():
    return [f"{it.place()}: {it.called()}: {it.contract_len} lines" for _, it in functions() if it.contract_len > LINES]


def long_proofs():
    return told_proofs(lambda text: text.count("\n") > PROOF_LINES)


def clauses_of_work():
    return [place for _, _, it, place in clauses() if re.search(r"\bwork_of\b", it.text)]


def proofs_of_lending():
    return told_proofs(lambda text: "lent_again" in text)


@functools.lru_cache(maxsize=None)
def ways_from(crate):
    """How many ways lead down through crates.txt from a crate: the one that ends at it, and those from each crate that it
    uses."""
    return 1 + sum(ways_from(it) for it in sources.uses()[crate] if it in sources.uses())


def most_ways():
    """From which crates the most of these ways lead."""
    ordered = sorted(sources.uses(), key=ways_from, reverse=True)
    return [f"crates.txt: {ways_from(it)} of them lead down from {it}" for it in ordered[:TOLD]]


def repeated():
    found = {}
    for _, function, it, place in clauses():
        if len(it.text) >= LONG:
            found.setdefault(it.text, {})[function] = place
    return [f"{next(iter(places.values()))} and in {len(places) - 1} more functions: {text}"
            for text, places in found.items() if len(places) > MANY]


# What is counted, how, and the most that it may be.
COUNTS = [
    ("clauses of commands that say only what stays", frames, 5),
    ("uses in crates.txt that the crate doesn't name", unnamed_uses, 0),
    # (one of them is the list of all commands, a call for each)
    (f"functions of more than {LINES} lines", long_bodies, 3),
    (f"contracts of more than {LINES} lines", long_contracts, 10),
    (f"proof files of more than {PROOF_LINES} lines", long_proofs, 1),
    ("clauses with work_of", clauses_of_work, 2),
    ("proof files with lent_again", proofs_of_lending, 0),
    (f"texts of {LONG} characters that are clauses of more than {MANY} functions", repeated, 2),
]


def counts():
    """What is counted, its count, what is told of it where that is too much, and the most that it may be."""
    for what, found, most in COUNTS:
        offenders = found()
        yield what, len(offenders), offenders, most
    # (some versions of the toolchain ask for a crate's checksum once for each of these)
    yield "ways that lead down through crates.txt", sum(map(ways_from, sources.uses())), most_ways(), WAYS


def counted():
    """What is wrong, where a count is more than it may be, with what was counted; and which bounds can be lowered,
    where a count is less than nine tenths of what it may be."""
    wrong, lower = [], []
    for what, count, told, most in counts():
        if count > most:
            wrong += [f"{what}: {count}, and may be {most}:", *[f"  {it}" for it in told]]
        elif 10 * count < 9 * most:
            lower.append(f"{what}: {count}, and may be {most}: lower that in checks/shape.py")
    return wrong, lower
