"""Reads the layers of crates.txt, and whether a crate uses one of a higher layer, or docs/ARCHITECTURE.md tells others.

A line of crates.txt that is `# NAME`, with one word, begins the layer NAME; the lines of its crates follow. The lowest
layer comes first.
"""
import functools
import os
import re

from sources import TOP, uses


@functools.lru_cache(maxsize=None)
def layers():
    """The layers, the lowest first, each as its name and its crates. What stands above the first of them is under the
    name ''."""
    found = [("", [])]
    with open(os.path.join(TOP, "crates.txt"), encoding="utf-8") as lines:
        for line in lines:
            name = re.fullmatch(r"# *([\w-]+)\s*", line)
            crate = re.match(r"[\w-]+", line)
            if name:
                found.append((name[1], []))
            elif crate:
                found[-1][1].append(crate[0])
    return found


def tests():
    """The crates that are tests and no part of the program."""
    return dict(layers()).get("tests", [])


def parts():
    """The parts of docs/ARCHITECTURE.md that are headed by a name in backticks, each with the crates of its list."""
    with open(os.path.join(TOP, "docs", "ARCHITECTURE.md"), encoding="utf-8") as text:
        found = re.findall(r"^## `([\w-]+)`\n(.*?)(?=^## |\Z)", text.read(), re.MULTILINE | re.DOTALL)
    return [(name, re.findall(r"^- `([\w-]+)`:", part, re.MULTILINE)) for name, part in found]


def wrong():
    """What is wrong with them: a crate under no layer, one that uses a crate of a higher layer, and a layer that the
    document tells otherwise."""
    (_, outside), *found = layers()
    told = [f"{crate} stands under no layer" for crate in outside]
    at = {crate: number for number, (_, crates) in enumerate(found) for crate in crates}
    for crate, used in uses().items():
        higher = [it for it in used if at.get(it, -1) > at.get(crate, len(found))]
        told += [f"{crate} of {found[at[crate]][0]} uses {it} of {found[at[it]][0]}" for it in higher]
    documented = dict(parts())
    for name, crates in found:
        had = documented.get(name, [])
        if had != crates:
            odd = [it for it in [*crates, *had] if (it in crates) != (it in had)]
            told.append(f"docs/ARCHITECTURE.md: {name} has other crates than in crates.txt, or another order: {odd}")
    if [name for name, _ in parts()] != [name for name, _ in found]:
        told.append("docs/ARCHITECTURE.md: its parts have other names, or another order, than the layers of crates.txt")
    return told
