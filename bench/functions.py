#!/usr/bin/env python3
"""Tells how long the proof of each function of a crate took, the dearest first, with the steps that took most of it.

Run it as bench/functions.py NAME.., with names of crates, behind bench/gate.py NAME.., which proves these from nothing
with one job, and then their tests.

A check keeps a file of each step of each proof in crates/NAME/out/incremental, and what is told is the time between
that file and the one before it. So it is wall time, and true only where nothing was proved again since; and what comes
before the first file, as loading the libraries, isn't told. It needs Python 3.
"""
import collections
import os
import re
import sys

TOP = os.path.dirname(os.path.dirname(os.path.abspath(__file__)))
# How many functions are told of a crate, and how many steps of each.
SHOWN, STEPS = 12, 3
# The file that a check touches when it begins.
BEGINS = "rattle-last-used"
REST = "the rest"


def files_of(crate):
    """The time and the name of each step's file, in the order in which they were made."""
    found = []
    for at, _, names in os.walk(f"{TOP}/crates/{crate}/out/incremental"):
        for name in names:
            if name.endswith(".oantt") or name == BEGINS:
                found.append((os.stat(os.path.join(at, name)).st_mtime, re.sub(r"(\.decls)?\.oantt$", "", name)))
    return sorted(found)


def places(crate, names):
    """What each file is of: a function and a step of its proof, a file of lemmas, or else the rest."""
    begin, found = f"Rattle-{crate}-proofs.", {}
    proofs = {name: name[len(begin):].split(".") for name in names if name.startswith(begin)}
    # (each function has a file of its statement)
    functions = {".".join(parts[:-1]) for parts in proofs.values() if parts[-1] == "Statement"}
    for name in names:
        parts = proofs.get(name, [])
        heads = [".".join(parts[:count]) for count in range(len(parts), 0, -1)]
        function = next((it for it in heads if it in functions), None)
        lemmas = f"proofs/{'/'.join(parts)}.antt"
        if function:
            found[name] = function, (parts[function.count(".") + 1 :] or ["whole"])[0]
        elif parts and os.path.exists(f"{TOP}/crates/{crate}/{lemmas}"):
            found[name] = lemmas, "lemmas"
        else:
            found[name] = REST, "specs" if name.startswith(f"Rattle-{crate}-specs") else "other"
    return found


def show(crate):
    files = files_of(crate)
    if not files:
        sys.exit(f"crates/{crate}/out/incremental has nothing that a check kept")
    place = places(crate, [name for _, name in files])
    steps = collections.defaultdict(collections.Counter)
    for (before, first), (after, name) in zip(files, files[1:]):
        if BEGINS not in (first, name):
            steps[place[name][0]][place[name][1]] += after - before
    took = {it: sum(steps[it].values()) for it in steps}
    whole = sum(took.values())
    print(f"\n`{crate}`: {whole:.0f} seconds\n\n| function | seconds | share | steps |\n|---|---|---|---|")
    for it in sorted(took, key=took.get, reverse=True)[:SHOWN]:
        dearest = ", ".join(f"{step} {seconds:.1f}" for step, seconds in steps[it].most_common(STEPS))
        print(f"| {it} | {took[it]:.1f} | {100 * took[it] / max(whole, 0.001):.0f} % | {dearest} |")


if __name__ == "__main__":
    if not sys.argv[1:]:
        sys.exit("bench/functions.py wants names of crates")
    for named in sys.argv[1:]:
        show(named)
