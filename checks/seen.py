"""Reads the edits that the prover has to refuse: those that the gate tries, and those of checks/edits, which are tried
by hand, with what is noted of them in checks/edits/SEEN."""
import glob
import hashlib
import os

from sources import CRATES, TOP

EDITS = os.path.join(TOP, "checks", "edits")
SEEN = os.path.join(EDITS, "SEEN")
HEAD = """\
# Edits of this folder that were seen refused, by checks/edits/try or while the gate still tried them: each with its sum,
# and each file that it changes with the sum that this had then (the first 16 digits of SHA-256). Where one of them has
# another sum now, it is to be tried again.
# It is a note of what was tried by hand: no part of the gate, and it stands in for no run of anything.
"""


def sum_of(path):
    with open(path, "rb") as file:
        return hashlib.sha256(file.read()).hexdigest()[:16]


class Edit:
    """An edit of a crate, which stands in the crate's must-fail/, or in checks/edits under the crate's name."""

    def __init__(self, path, crate):
        self.path, self.crate = path, crate
        self.name = f"{crate}/{os.path.basename(path)}"
        self.is_by_hand = path.startswith(EDITS)

    def files(self):
        """The files of its crate that it changes. It raises ValueError where it can't be applied."""
        texts, file, old = {}, "", ""
        with open(self.path, encoding="utf-8") as lines:
            for line in lines.read().split("\n"):
                word, _, text = line.partition(":")
                text = text[1:]
                if word == "file":
                    file = text.strip()
                    path = os.path.join(CRATES, self.crate, file)
                    if file not in texts:
                        texts[file] = read(path)
                elif word == "old":
                    old = text
                elif word == "new":
                    count = texts[file].count(old) if old and file in texts else 0
                    if count != 1:
                        raise ValueError(f"a text that it takes out stands in {file or 'no file'} {count} times")
                    texts[file] = texts[file].replace(old, text)
        return sorted(texts)

    def line(self):
        """Its line in SEEN, as it and its files stand now."""
        sums = [f"{file} {sum_of(os.path.join(CRATES, self.crate, file))}" for file in self.files()]
        return " ".join([self.name, sum_of(self.path), *sums])

    def trouble(self, noted):
        """Why it wants a look, or None."""
        try:
            line = self.line()
        except ValueError as why:
            return str(why)
        if not self.is_by_hand or noted.get(self.name) == line:
            return None
        if self.name in noted:
            return "it, or a file that it changes, isn't as it was when it was seen refused"
        return "it wasn't seen refused"


def read(path):
    try:
        with open(path, encoding="utf-8") as file:
            return file.read()
    except OSError:
        raise ValueError(f"there is no {os.path.relpath(path, TOP)}") from None


def edits_by_hand():
    return [Edit(it, os.path.basename(os.path.dirname(it))) for it in sorted(glob.glob(f"{EDITS}/*/*.edit"))]


def edits_of_gate():
    found = sorted(glob.glob(f"{CRATES}/*/must-fail/*.edit"))
    return [Edit(it, os.path.basename(os.path.dirname(os.path.dirname(it)))) for it in found]


def noted():
    """The lines of SEEN, by the names of edits."""
    if not os.path.exists(SEEN):
        return {}
    with open(SEEN, encoding="utf-8") as lines:
        return {line.split()[0]: line.strip() for line in lines if line.strip() and not line.startswith("#")}


def note(lines):
    with open(SEEN, "w", encoding="utf-8") as file:
        file.write(HEAD + "".join(f"{lines[name]}\n" for name in sorted(lines)))
