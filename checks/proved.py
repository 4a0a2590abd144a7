#!/usr/bin/env python3
"""Makes docs/PROVED.md: what is by hand stays as it stands, and each clause of a public call that no row by hand names
gets a row in italics, with words from the comments in the code.

Run it as checks/proved.py --write to make the page, or alone to see where it isn't what would be made. Either tells
which rows name what isn't there.
"""
import difflib
import os
import re
import sys

sys.dont_write_bytecode = True
import contracts
import layers
import sources

PAGE = os.path.join(sources.TOP, "docs", "PROVED.md")
HEAD = ["| call | what it promises | clause | definition |", "|---|---|---|---|"]
# How the line begins that tells which of a crate's calls stand in the first part.
ABOVE = "*Above, among the headline theorems: "
# What is told where no comment does: of clauses that say only what stays, and of others.
STAYS, PLAIN = "What the clauses name stays as it was.", "As the clauses say."


def is_made(line):
    """Whether the script made this line: it, or what its row tells, is in italics."""
    return line.startswith(ABOVE) or re.match(r"\|[^|]*\| \*[^|]+\* \|", line) is not None


def ticked(names):
    return ", ".join(f"`{it}`" for it in dict.fromkeys(names))


def whole(comment):
    """A comment up to its first blank line, but for an aside in brackets."""
    first = comment[:comment.index("")] if "" in comment else comment
    return " ".join(it for it in first if not it.startswith("(")).replace("|", "or").replace("*", "")


def sentence(comment):
    """The first sentence of a comment, but for an aside in brackets."""
    return re.match(r"(.*?\.(?= [A-Z`]|$)|.*)", whole(comment))[1]


def words_for(function, clause, has_row):
    """What is told of a clause that no row by hand names: the first sentence of the comment above it or, of a call that
    no row names, the comment of the call, which is all that is said of its clauses."""
    told = sentence(clause.comment) or (not has_row and whole(function.comment))
    return told or (STAYS if clause.is_frame() else PLAIN)


def stated_by(function, clauses):
    """The definitions that clauses name."""
    known = function.file.imported
    words = re.findall(r"(?<![\w'.])[\w']+", " ".join(it.text for it in clauses))
    return [known[it] for it in words if it in known]


class Page:
    """The page: its lines, those of them that are by hand, and what these tell."""

    def __init__(self):
        text = sources.read(PAGE)
        self.lines = text.split("\n")
        by_hand = "\n".join(it for it in self.lines if not is_made(it))
        self.by_hand = re.sub("\n{3,}", "\n\n", by_hand).split("\n")
        # The functions that rows name, and with each the clauses; and the calls in the first part, by their crates.
        self.told, self.above = set(), {}
        for _, crate, is_first, names in contracts.facts(self.by_hand):
            calls, clauses = names[0], names[2] if len(names) > 2 else []
            functions = [it for call in calls for it in contracts.functions(crate, call)]
            self.told |= {(it, clause) for it in functions for clause in ["", *clauses]}
            if is_first:
                self.above.setdefault(crate, []).extend(calls)

    def rows(self, crate):
        """The rows that are made for a crate. Calls of which one thing is told, by the same clauses, are in one row."""
        found = {}
        for function in sources.crates()[crate].public():
            groups, has_row = {}, (function, "") in self.told
            for clause in function.ensures:
                if (function, clause.name) not in self.told:
                    groups.setdefault(words_for(function, clause, has_row), []).append(clause)
            for words, clauses in groups.items():
                cells = f"| *{words}* | {ticked(it.name for it in clauses)} | {ticked(stated_by(function, clauses))} |"
                found.setdefault(cells.replace("|  |", "| |"), []).append(function.called())
        return [f"| {ticked(calls)} {cells}" for cells, calls in found.items()]

    def section(self, crate, lines):
        """A crate's part of the page."""
        rows = self.rows(crate)
        if rows and not any(it.startswith("|") for it in lines):
            lines = [*lines, *HEAD, ""]
        tables = [number for number, it in enumerate(lines) if it.startswith("|")] or [len(lines)]
        above = [f"{ABOVE}{ticked(self.above[crate])}.*", ""] if crate in self.above else []
        first, behind = tables[0], tables[-1] + 1
        return [*lines[:first], *above, *lines[first:behind], *rows, *lines[behind:]]

    def made(self):
        """The lines that the page is to have: a part for each crate that has public calls, those of tests left out."""
        parts, left = [[]], [it for it in sources.uses() if it not in layers.tests()]
        for line in self.by_hand:
            if line.startswith("## "):
                parts.append([])
            parts[-1].append(line)
        told = [(contracts.quoted(part[0]) or [""])[0] if part[0].startswith("## ") else "" for part in parts]
        new = [it for it in left if it not in told and self.rows(it)]
        parts += [[f"## `{it}`", ""] for it in new]
        return [line for crate, part in zip(told + new, parts)
                for line in (self.section(crate, part) if crate in left else part)]


def wrong():
    """Where the page isn't what is made of it and of the code."""
    page, told = Page(), []
    made = page.made()
    for _, start, stop, first, last in difflib.SequenceMatcher(None, page.lines, made, False).get_opcodes():
        if page.lines[start:stop] != made[first:last]:
            told += [f"docs/PROVED.md:{start + number}: the code doesn't say: {it}"
                     for number, it in enumerate(page.lines[start:stop], 1)]
            told += [f"docs/PROVED.md:{start + 1}: here is missing: {it}" for it in made[first:last]]
    return told + ["checks/proved.py --write makes docs/PROVED.md anew"] * bool(told)


def main():
    if sys.argv[1:] not in ([], ["--write"]):
        sys.exit(__doc__)
    if sys.argv[1:]:
        text = "\n".join(Page().made())
        with open(PAGE, "w", encoding="utf-8") as page:
            page.write(text)
    held = contracts.Documents()
    held.proved()
    told = held.wrong + wrong()
    print("\n".join(told or ["docs/PROVED.md is what is made of it and of the code"]))
    return 1 if told else 0


if __name__ == "__main__":
    sys.exit(main())
