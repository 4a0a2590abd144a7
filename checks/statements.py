"""Finds the statement of a function's body in which a line stands: what it binds or sets, where that is used next, and
under what it stands; and of a line of a head the parameters, with what callers hand in for them."""
import collections
import re

import calls
import tested

# Where the head of a statement begins that has a block behind it, and no value in braces.
BLOCK = re.compile(r"\b(?:if|while|match|for|loop|else|unsafe|impl)\b|=>\s*$|\|\s*$")
# What binds or sets names: `let`, `for`, the head of an arm, and `=`.
PATTERNS = [re.compile(it, re.DOTALL) for it in (
    r"\blet\s+([^=;]+?)\s*=(?!=)", r"\bfor\s+(.+?)\s+in\b", r"^([^=;]*?)(?:\s+if\b.*)?\s*=>",
    r"^\*?((?:self\.)?[a-z_]\w*)[\w.\[\]]*\s*(?:[-+*/|&^]|<<|>>)?=(?![=>])")]
# A name in a pattern, in front of no type, no bracket and no path.
BOUND = re.compile(r"(?<![\w.:])(?:self\.)?[a-z_]\w*(?!\w*(?:\s*:[^:]|\(|::))")
# A name that stands behind no dot, or behind two.
NAME = r"(?<!\w)(?<![^.]\.){}(?!\w)"
# Words of a pattern that bind nothing.
WORDS = ("mut", "ref", "self", "_", "true", "false")
# Words of statements that are no names.
KEYWORDS = ("if", "in", "as", "let", "for", "else", "while", "loop", "match", "return", "break", "continue", "move")

# The type of what memory is asked of, which nearly every function has and no contract names.
ALLOCATOR = "Global"

# A statement, or its head where a block follows: its lines, its text, and where it begins and ends in the file.
Statement = collections.namedtuple("Statement", "first last text begin end")


def has_value(code, opened):
    """Whether the brace at this place opens a value, as `Cut { start, end }` does, and no block."""
    front = re.split(r"[;{}]", code[max(0, opened - 400):opened])[-1]
    return re.search(r"\b[A-Z]\w*(?:::<[^<>]*>)?\s*$", front) is not None and not BLOCK.search(front)


def opened_before(code, at, stop):
    """The innermost bracket that is open at a place, from a place before it on."""
    depth = 0
    for place in range(at - 1, stop - 1, -1):
        if code[place] in ")]}":
            depth += 1
        elif code[place] in "([{":
            if not depth:
                return place
            depth -= 1
    return stop


def begin_of(code, at, opened):
    """Where the statement begins that has this place, in the block that is opened here."""
    depth = 0
    for place in range(at - 1, opened, -1):
        it = code[place]
        if not depth and (it in ";," or it == "}" and re.match(r"\}\s*[^\s.?;,)=|]", code[place:place + 40])):
            return place + 1
        depth += (it in ")]}") - (it in "([{")
    return opened + 1


def end_of(code, at):
    """Where the statement ends that begins here, or its head where a block follows."""
    depth = 0
    for place in range(at, len(code)):
        it = code[place]
        if not depth and (it in ";,)]}" or it == "{" and not has_value(code, place)):
            return place + (it == ";")
        depth += (it in "([{") - (it in ")]}")
    return len(code)


def statement_at(function, at):
    """The statement of a function's body with this place."""
    file, code = function.file, function.file.code
    opened = opened_before(code, at, function.body)
    while opened > function.body and (code[opened] in "([" or has_value(code, opened)):
        at, opened = opened, opened_before(code, opened, function.body)
    begin = begin_of(code, at, opened)
    begin += len(code[begin:at]) - len(code[begin:at].lstrip())
    end = begin + len(file.text[begin:end_of(code, begin)].rstrip())
    lines = (it.strip() for it in file.text[begin:end].split("\n"))
    text = " ".join(it for it in lines if not it.startswith("//"))
    return Statement(file.line(begin), file.line(max(begin, end - 1)), text, begin, end)


def statement(function, line):
    """The statement of a function's body in which a line stands, or None."""
    file = function.file
    found = re.compile(r"[ })]*([^\s}])").match(file.code, file.starts[line - 1])
    is_in = found and file.starts[line - 1] > function.body and line < function.last
    return statement_at(function, found.start(1)) if is_in else None


def above(function, it):
    """The head of the block in which a statement stands, or None where that is the function's body."""
    opened = opened_before(function.file.code, it.begin, function.body)
    return statement_at(function, opened) if opened > function.body else None


def bound(function, it):
    """The names that a statement binds or sets, each with the line where it is used next, or 0."""
    code, text = function.file.code, function.file.code[it.begin:it.end]
    behind = function.file.starts[function.last - 1]
    # (what the head of an arm binds is used behind it)
    begin = it.begin + text.find("=>") if "=>" in text else it.end
    words = [word for one in PATTERNS for found in one.finditer(text) for word in BOUND.findall(found[1])]
    for word in dict.fromkeys(one for one in words if one not in WORDS):
        used = re.compile(NAME.format(re.escape(word))).search(code, begin, behind)
        yield word, function.file.line(used.start()) if used else 0


def used(function, it):
    """The names of a statement that stand in the function above it, its clauses apart, each with the first of these
    lines."""
    file, start = function.file, function.file.starts[function.line - 1]
    text = re.sub(r"\bas \w+", lambda found: " " * len(found[0]), file.code[it.begin:it.end])
    clauses = file.starts[function.clauses[0].line - 1] if function.clauses else function.body
    own = {name for name, _ in bound(function, it)}
    own |= {name for name, kind in calls.head_of(function).params.items() if kind == ALLOCATOR}
    found = re.finditer(NAME.format(r"[a-z_]\w*") + r"(?!\s*(?:\(|::|!|:))", text)
    # (what stands in front of a quote is no name)
    for name in dict.fromkeys(one[0] for one in found if file.text[it.begin + one.end()] not in "\"'"):
        word = re.compile(NAME.format(name))
        first = word.search(file.code, start, clauses) or word.search(file.code, function.body, it.begin)
        if first and name not in (*WORDS, *own, *KEYWORDS):
            yield name, file.line(first.start())


def is_given(function, it):
    """Whether a statement is what the function gives: a `return`, or what stands last."""
    behind = function.file.code[it.end:function.file.starts[function.last - 1]]
    return it.text.startswith("return") or not behind.strip(" \n})") and not it.text.endswith(";")


def may_tell(clause, it):
    """Whether a clause may tell of what a statement gives, such as none of an `Ok` where it gives an `Err`."""
    other = r"\b(?:If|On)(?:Ok|Some)\b" if re.search(r"\b(?:Err\(|None\b)", it.text) else (
        r"\b(?:If|On)(?:Err|None)\b" if re.search(r"\b(?:Ok|Some)\(", it.text) else "$^")
    return re.search(r"\bresult\b", clause.text) is not None and not re.search(other, clause.text)


# Heads.

def parameters(function, line):
    """The parameters of a function that stand in a line of its head, each with its type, and its result with the type
    where that stands there."""
    file = function.file
    begin, end = file.starts[line - 1], min(file.starts[line:line + 1] + [function.body])
    head, text = calls.head_of(function), file.code[begin:end]
    if line < function.line or begin >= function.body or any(it.line <= line for it in function.clauses):
        return
    yield from ((name, kind) for name, kind in head.params.items()
                if kind != ALLOCATOR and re.search(rf"\b{name}\s*:(?!:)", text))
    if "->" in text:
        yield "result", head.gives


def arguments(call, function):
    """What a call hands in to a function, without what it is called on."""
    code, start = call.file.code, call.file.starts[call.line - 1]
    found = re.compile(rf"(::)?\b{function.name}\s*(?:::<[^(;{{}}]*>)?\(").search(code, max(0, start))
    if not found or call.file.line(found.start()) != call.line:
        return []
    begin, end = found.end(), calls.closing(code, found.end() - 1) - 1
    spans = calls.spans(code[begin:end])
    given = [" ".join(call.file.text[begin + first:begin + last].split()) for first, last in spans]
    is_path = found[1] and calls.head_of(function).own
    return [it for it in given if it][1 if is_path else 0:]


def handed_in(function, name):
    """What callers hand in for a parameter, those that are no tests first: each text and caller, with the lines."""
    number, found = list(calls.head_of(function).params).index(name), {}
    for call in sorted(calls.calls(function), key=lambda it: tested.is_test_file(it.crate, it.file.path)):
        its = arguments(call, function)
        if number < len(its):
            found.setdefault((its[number], call.function), []).append(call.line)
    return found
