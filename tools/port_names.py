#!/usr/bin/env python3
"""port_names: brings the repository's own definitions and lemmas to today's spelling, once, after port.py.

A definition, lemma, field or constructor of specs/ and proofs/ gets its name in snake case: a capital inside it becomes _ and
a small letter, and a dash becomes _. Types keep theirs. Where a lemma would get the name of a definition, it gets _lem behind
it. Functions of src/, exported names, strings and outputs keep their names. Run at the top of the repository; it prints how
many names it changed, and each lemma that got _lem.
"""
import collections
import glob
import re

HEAD = re.compile(r"(?:(?:pub|unfoldable|abbrev|mutual)\s+)*([^\s:(){},;]+)\s*(?:\(|\{|:)")
TYPE = re.compile(r"(?:(?:pub|unfoldable|abbrev)\s+)*(record|data)\s+(\S+)")
PART = re.compile(r"\s+(?:pub\s+)?([^\s:(){},;]+(?: [^\s:(){},;]+)*)\s*:")
OTHER = ("use ", "--", "open ", "module ", "ruleset ")
INNER = re.compile(r"\s+(?:(?:pub|unfoldable|abbrev)\s+)*([^\s:(){},;]+)\s*:\s")


def antt():
    return sorted(glob.glob("crates/*/specs/**/*.antt", recursive=True) + glob.glob("crates/*/proofs/**/*.antt", recursive=True))


def found():
    """The names that the repository's antt declares: those of definitions and lemmas, and those of fields and constructors."""
    names, parts = set(), set()
    for path in antt():
        if path.endswith(("/Answers.antt", "/Invariants.antt")):
            # their names are Rattle's
            continue
        inside, section = False, False
        for line in open(path, encoding="utf-8"):
            if line.startswith("module "):
                section = True
            elif line[:1].strip() and not line.startswith("--"):
                section = False
            head = INNER.match(line) if section and not inside else None
            if head:
                names.add(head[1])
                continue
            head = TYPE.match(line)
            if head:
                names.add(head[2])
                inside = True
                continue
            if line[:1].strip():
                inside = False
            part = PART.match(line) if inside else None
            if part:
                parts.update(part[1].split(" "))
                continue
            head = HEAD.match(line)
            if head and not line.startswith(OTHER):
                names.add(head[1])
    return names, parts


def is_camel(name):
    return re.match(r"[a-z]", name) and re.search(r"[A-Z]", name)


def snake(name):
    return re.sub(r"(?<=[a-z0-9])([A-Z])", lambda m: "_" + m[1].lower(), name).replace("-", "_")


names, parts = found()
own = {it for it in names | parts if re.match(r"[a-z]", it)}
defined = {snake(it) for it in own if is_camel(it)}
table, behind = {}, {}
for name in sorted(own):
    new = snake(name)
    if not is_camel(name) and new in defined:
        behind[name] = new + "_lem"
    elif new != name:
        table[name] = new
again = collections.Counter([*table.values(), *behind.values()])
assert max(again.values()) == 1, [it for it in again if again[it] > 1]

EDGE = r"[\w'\-≡≤≢∷+*/%⊎×?!]"


def turn(text, moves):
    """The text with each name of moves replaced. Behind a dot stands a field or a constructor, or a name that Rattle makes."""

    def one(m):
        if m[1] == "." and m[2] not in parts:
            return m[0]
        return m[1] + moves[m[2]]

    words = "|".join(sorted(map(re.escape, moves), key=len, reverse=True))
    return re.sub(rf"(?<!{EDGE})(\.?)(?<!::)({words})(?!{EDGE})", one, text)


camel = {it: new for it, new in table.items() if is_camel(it)}
count = 0
for path in antt() + sorted(glob.glob("crates/*/src/**/*.rt", recursive=True) + glob.glob("crates/*/must-fail/*.edit") + glob.glob("docs/*.md") + ["README.md"]):
    text = open(path, encoding="utf-8", newline="").read()
    new = text
    if path.endswith(".antt"):
        # a comment and a path name functions, which keep their names
        lines = new.split("\n")
        new = "\n".join(it if it.startswith("--") else turn(it, behind) for it in lines)
        new = turn(new, table)
    elif path.endswith((".edit", ".md")):
        new = turn(turn(new, {it: to for it, to in behind.items() if "-" in it}), table)
        # and names that port.py turned in the sources alone
        new = re.sub(r"(?<![\w-])(?!kWh?\b|oPeN\b|aZ\b|getD\b)[a-z][a-z0-9]*[A-Z]\w*", lambda m: snake(m[0]), new)
    else:
        new = turn(new, camel)
    if new != text:
        count += 1
        open(path, "w", encoding="utf-8", newline="").write(new)
print(f"{len(table) + len(behind)} names in {count} files")
for name in sorted(behind):
    print(f"{name} is {behind[name]}")
