#!/usr/bin/env python3
"""port_edits: brings the must-fail edits to today's form, once, after port.py and port_names.py.

Today a file is one edit. A file that tried several, each behind a line 'edit: NAME', keeps its name and the first of them; each
other one gets a file of its own, under the name that it had inside. The spelling of what they replace is today's. Run at the
top of the repository; it prints each edit whose text no longer stands once in its file, to be mended by hand.
"""
import glob
import os
import re


def respelled(text):
    """A line of antt in today's spelling."""
    text = re.sub(r"(?<=[\w)]) \.(?=[\w«])", ".", text)
    text = text.replace("getD", "get_or")
    text = re.sub(r"now \((\w+)\.entry\)", r"\1.now", text)
    text = re.sub(r"now (\w+)\.entry", r"\1.now", text)
    text = re.sub(r"now \((\w+)\.exit\)", r"\1.new", text)
    text = re.sub(r"now (\w+)\.exit", r"\1.new", text)
    text = re.sub(r"λ (r|_)\. ⌜ ", "", text).replace(" ⌝ }", " }")
    text = re.sub(r"(?<!\w)\((\w+(?:\.\w+)+)\)", r"\1", text)
    return re.sub(r"(?<![\w.])r(?= ≡)", "result", text)


def sections(text):
    """The edits of a file: their names, none for a file that is one edit, and their lines."""
    name, lines = None, []
    for line in text.rstrip("\n").split("\n"):
        if line.startswith("edit: "):
            if name or any(it.startswith("file: ") for it in lines):
                yield name, lines
            name, lines = line[6:], []
        elif not line.startswith("# Each of these edits"):
            lines.append(line)
    yield name, lines


def stands(crate, lines):
    """What hinders the edit, or none: each old text stands once in its file as the pairs before left it."""
    texts, path, old = {}, "", ""
    for line in lines:
        if line.startswith("file: "):
            path = line[6:].strip()
        elif line.startswith("old: "):
            old = line[5:]
        elif line.startswith("new:"):
            if path not in texts:
                at = f"{crate}/{path}"
                if not os.path.isfile(at):
                    return f"no file {path}"
                texts[path] = open(at, encoding="utf-8").read()
            if texts[path].count(old) != 1:
                return f"{texts[path].count(old)} times in {path}: {old}"
            texts[path] = texts[path].replace(old, line[4:].removeprefix(" "))
    return None


if __name__ == "__main__":
    left = count = 0
    for path in sorted(glob.glob("crates/*/must-fail/*.edit")):
        crate = os.path.dirname(os.path.dirname(path))
        first = True
        for name, lines in list(sections(open(path, encoding="utf-8").read())):
            kept = []
            for line in lines:
                kept.append(respelled(line) if line.startswith(("old: ", "new:")) else line)
            while kept and not kept[0]:
                kept.pop(0)
            while kept and not kept[-1]:
                kept.pop()
            to = path if first else f"{crate}/must-fail/{name}.edit"
            assert first or not os.path.exists(to), to
            if first and name:
                kept.insert(0, f"# edit: {name}")
            first = False
            count += 1
            open(to, "w", encoding="utf-8").write("\n".join(kept) + "\n")
            why = stands(crate, kept)
            if why:
                left += 1
                print(f"{to}: {why}")
    print(f"{count} edits, {left} to be mended by hand")
