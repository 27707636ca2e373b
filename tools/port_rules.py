#!/usr/bin/env python3
"""port_rules [--write]: brings the lines that docs/RULES.md quotes to today's spelling, once, after port.py and port_names.py.

A row of the page quotes a line of a source, and says where it stands. Where that file has no such line, the row gets the line
that says the same in today's spelling: the same but for blanks, parentheses and the words that the port turned. It prints each
row for which there is none, with the line most like it, to be brought over by hand. Numbers of lines are tools/rules --fix's.
"""
import difflib
import os
import re
import sys

PAGE = "docs/RULES.md"
ROW = re.compile(r"^(?P<head>\| .* \| `)(?P<text>[^`]+)(?P<mid>` \| )(?P<file>\S+):(?P<line>\d+) \|$")


def plain(text):
    """A line without what the port may have changed."""
    text = text.strip().replace("¦", "|").replace("getD", "get_or").replace("·", ".")
    text = re.sub(r"λ (?:r|_)\. ⌜ (.*) ⌝", r"\1", text)
    text = re.sub(r"(?<![\w.])r(?= [.≡≤])", "result", text) if text.startswith("ensures") else text
    text = re.sub(r"now \((\w+) \.(entry|exit)\)", lambda m: m[1] + (".now" if m[2] == "entry" else ".new"), text)
    text = re.sub(r"(?<=[a-z0-9])([A-Z])", lambda m: "_" + m[1].lower(), text)
    return re.sub(r"[\s()]", "", text)


left = turned = 0
page = []
for row in open(PAGE, encoding="utf-8").read().split("\n"):
    cited = ROW.match(row)
    if cited and os.path.exists(cited["file"]):
        lines = [line.strip() for line in open(cited["file"], encoding="utf-8").read().split("\n")]
        text = cited["text"].replace("¦", "|")
        same = [line for line in dict.fromkeys(lines) if plain(line) == plain(text)]
        if text not in lines and len(same) == 1:
            turned += 1
            row = f"{cited['head']}{same[0].replace('|', '¦')}{cited['mid']}{cited['file']}:{cited['line']} |"
        elif text not in lines:
            left += 1
            like = difflib.get_close_matches(text, lines, 1, 0) or [""]
            print(f"{cited['file']}:{cited['line']}\n    was   {text}\n    like  {like[0]}")
    elif cited:
        left += 1
        print(f"no file {cited['file']}")
    page.append(row)
if "--write" in sys.argv[1:]:
    open(PAGE, "w", encoding="utf-8").write("\n".join(page))
print(f"{turned} lines turned, {left} to be brought over by hand")
