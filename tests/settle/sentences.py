#!/usr/bin/env python3
"""sentences.py: the sentences of the program are the binding's and the page's, number by number.

Three of the refusals can be met in no history file, and are held by this alone.
"""
import re

WORDING = "crates/sheets/src/wording.rt"
ERRORS = "crates/line_reader/src/errors.rt"


def text(path):
    return open(path).read()


def error_numbers():
    """The numbers of the errors, which the cases of the type have in their order."""
    cases = re.search(r"^pub enum Error \{(.*?)^\}", text(ERRORS), re.M | re.S)[1]
    names = re.findall(r"^    (\w+)(?: = 1)?,$", cases, re.M)
    return {f"Error::{name}": number for number, name in enumerate(names, 1)}


def spoken(function):
    """The sentences of the function, by the numbers that it gives them to."""
    body = re.search(rf"^pub(?:\(crate\))? fn {function}\(.*?^}}", text(WORDING), re.M | re.S)[0]
    arms = re.findall(r'^ +([\w:]+) =>[\s{]*"([^"]*)"', body, re.M)
    return {int(case) if case.isdigit() else error_numbers()[case]: said for case, said in arms if case != "_"}


def refusals():
    """The binding's, by the numbers of its enum."""
    source = text("rust/src/refusal.rs")
    numbers = dict(re.findall(r"^    (\w+) = (\d+),$", source, re.M))
    return {int(numbers[name]): said for name, said in re.findall(r'Refusal::(\w+) =>[\s{]*"([^"]*)"', source)}


def grounds():
    source = re.search(r"fn ground_sentence.*?^}", text("rust/src/lib.rs"), re.M | re.S)[0]
    return {int(number): said for number, said in re.findall(r'(\d+) => "([^"]*)"', source)}


def errors():
    page = re.search(r"^## Errors$.*?^## ", text("docs/HISTORY-FILE.md"), re.M | re.S)[0]
    return {int(number): said for number, said in re.findall(r"^\| (\d+) \| ([^|]*) \|[^|]*\|$", page, re.M)}


for function, expected, size in (("refusal_words", refusals(), 26), ("ground_words", grounds(), 9), ("error_words", errors(), 20)):
    assert len(expected) == size, f"{function}: {len(expected)} sentences, not {size}"
    said = spoken(function)
    for number in sorted(set(said) | set(expected)):
        assert said.get(number) == expected.get(number), f"{function} {number}: {said.get(number)!r}, not {expected.get(number)!r}"
