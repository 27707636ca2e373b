#!/usr/bin/env python3
"""sheets.py SETTLE FILE..: the answers for people say what the records for programs say.

Plays each file both ways and compares of every call the line, the call and the refusal with its number, and the day and
date that a closing refused with 42, 43 or 46 names behind its sentence, and no other call; each of the three is met in one
of the files. Plays them again with the hours, and compares of every closed month every figure of its sheet, each hour of
the table, and the bars of the chart, which are the days in five steps of the largest, rounded up.
"""
import re
import subprocess
import sys
from collections import namedtuple

# the numbers of a record, in its order
Month = namedtuple(
    "Month",
    "line year month T ground clause V reading N P n A d C compared run denials R past_year past_month capacity total",
)
NAMES = "January February March April May June July August September October November December".split()
# the calls by their numbers, from 1
CALLS = ["open", "billing hours", "billing volume", "control hours", "control volume", "neighbour", "failure", "admission"]
CALLS += ["denial", "permission", "close"]
# the refusals that name a day
DAYS = {42, 43, 46}


def played(settle, *words):
    return subprocess.run([settle, *words], capture_output=True, check=True).stdout.decode()


def records(text):
    """The numbers of each sheet, and the hours behind it."""
    lines = [line.split("\t") for line in text.splitlines()]
    return [
        (Month(*map(int, line[1:])), [int(x) for x in lines[k + 1][2:]])
        for k, line in enumerate(lines)
        if line[0] == "sheet"
    ]


def chart(hours):
    """The largest day, and the rows of the chart, from the top."""
    days = [sum(hours[k : k + 24]) for k in range(0, len(hours), 24)]
    most = max(days)
    return most, ["".join("#" if row * most < 5 * day else " " for day in days) for row in range(4, -1, -1)]


def date(year, month):
    return f"{NAMES[month - 1]} {year}"


def found(m):
    """How V was found, as far as there are figures in it."""
    if m.ground == 8:
        return f", P {m.P} kW for T {m.T} hours\n"
    if m.ground == 9:
        return f", the cable formula at T {m.T} hours\n"
    if m.ground in (1, 3, 7):
        return ", the sum of the hours "
    text = f", {'B' if m.ground == 2 else 'K'} {m.reading} kWh less N {m.N} kWh"
    if m.reading < m.N:
        text += ", not below 0"
    if m.ground in (2, 5) and m.n > 0:
        text += f"; A {m.A} kWh evenly over {m.n} peak hours, at most P {m.P} kW each, "
    return text


def texts(m):
    """What the sheet of a month has to have."""
    yield f"    month     {date(m.year, m.month)}, T {m.T} hours\n"
    yield f"    ground    {m.ground}: "
    yield f"    clause    {f'point {m.clause}' if m.clause else 'none'}: "
    yield f"    V         {m.V} kWh{found(m)}"
    behind = f"; denials {m.denials}\n" if m.R == m.run + 1 else ", and at least 3 with two denials\n"
    yield f"    R         {m.R}: the run of {m.run} plus 1{behind}"
    yield f"    past      {date(m.past_year, m.past_month) + ', ' if m.past_year else 'none'}"
    if m.ground in (5, 6) and m.R >= 3 and m.n > 0 and m.past_year:
        outcome = "less" if m.ground == 6 else "not less"
        yield f"    test      A times d is {m.A * m.d}, n times C' is {m.n * m.compared}: {outcome}, "
    yield f"    n         {m.n} peak hours\n"
    yield f"    d         {m.d} working days\n"
    yield f"    C         {m.C} kWh in the capacity hours\n"
    yield f"    capacity  {m.capacity} kW\n"
    yield f"    total     {m.total} kWh\n"


def check(sheet, m, hours):
    place = 0
    for text in texts(m):
        assert sheet.startswith(text, place), f"line {m.line}: {text!r} was expected at {sheet[place : place + 80]!r}"
        place = sheet.index("\n", place) + 1
    most, bars = chart(hours)
    assert sheet.startswith(f"    days      the largest has {most} kWh\n", place), f"line {m.line}: the largest day"
    assert re.findall(r"^ +\|(.*)$", sheet, re.M) == bars, f"line {m.line}: the chart"
    rows = re.findall(r"^    day +(\d+) +(.*)$", sheet, re.M)
    assert [int(day) for day, _ in rows] == list(range(1, len(hours) // 24 + 1)), f"line {m.line}: the days"
    assert [int(x) for _, row in rows for x in row.split()] == hours, f"line {m.line}: the table"


def opened(file):
    """The year and month of each line of the file that opens a point."""
    with open(file, encoding="utf-8", errors="replace") as text:
        met = ((number, re.match(r"\s*open\s*(\d+)\s*-\s*(\d+)", line, re.I)) for number, line in enumerate(text, 1))
        return {number: (int(month[1]), int(month[2])) for number, month in met if month}


def calls(file, text):
    """Line, call, refusal and day of each call, and the month that is open before it."""
    openings, month = opened(file), None
    for record in (line.split("\t") for line in text.splitlines()):
        if record[0] == "call":
            line, call, refusal, day = map(int, record[1:])
            yield line, CALLS[call - 1], refusal, day, month
            if call == 1:
                month = openings[line] if refusal == 0 else None
        elif record[0] == "sheet":
            year, closed = int(record[2]), int(record[3])
            month = (year + closed // 12, closed % 12 + 1)


def check_calls(file, answers, text, sentences):
    """Holds the answers for people against the records. Each number has one sentence, kept from file to file."""
    said = re.findall(r"^(line \d+: [a-z ]+: (?:accepted|refused \d+, .*))$", answers, re.M)
    told = list(calls(file, text))
    assert len(said) == len(told), f"{file}: {len(said)} answers and {len(told)} records"
    for answer, (line, call, refusal, day, month) in zip(said, told):
        assert (day > 0) == (refusal in DAYS), f"{file}: line {line}: day {day} with {refusal}"
        behind = f": day {day}, {day} {date(*month)}" if day else ""
        if refusal and refusal not in sentences:
            sentence = answer.partition(f" refused {refusal}, ")[2].removesuffix(behind)
            assert sentence and ": day " not in sentence, f"{file}: {answer!r}"
            sentences[refusal] = sentence
        outcome = f"refused {refusal}, {sentences[refusal]}{behind}" if refusal else "accepted"
        expected = f"line {line}: {call}: {outcome}"
        assert answer == expected, f"{file}: {expected!r} was expected, not {answer!r}"


settle, files = sys.argv[1], sys.argv[2:]
sentences = {}
for file in files:
    check_calls(file, played(settle, file), played(settle, "--tab", file), sentences)
    sheets = re.split(r"^line \d+: .*\n", played(settle, "--hours", file), flags=re.M)
    sheets = [sheet for sheet in sheets if sheet.startswith("    month")]
    told = records(played(settle, "--tab", "--hours", file))
    assert len(sheets) == len(told), f"{file}: {len(sheets)} sheets and {len(told)} records"
    for sheet, (month, hours) in zip(sheets, told):
        check(sheet, month, hours)
assert DAYS <= sentences.keys(), f"refused with a day: {sorted(DAYS & sentences.keys())} alone"
print(f"{len(files)} files")
