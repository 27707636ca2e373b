"""The definitions that state document 01, and the texts in which one token of them is changed: for tools/mutants."""
import os
import re

TOP = os.path.dirname(os.path.dirname(os.path.abspath(__file__)))

# the crates whose specs state document 01, the lowest first, and of each the files that do
DEFINES = {
    "numbers": ["Lists", "Rounding"],
    "calendar": ["Calendar"],
    "units": ["Volumes"],
    "sharing": ["Shares"],
    "power": ["Power", "Basis"],
    "marks": ["Marks", "Peak"],
    "contract": ["Contract"],
    "record": ["Record"],
    "validity": ["Valid"],
    "store": ["Store"],
    "rules": ["Calls", "Grounds", "Rules", "Right"],
    "model": ["Model", "Opening", "Refusals", "Refused", "Settled"],
    "history": ["Book", "Claim", "Equal"],
}
# the crates that hold laws and examples and no code: each of their files is copied beside a mutant
HOLDERS = ["history", "examples", "ground_laws"]
# the files of examples, by their names, in any crate's proofs
EXAMPLES = re.compile(r"(Examples|Months|Claims|Answers)$")

USE = re.compile(r"(?m)^use Rattle\.(\w+)\.(specs|proofs)\.([\w.+]+)\.\{([^}]*)\}\n?")
TOKEN = re.compile(r"[A-Za-z_]\w*|\d+|&&|\|\||\+\+|\[\]|[^\sA-Za-z_0-9]")
OPERATORS = {
    "+": ["-"], "-": ["+"], "*": ["+"], "/": ["*"], "%": ["/"], "&&": ["||"], "||": ["&&"], "≤": ["<"], "<": ["≤"],
    "leb": ["ltb"], "ltb": ["leb"], "eqb": ["leb"], "min": ["max"], "true": ["false"], "false": ["true"],
    "all_to": ["any_to"], "any_to": ["all_to"], "take": ["drop"], "drop": ["take"],
}
DROPPED = {"not", "suc"}
OPERATOR_NAMES = {"+", "-", "*", "/", "%", "&&", "||", "≤", "<"}
PRELUDE = OPERATOR_NAMES | {"leb", "ltb", "eqb", "min", "max", "true", "false", "take", "drop"}
WORDS = {"let", "in", "record", "where", "elim", "as", "cond", "Type", "Unit", "abbrev", "unfoldable", "pub", "data"}


class Module:
    """a file of specs or proofs: its name, its text without the line that binds it to a function, and what it uses"""

    def __init__(self, crate, part, path, file):
        self.key = (crate, part, path)
        self.file = file
        text = open(file, encoding="utf-8").read()
        if path == "Answers":
            text = re.sub(r"(?m)^use .* as goal\n", "", text)
            text = re.sub(r"(?ms)^pub returns : .*\Z", "", text)
        self.text = text
        self.uses = [(m[1], m[2], m[3]) for m in USE.finditer(text)]

    @property
    def is_example(self):
        return self.key[1] == "proofs" and bool(EXAMPLES.search(self.key[2]))

    @property
    def flat(self):
        return "_".join(self.key).replace(".", "_")


def modules():
    """all files of specs and proofs of the crates that define and hold, those of functions left out"""
    found = {}
    for crate in list(DEFINES) + HOLDERS:
        for part in ("specs", "proofs"):
            folder = os.path.join(TOP, "crates", crate, part)
            if not os.path.isdir(folder):
                continue
            for name in sorted(os.listdir(folder)):
                if name.endswith(".antt") and name != "Lib.antt":
                    found[crate, part, name[:-5]] = Module(crate, part, name[:-5], os.path.join(folder, name))
            for name in sorted(os.listdir(folder)):
                file = os.path.join(folder, name, "Answers.antt")
                if part == "proofs" and crate == "examples" and os.path.exists(file):
                    found[crate, part, "Answers"] = Module(crate, part, "Answers", file)
    return found


def users(all_modules, key):
    """the module and those that use it, by one another"""
    got, more = {key}, True
    while more:
        more = False
        for k, m in all_modules.items():
            if k not in got and any(u in got for u in m.uses):
                got.add(k)
                more = True
    return got


def needed(all_modules, targets, changed):
    """what has to be copied for the targets: of the modules they use, those that change and those of the holders"""
    got, queue = set(), list(targets)
    while queue:
        k = queue.pop()
        if k in got or k not in all_modules:
            continue
        got.add(k)
        queue += [u for u in all_modules[k].uses if u in changed or u[0] in HOLDERS]
    return got


# THE TOKENS THAT ARE CHANGED

class Mutant:
    def __init__(self, module, owner, place, old, new, text, number):
        self.module, self.owner, self.old, self.new, self.text, self.number = module, owner, old, new, text, number
        self.line, self.column = place

    @property
    def name(self):
        k = self.module.key
        again = f" ({self.number})" if self.number > 1 else ""
        return f"{k[0]}/{k[2]} {self.owner}: {self.old} → {self.new}{again}"


def grouped(pairs):
    """the names of pairs of a name and its type, in groups of the same type, without those that stand alone"""
    kinds = {}
    for name, kind in pairs:
        kinds.setdefault(re.sub(r"\s+", " ", kind.strip()), []).append(name)
    return [g for g in kinds.values() if len(g) > 1]


def structs():
    """the fields of each struct of the code and of each record of the specs, in groups of the same type"""
    forms = {"src": (r"(?ms)^pub struct \w+ \{(.*?)\n\}", r"pub (\w+): ([^,\n]+),"),
             "specs": (r"(?m)^pub record .*? where\n((?:  .*\n|\n)+)", r"pub (\w+) : (.+)")}
    groups = []
    for crate in DEFINES:
        for folder, (whole, field) in forms.items():
            base = os.path.join(TOP, "crates", crate, folder)
            for name in sorted(os.listdir(base)) if os.path.isdir(base) else []:
                text = open(os.path.join(base, name), encoding="utf-8").read()
                for body in re.findall(whole, text):
                    groups += grouped(re.findall(field, body))
    return groups


def signatures(module):
    """the definitions of a module in groups of the same signature, and the constructors of each type"""
    text = re.sub(r"--.*", "", module.text)
    bare = lambda kind: re.sub(r"\((\w+ )+: ([^)]*)\)", r"\2", kind)
    got = grouped((n, bare(k)) for n, k in re.findall(r"(?m)^(?:abbrev |unfoldable )?pub (\w+) : (.+)$", text))
    for body in re.findall(r"(?m)^pub data \w+ .*? where\n((?:  .*\n|\n)+)", text):
        got += grouped((n, k) for names, k in re.findall(r"(?m)^  ([\w ]+) : (.+)$", body) for n in names.split())
    return got


def bodies(text):
    """(owner, start of the left side or None, start, end) of each text that says what something is"""
    at, owner, kind, got = 0, None, None, []
    for line in text.split("\n"):
        bare = line.split("--")[0].rstrip()
        end = at + len(bare)
        head = re.match(r"(?:abbrev |unfoldable )?(?:pub )?(?:abbrev |unfoldable )?(record |data )?(\w+) ?(?:\(.*\) )?:", bare)
        if not bare or bare.startswith("use "):
            pass
        elif head and not bare.startswith(" "):
            owner, kind = head[2], (head[1] or "name").strip()
        elif kind == "record" and bare.startswith("  pub "):
            got.append([f"{owner}.{bare.split()[1]}", None, at + bare.index(" : ") + 3, end])
        elif kind == "name" and owner and re.match(rf"{re.escape(owner)}( |$)", bare):
            cut = re.search(r" =( |$)", bare)
            got.append([owner, at, at + cut.end() if cut else end, end])
        elif bare.startswith(" ") and got and kind in ("record", "name"):
            got[-1][3] = end
        at += len(line) + 1
    return got


def tokens(text, start, end):
    bare = re.sub(r"--[^\n]*", lambda m: " " * len(m[0]), text[start:end])
    return [(start + m.start(), start + m.end(), m[0]) for m in TOKEN.finditer(bare)]


class Arguments:
    """of a body, the spans of the arguments of each application by where its function stands, and of the values of each record"""

    def __init__(self, text, toks):
        self.text, self.toks, self.lists, self.heads = text, toks, [], {}
        self.parse(0, None)

    def flush(self, atoms):
        if len(atoms) > 2:
            self.heads[atoms[0][0]] = atoms[1:]
            if self.text[atoms[0][0]:atoms[0][1]] != "eqb":
                self.lists.append(atoms[1:])
        atoms.clear()

    def projected(self, i, end):
        """past the fields that follow token i, which ends there"""
        toks = self.toks
        while i + 2 < len(toks) and toks[i + 1][2] == "." and toks[i + 1][0] == end and toks[i + 2][0] == end + 1:
            i, end = i + 2, toks[i + 2][1]
        return i, end

    def bracket(self, i, began):
        """the place of the closing bracket, and the span of all from the opening one, or from `record`, with fields behind"""
        a, b, t = self.toks[i]
        values, i = self.parse(i + 1, {"(": ")", "[": "]", "{": "}"}[t])
        if len(values) > 1:
            self.lists.append(values)
        i, end = self.projected(i, self.toks[i][1] if i < len(self.toks) else b)
        return i, (began if t == "{" and began is not None else a, end)

    def parse(self, i, closing):
        toks, atoms, values, began = self.toks, [], [], None
        while i < len(toks) and toks[i][2] != closing:
            a, b, t = toks[i]
            if t in "([{":
                i, span = self.bracket(i, began)
                atoms.append(span)
            elif t == "record":
                began = a
            elif t == "λ":
                self.flush(atoms)
                i = next((j for j in range(i, len(toks)) if toks[j][2] == "."), len(toks))
            elif t == "=" and closing == "}":
                atoms.clear()
                values.append([toks[i + 1][0] if i + 1 < len(toks) else b, None])
            elif re.match(r"\w|\[\]", t) and t not in ("let", "in", "where"):
                i, end = self.projected(i, b)
                atoms.append((a, end))
            else:
                if t == ";" and values:
                    values[-1][1] = toks[i - 1][1]
                self.flush(atoms)
            i += 1
        if values and values[-1][1] is None:
            values[-1][1] = toks[i - 1][1]
        self.flush(atoms)
        return [tuple(v) for v in values if v[1]], i


def following(groups, name):
    """of each group that has the name, the one after it"""
    return [g[(g.index(name) + 1) % len(g)] for g in groups if name in g]


class Changes:
    """the mutants of one file: each text with one place changed"""

    def __init__(self, module, everywhere):
        specs = [m for m in everywhere.values() if m.key[1] == "specs"]
        self.module, self.text, self.got, self.seen = module, module.text, {}, {}
        self.fields = structs()
        self.names = [g for m in specs for g in signatures(m)]
        self.homes = {n: m.key for m in reversed(specs) for g in signatures(m) for n in g}
        self.imported = {n for names in re.findall(r"(?m)^use [\w.+]+\.\{([^}]*)\}", self.text) for n in re.split(r",\s*", names)}
        for owner, left, start, end in bodies(self.text):
            self.owner = owner
            self.of_body(tokens(self.text, left, start) if left is not None else [], tokens(self.text, start, end))

    def with_import(self, text, word):
        """the text with an import of the word, where it has none"""
        shown, own = f"◌{word}◌" if word in OPERATOR_NAMES else word, rf"(?m)^(abbrev |unfoldable )?pub {re.escape(word)} :"
        if shown in self.imported or re.search(own, self.text):
            return text
        if word in PRELUDE:
            home = "std", "specs", "Prelude"
        elif self.homes.get(word, self.module.key) != self.module.key:
            home = self.homes[word]
        else:
            return text
        at = re.search(r"(?m)^use ", text).start()
        return text[:at] + "use Rattle.%s.%s.%s.{%s}\n" % (*home, shown) + text[at:]

    def add(self, a, b, new, old=None, word=None):
        old, short = old or self.text[a:b], lambda s: re.sub(r"\s+", " ", s)
        if old == new:
            return
        text = self.text[:a] + new + self.text[b:]
        text = self.with_import(text, word) if word else text
        key = self.owner, short(old), short(new)
        self.seen[key] = self.seen.get(key, 0) + 1
        place = self.text[:a].count("\n") + 1, a - self.text[:a].rfind("\n")
        self.got.setdefault(text, Mutant(self.module, *key[:1], place, *key[1:], text, self.seen[key]))

    def of_body(self, sides, toks):
        known = {n for g in self.names for n in g}
        variables = list(dict.fromkeys(t for _, _, t in sides[1:]
                                       if re.match(r"[a-z]\w*$", t) and t not in known and t not in ("record", "suc", "zero")))
        arguments = Arguments(self.text, toks)
        for i in range(len(toks)):
            self.of_token(toks, i, variables, arguments.heads)
        for a, b, t in sides[1:]:
            self.of_name(a, b, t, variables)
        for spans in arguments.lists:
            self.of_arguments(spans)

    def of_token(self, toks, i, variables, heads):
        a, b, t = toks[i]
        last, then = toks[i - 1][2] if i else "", toks[i + 1][2] if i + 1 < len(toks) else ""
        projected = last == "." and self.text[a - 1] == "." and self.text[a - 2].strip()
        if re.match(r"\d+$", t):
            if not (projected or then == "=" or last == "Type" or (last == "{" and then == "}")):
                self.of_number(a, b, int(t))
        elif projected:
            for new in following(self.fields, t):
                self.add(a, b, new)
        elif t in OPERATORS:
            self.of_operator(a, b, t, heads)
        elif t in DROPPED:
            self.add(a, b, "", old=t)
        elif re.match(r"[A-Za-z_]\w*$", t) and t not in WORDS and then != "=":
            self.of_name(a, b, t, variables)
            if t in variables:
                self.add(a, b, following([variables], t)[0])

    def of_number(self, a, b, n):
        self.add(a, b, str(n + 1))
        if n > 0:
            self.add(a, b, str(n - 1))

    def of_operator(self, a, b, t, heads):
        # x ≤ 0 is x = 0
        to_zero = t == "eqb" and [self.text[c:d] for c, d in heads.get(a, [])][1:] == ["0"]
        for new in ["ltb"] if to_zero else OPERATORS[t]:
            self.add(a, b, new, word=new)

    def of_name(self, a, b, t, variables):
        for new in following(self.names, t) if t not in variables else []:
            self.add(a, b, new, word=new)

    def of_arguments(self, spans):
        for (a, b), (c, d) in zip(spans, spans[1:]):
            one, two = self.text[a:b], self.text[c:d]
            if one != two:
                self.add(a, d, two + self.text[b:c] + one, old=f"{one} , {two}")


def mutants_of(module, everywhere):
    return list(Changes(module, everywhere).got.values())
