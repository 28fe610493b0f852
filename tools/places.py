#!/usr/bin/env python3
"""Lists the places in crates/*/src where an older form may stand, point by point, and counts them.

    tools/places.py [FOLDER]     FOLDER is a checkout, this one by default

A place is a line or a function to look at: docs/DESIGN-PASS.md says of each what became of it. Tests and comments do not count.
"""
import difflib
import itertools
import pathlib
import re
import sys
from collections import defaultdict

ROOT = pathlib.Path(sys.argv[1] if len(sys.argv) > 1 else pathlib.Path(__file__).resolve().parent.parent)
INTEGER = r"(?:u8|u16|u32|u64|u128|usize|i8|i16|i32|i64|i128|isize)"


def sources():
    for path in sorted(ROOT.glob("crates/*/src/**/*.rt")):
        if path.name != "tests.rt":
            yield str(path.relative_to(ROOT)).removeprefix("crates/").replace("/src", ""), path.read_text().split("\n")


FILES = list(sources())


def code(line):
    return re.sub(r"//.*", "", line)


def lines_with(pattern):
    """Each line of code that the pattern fits."""
    return [f"{name}:{n}: {line.strip()}" for name, text in FILES for n, line in enumerate(text, 1) if re.search(pattern, code(line)) and "ghost use" not in line]


class Function:
    def __init__(self, file, line, text):
        self.file, self.line, self.text = file, line, text
        self.name = re.search(r"fn (\w+)", text[0]).group(1)
        body = next((k for k, row in enumerate(text) if row.strip() == "{" or row.rstrip().endswith("{") and not re.match(r"\s*(requires|ensures)", row)), None)
        head = text if body is None else text[: body + 1]
        self.signature = " ".join(row.strip() for row in head if not re.match(r"\s*(requires|ensures)", row))
        self.clauses = [row.strip() for row in head if re.match(r"\s*(requires|ensures)", row)]
        self.body = [] if body is None else text[body + 1 :]

    def place(self):
        return f"{self.file}:{self.line}: fn {self.name}"

    def parameters(self):
        inside = re.search(r"\((.*?)\)\s*(->|requires|ensures|where|[{;]|$)", self.signature)
        return re.findall(r"(\w+): ", inside.group(1)) if inside else []


def functions():
    for name, text in FILES:
        k = 0
        while k < len(text):
            if re.match(r"\s*(pub(\(crate\))? )?(extern \"C\" )?fn \w+", text[k]):
                indent = re.match(r"\s*", text[k]).group()
                end = k
                while not (text[end].startswith(indent + "}") and not text[end].startswith(indent + "} ")) and not (text[end].rstrip().endswith(";") and not text[end].startswith(indent + "    " * 2)):
                    if text[end].rstrip().endswith("{}"):
                        break
                    end += 1
                yield Function(name, k + 1, text[k : end + 1])
                k = end
            k += 1


FUNCTIONS = list(functions())


def tokens(function):
    """The body with every name made one, so that only its shape is left, but for methods and macros."""
    text = " ".join(code(row) for row in function.body)
    out = re.findall(r"\.\w+|\w+!|[A-Za-z_]\w*|\d[\d_]*|\S", text)
    keep = {"if", "else", "match", "for", "in", "while", "return", "let", "mut", "Some", "None", "Ok", "Err", "true", "false"}
    return [t if t.startswith(".") or t.endswith("!") or t in keep or not re.match(r"\w", t) else "x" for t in out]


def twins():
    out = []
    shapes = [(f, tokens(f)) for f in FUNCTIONS]
    for (f, a), (g, b) in itertools.combinations(shapes, 2):
        if min(len(a), len(b)) >= 12 and max(len(a), len(b)) < 1.4 * min(len(a), len(b)) and difflib.SequenceMatcher(None, a, b, autojunk=False).ratio() >= 0.86:
            out.append(f"{f.place()} ~ {g.place()}")
    fields = defaultdict(list)
    for name, text in FILES:
        for n, line in enumerate(text, 1):
            found = re.match(r"(?:pub )?struct (\w+)(?:<.*>)? \{", line)
            if found:
                members = []
                for row in text[n:]:
                    if row.startswith("}"):
                        break
                    member = re.match(r"\s+(?:pub(?:\(crate\))? )?(\w+): ([^{]*),$", row)
                    if member and not row.strip().startswith("ghost"):
                        members.append(member.group(1))
                fields[found.group(1)] = (name, n, set(members))
    for (s, (f, n, a)), (t, (g, m, b)) in itertools.combinations(fields.items(), 2):
        if len(a & b) >= 2 and len(a & b) >= min(len(a), len(b)):
            out.append(f"{f}:{n}: struct {s} ~ {g}:{m}: struct {t}")
    literals = defaultdict(list)
    for name, text in FILES:
        whole = "\n".join(code(row) for row in text)
        for found in re.finditer(r"\b([A-Z]\w+) \{((?:\s*\w+: -?\d+,)+)\s*\}", whole):
            literals[(found.group(1), re.sub(r"\s+", "", found.group(2)))].append(f"{name}:{whole[: found.start()].count(chr(10)) + 1}")
    for (kind, _), where in literals.items():
        out += [f"{place}: the literal of {kind} that stands in {len(where)} places" for place in where if len(where) > 1]
    return out


def flags():
    out = []
    for f in FUNCTIONS:
        if "&mut" in f.signature and re.search(r"-> bool", f.signature) or re.search(r"-> \(bool,", f.signature):
            out.append(f"{f.place()}: {re.search(r'-> .*?(?= *[{;]?$)', f.signature).group()}")
    return out


def clauses():
    seen = defaultdict(set)
    for f in FUNCTIONS:
        for clause in f.clauses:
            inner = re.search(r"\{(.*)\}", clause)
            if inner:
                seen[re.sub(r"\.(old|now|new)\b", "", inner.group(1).strip())].add(f.place())
    return [f"{len(where)} contracts: {fact}: {', '.join(sorted(where))}" for fact, where in sorted(seen.items()) if len(where) >= 3]


def together():
    seen = defaultdict(set)
    for f in FUNCTIONS:
        names = f.parameters()
        for pair in itertools.combinations(sorted(set(names)), 2):
            seen[pair].add(f.place())
    return [f"{len(where)} functions: ({', '.join(pair)}): {', '.join(sorted(where))}" for pair, where in sorted(seen.items()) if len(where) >= 3]


def copies():
    """Patterns that take a struct apart field by field, and functions that only write another type's value."""
    return lines_with(r"^\s*let \w+ \{$")


POINTS = [
    (1, "enums of our own", lambda: lines_with(r"^\s*(pub(\(crate\))? )?enum \w+")),
    (1, "a flag for what was done, or with a value beside it", lambda: flags() + lines_with(r"^\s+(pub(\(crate\))? )?\w+: bool,")),
    (1, "a number that stands for nothing or for a kind", lambda: lines_with(r"65_535|::MAX\b|\bFREE\b|Refusal::Number\(\d\)|-> u8\b|refusal: usize|refusal: 0")),
    (1, "an Option taken apart and put together again", lambda: lines_with(r"None => None|None => \w+\(|Some\(\w+\) => Some\(|None => Err\(|unreachable\(")),
    (2, "functions, types and literals of one shape", twins),
    (3, "loops over an index, and counts by hand", lambda: lines_with(r"^\s*while |^\s*for \w+ in [^{]*\.\.|\.enumerate\(\)|^\s*\w+ \+= 1;")),
    (4, "comparison, conversion and printing", lambda: lines_with(rf" as {INTEGER}\b|^impl.* (PartialEq|Eq|Ord|PartialOrd|Clone|Copy|Default|From<.*>|TryFrom<.*>|Display|fmt::Display) for |\bfn (compare|eq|cmp|narrow|wide|outcome_of|\w+_line|\w+_lines|spelling|number|place)\(|^\s*-?\(?\w+[\w.]* <=? .* && ") + copies()),
    (5, "a fact in three contracts or more", clauses),
    (5, "parameters that travel together through three functions or more", together),
    (6, "arrays and rows with a length or another row beside them", lambda: lines_with(r"\[[\w:]+; [A-Z_]+\]|Vec<|^\s+(pub(\(crate\))? )?count: ")),
    (7, "a parameter that says which step to run; functions as values", lambda: lines_with(r"\bdyn |\bBox<|\bfn\(|: bool[,)]")),
]


def main():
    totals = defaultdict(int)
    for point, what, find in POINTS:
        found = find()
        totals[point] += len(found)
        print(f"{point}. {what}: {len(found)}")
        for place in found:
            print(f"    {place}")
    proofs = [p for p in ROOT.glob("crates/*/proofs/**/*.antt")]
    answers = sum(len(re.findall(r"(?m)^pub \S+ : goal\.", p.read_text())) for p in proofs)
    lemmas = sum(len(re.findall(r"(?m)^(?:pub )?[^\s:]+ :\s(?!goal)", p.read_text())) for p in proofs if p.parent.name == "proofs")
    print(f"8. answers: {answers}; lemmas: {lemmas}; lines of proof: {sum(len(p.read_text().splitlines()) for p in proofs)}")
    print("counts: " + ", ".join(f"{point}: {n}" for point, n in sorted(totals.items())))


main()
