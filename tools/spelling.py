#!/usr/bin/env python3
"""Brings the repository's own antt names to one spelling: words in snake case, facts and types in upper camel case.

usage: python3 tools/spelling.py [--show]      at the top of the repository; --show prints the table of names and writes nothing

Turned are the names that specs/ and proofs/ declare or bind, wherever clauses, proofs, must-fail edits and pages speak of them. Left alone are functions of src/, strings, names
that come from a library, and names that the check makes after the code (`returns-in-Ok`, `c.loop-i`). The script says where two names of a file fall together.
"""

import os
import re
import sys

NAME = re.compile(r"(?<![\w'◌-])[A-Za-z_][\w']*(?:-[\w']+)*(?![\w'◌-])")
DECLARED = re.compile(r"^(\s*)(?:abbrev |unfoldable )?(?:pub )?(record |data )?([A-Za-z_][\w'-]*)\s*(?:\([^)]*\)\s*|\{[^}]*\}\s*)*:(?!:)(.*)$")
FIELD = re.compile(r"^\s+(?:pub )?([A-Za-z_][\w'-]*) :")
USE = re.compile(r"(?:ghost )?use ([\w·']+(?:\.[\w·']+)*)(?:\.\{([^}]*)\}| as (\S+))?")
# Names that would fall together with another: a lemma with its function's name gets `_lem`, and the fact that there is no flow is not the refusal of that name.
APART = {
    "No-flow": "HasNoFlow",
    "down-from": "down_from_lem",
    "down-road": "down_road_lem",
    "grid-arc": "grid_arc_lem",
    "right-from": "right_from_lem",
    "right-road": "right_road_lem",
}
GENERATED = ("Answers.antt", "Invariants.antt", "Choices.antt", "Proof.antt")


def respelt(name):
    """The name's new spelling."""
    if name in APART:
        return APART[name]
    if re.match(r"[A-Z]-", name):
        name = name[0].lower() + name[1:]
    if name[0].isupper():
        return "".join(w[0].upper() + w[1:] for w in re.split(r"[-_]", name) if w)
    name = re.sub(r"^getD(?=-|$)", "get_or", name)
    name = re.sub(r"(?<=[a-z0-9])([A-Z])(?=[a-z])", lambda m: "_" + m.group(1).lower(), name)
    name = re.sub(r"(?<=[a-z0-9])([A-Z])(?=\b|_|-)", lambda m: "_" + m.group(1).lower(), name)
    return name.replace("-", "_")


def files(root):
    for folder, dirs, names in os.walk(os.path.join(root, "crates")):
        dirs[:] = sorted(d for d in dirs if d != "out")
        for f in sorted(names):
            if f.endswith((".antt", ".rt", ".edit")):
                yield os.path.join(folder, f)


def read(path):
    with open(path, encoding="utf-8") as f:
        return f.read()


def imports(text, crates):
    """What a file imports from elsewhere than the repository's own specs and lemmas, and what from there."""
    foreign, own = set(), set()
    for m in USE.finditer(text):
        path = m.group(1).split(".")
        names = [n.strip() for n in (m.group(2) or "").split(",") if n.strip()]
        ours = len(path) > 2 and path[0] == "Rattle" and path[1] in crates and path[2] in ("specs", "proofs") and "declared" not in path and path[-1] not in ("Goals", "Given")
        for n in names:
            for part in n.split(" as "):
                (own if ours else foreign).add(part.strip())
    return foreign, own


def aliases(text, crates):
    """The short names that a file gives to modules of specs/ and proofs/."""
    found = set()
    for m in USE.finditer(text):
        path = m.group(1).split(".")
        if m.group(3) and len(path) > 2 and path[1] in crates and path[2] in ("specs", "proofs") and path[-1] not in ("Goals", "Given"):
            found.add(m.group(3))
    return found


def without_comments(text):
    return "\n".join(re.sub(r"(^|\s)--(\s.*|$)", r"\1", l) for l in text.split("\n"))


def bound(text):
    """Names that a proof file binds by itself: its own helpers, lets, parameters."""
    found = set()
    for l in without_comments(text).split("\n"):
        m = DECLARED.match(l)
        if m and not m.group(4).strip().startswith("goal."):
            found.add(m.group(3))
    body = without_comments(text)
    found.update(re.findall(r"\blet ([A-Za-z_][\w'-]*) [:=]", body))
    for m in re.finditer(r"λ ([^.]*)\.", body):
        found.update(NAME.findall(m.group(1)))
    for m in re.finditer(r"[({]((?:[A-Za-z_][\w'-]* )+):", body):
        found.update(m.group(1).split())
    return found


def odd(name):
    return name != respelt(name)


def survey(root):
    """The table of names that have to change, and the fields among them."""
    crates = set(os.listdir(os.path.join(root, "crates")))
    table, fields, all_names = {}, set(), set()
    for path in files(root):
        if not path.endswith(".antt"):
            continue
        text = read(path)
        foreign, _ = imports(text, crates)
        body = without_comments(text)
        if os.path.basename(path) in GENERATED:
            names = bound(text)
        else:
            body = "\n".join(l for l in body.split("\n") if not l.startswith(("use ", "pub mod ", "mod ")))
            names = {n for m in NAME.finditer(body) for n in [m.group(0)] if m.start() == 0 or body[m.start() - 1] != "."}
            in_record = False
            for l in body.split("\n"):
                if re.match(r"^(?:abbrev )?(?:pub )?record ", l):
                    in_record = True
                elif in_record and FIELD.match(l):
                    fields.add(FIELD.match(l).group(1))
                elif l.strip() and not l.startswith(" "):
                    in_record = False
        names -= foreign
        all_names |= names
        for n in names:
            if odd(n):
                table[n] = respelt(n)
    return crates, table, {f for f in fields if odd(f)}, all_names


def turn_code(text, crates, table, fields, generated):
    """The text of a .rt or .antt file, respelt outside comments and strings; within comments only names in backticks."""
    foreign, own = imports(text, crates)
    local = bound(text) if generated else None
    modules = aliases(text, crates)

    def word(m, line):
        n = m.group(0)
        if n not in table or n in foreign:
            return n
        after_dot = m.start() > 0 and line[m.start() - 1] == "."
        if after_dot and re.search(r"(?<![\w.'])(?:" + "|".join(sorted(modules | {"\0"})) + r")\.$", line[: m.start()]):
            return table[n]
        if after_dot:
            return table[n] if n in fields else n
        if generated and n not in own and n not in local and n not in fields:
            return n
        return table[n]

    lines = []
    for l in text.split("\n"):
        strings = []

        def hide(m):
            strings.append(m.group(0))
            return f"\x00{len(strings) - 1}\x00"

        hidden = re.sub(r'b?"(?:[^"\\]|\\.)*"', hide, l)
        m = re.search(r"(^|\s)(--|//)", hidden)
        code, comment = (hidden[: m.start()], hidden[m.start() :]) if m else (hidden, "")
        code = NAME.sub(lambda w: word(w, code), code)
        comment = re.sub(r"`([^`]*)`", lambda b: "`" + NAME.sub(lambda w: table.get(w.group(0), w.group(0)), b.group(1)) + "`", comment)
        whole = code + comment
        lines.append(re.sub("\x00(\\d+)\x00", lambda s: strings[int(s.group(1))], whole))
    return "\n".join(lines)


def main(argv):
    root = os.getcwd()
    crates, table, fields, all_names = survey(root)
    if "--show" in argv:
        turned = {}
        for old, new in table.items():
            turned.setdefault(new, set()).add(old)
        for old in sorted(table):
            print(old, "->", table[old], "(field)" if old in fields else "")
        for new in sorted(turned):
            if len(turned[new]) > 1 or new in all_names:
                print("together:", new, sorted(turned[new]), "and a name that stays" if new in all_names else "")
        return 0
    changed = 0
    for path in files(root):
        text = read(path)
        if path.endswith(".edit"):
            new = "\n".join(turn_code(l, crates, table, fields, False) if l.startswith(("old: ", "new: ")) else l for l in text.split("\n"))
        else:
            new = turn_code(text, crates, table, fields, os.path.basename(path) in GENERATED)
            before, after = ({m.group(0) for m in NAME.finditer(without_comments(t))} for t in (text, new))
            if len(before) != len(after):
                print(f"look: names of {path} fall together: {sorted(n for n in before if respelt(n) in before and respelt(n) != n)}")
        if new != text:
            with open(path, "w", encoding="utf-8") as f:
                f.write(new)
            changed += 1
    for page in ["README.md"] + [os.path.join("docs", p) for p in sorted(os.listdir("docs"))]:
        if not page.endswith(".md"):
            continue
        text = read(page)
        new = re.sub(r"`([^`\n]*)`", lambda b: "`" + NAME.sub(lambda w: table.get(w.group(0), w.group(0)), b.group(1)) + "`", text)
        if new != text:
            with open(page, "w", encoding="utf-8") as f:
                f.write(new)
            changed += 1
    print(f"{len(table)} names, {changed} files")
    return 0


if __name__ == "__main__":
    raise SystemExit(main(sys.argv[1:]))
