#!/usr/bin/env python3
"""Brings the repository's own definitions and lemmas to the spelling of today's Rattle: words in snake case, types and facts in camel case.

Run once at the top of the repository, right after the kit's port.py: python3 tools/respell.py. What it does: a name that a file of specs/ or
proofs/ defines and that has capitals or dashes between its words (`lineOfEntry`, `step-marked`) gets underscores (`line_of_entry`,
`step_marked`), wherever it stands: in specs/, in proofs/, in clauses, in edits, and between backticks in comments and pages. A lemma that would
fall together with a definition of the same words gets `_lem` behind its name. A fact (a definition in `Type 0`) is spelled like a type. Names of
functions, fields and constants of src/ stay as they are, and so do the names that the check makes for a function's goals.
"""

import glob
import os
import re

DEFINED = re.compile(r"^(\s*)((?:pub |abbrev |unfoldable )*)([^\s(){};,.:]+(?: [^\s(){};,.:]+)*) :(?=\s|$)", re.M)
WORDS = {"pub", "unfoldable", "abbrev", "record", "data", "module", "let", "in", "elim", "as", "where"}
TOKEN = re.compile(r"[^\s(){};,.\[\]`\"|⌜⌝]+")
FIELD = re.compile(r"^\s*(?:pub )?([^\s:]+) :")

# Facts of demands/specs/Bench.antt: the cases, and the words that they are written in.
FACTS = {
    "onBoth": "OnBoth", "forEachCount": "ForEachCount", "stepWaits": "StepWaits", "twoSeen": "TwoSeen", "noneSeen": "NoneSeen",
    "roundTheEnd": "RoundTheEnd", "sameToken": "SameToken", "lowerFirst": "LowerFirst", "tokenZero": "TokenZero",
    "noSuchProcess": "NoSuchProcess", "lastToken": "LastToken", "emptySchedule": "EmptySchedule", "allHold": "AllHold",
}
# Names that say more or less than themselves elsewhere are turned in these files alone.
IN_FILE = {
    "crates/demands/specs/Bench.antt": {
        "entered": "Entered", "gives": "Gives", "alone": "Alone", "farthest": "Farthest", "refused": "Refused", "ends_with": "EndsWith",
    },
    "crates/demands/proofs/Bench.antt": {"entered": "Entered", "cases.alone": "Alone", "cases.farthest": "Farthest"},
    "crates/theory/proofs/Lines.antt": {"goes_on": "goes_on_lem"},
    "crates/machine/proofs/CoreKeeps.antt": {"line_ok": "line_ok_lem"},
    "crates/machine/proofs/RowKeeps.antt": {"index_ok": "index_ok_lem"},
    "crates/stored/proofs/TableIn.antt": {"cell_in": "cell_in_lem"},
    "crates/stored/proofs/WrittenAgain.antt": {"cell_in": "cell_in_lem"},
    "crates/stored/proofs/ReadBack.antt": {"cell_in": "cell_in_lem"},
    "crates/stored/proofs/Accepted.antt": {"cell_in": "cell_in_lem"},
}


def read(path):
    with open(path, encoding="utf-8") as f:
        return f.read()


def files(pattern):
    return sorted(p for p in glob.glob(pattern, recursive=True) if "/out/" not in p)


def code(line):
    return "" if line.lstrip().startswith("--") else line.split(" -- ")[0]


def snake(name):
    name = name.replace("-", "_")
    if re.match(r"[a-z]", name):
        name = re.sub(r"(?<=[a-z0-9ℤ])([A-Z])", lambda m: "_" + m.group(1).lower(), name)
    return name


def is_goal(path, rest):
    return path.endswith("/Proof.antt") and rest.lstrip().startswith("tie.")


def defined():
    """The names that the repository defines, and the fields of its own records among them."""
    names, fields = set(), set()
    for path in files("crates/*/*/**/*.antt"):
        text = "\n".join(code(line) for line in read(path).split("\n"))
        for m in DEFINED.finditer(text):
            if not is_goal(path, text[m.end():m.end() + 60]):
                names.update(w for w in m.group(3).split(" ") if w not in WORDS)
        depth = None
        for line in text.split("\n"):
            indent = len(line) - len(line.lstrip())
            if re.match(r"\s*(pub )?record ", line):
                depth = indent
            elif depth is not None and line.strip():
                if indent <= depth:
                    depth = None
                elif FIELD.match(line):
                    fields.add(FIELD.match(line).group(1))
    return names, fields


def turned(names):
    """The new name of each name that changes."""
    new = {w: snake(w) for w in names if not w.startswith("◌") and snake(w) != w}
    new.update({w: f for w, f in FACTS.items() if w in names})
    taken = {}
    for w in names:
        taken.setdefault(new.get(w, w), set()).add(w)
    for s, both in taken.items():
        if len(both) > 1:
            for w in both:
                if "-" in w:
                    new[w] = s + "_lem"
    return new


def respell(text, new, only, fields, proof, page):
    """The text with its names turned. In a function's proof what stands behind a dot is turned only where it is a field of a record of ours; in
    a page or an edit, which port.py passes over, the names that port.py turned elsewhere are turned too."""
    own = set(new.values()) | page

    def one(m):
        w = m.group(0)
        before = text[max(0, m.start() - 40):m.start()]
        if before.endswith(".") and not before.endswith(" ."):
            owner = re.search(r"([^\s(){};,.]+)\.$", before)
            full = (owner.group(1) + "." if owner else "") + w
            if full in only:
                return only[full]
            if proof and w not in fields:
                return w
            return new.get(w, w)
        if page and w not in new and w not in only and snake(w) in own:
            return snake(w)
        return only.get(w, new.get(w, w))

    return TOKEN.sub(one, text)


def ticked(text, turn):
    return re.sub(r"`[^`\n]+`", lambda m: turn(m.group(0)), text)


def main():
    names, fields = defined()
    new = turned(names)
    for path in files("crates/*/*/**/*.antt") + files("crates/*/src/**/*.rt") + files("crates/*/must-fail/*.edit") + files("**/*.md"):
        old = read(path)
        only = IN_FILE.get(path, {})
        proof = path.endswith("/Proof.antt")

        def turn(text):
            return respell(text, new, only, fields, proof, names if path.endswith((".md", ".edit")) else set())

        lines = []
        for line in old.split("\n"):
            if path.endswith(".md"):
                lines.append(turn(line) if line.startswith("    ") and not line.lstrip().startswith("//") else ticked(line, turn))
            elif path.endswith(".edit"):
                lines.append(turn(line) if re.match(r"(old|new):", line) else line)
            else:
                mark = "//" if path.endswith(".rt") else "--"
                at = line.find(mark) if line.lstrip().startswith(mark) else line.find(" " + mark + " ")
                head, tail = (line, "") if at < 0 else (line[:at], line[at:])
                parts = re.split(r'("(?:[^"\\]|\\.)*")', head) if path.endswith(".rt") else [head]
                lines.append("".join(p if p.startswith('"') else turn(p) for p in parts) + ticked(tail, turn))
        text = "\n".join(lines)
        if text != old:
            with open(path, "w", encoding="utf-8") as f:
                f.write(text)
    print(f"{len(new)} names turned")


if __name__ == "__main__":
    os.chdir(os.path.join(os.path.dirname(os.path.realpath(__file__)), ".."))
    main()
