"""Checks that README.md and the pages of docs/ show what is there, and names what is not.

    python3 tests/pages.py

README's program is that of crates/example, letter by letter; the sample in docs/WALK.md has its bytes and its listing;
files and must-fail edits that a page names are there; docs/PROMISES.md has the theorems of crates/promises, and
docs/READING.md the crates of crates.txt and the steps of the gate. What else a page says is for its reader to check.
The notes in docs/notes/ are left out: each tells of one change, and may name what a later one takes away.
"""

import glob
import os
import re
import sys

sys.dont_write_bytecode = True

import bakery
import files
import gate
import public_calls

PAGES = ["README.md"] + sorted(os.path.relpath(path, files.ROOT) for path in glob.glob(files.whole("docs/*.md")))
NAMED_PATH = re.compile(r"(?<![\w/.-])((?:crates|docs|tests|samples)/[\w./-]*\w)")
NAMED_FILE = re.compile(r"`(\w+\.(?:antt|rt|txt|py))`")


def indented(text):
    return "".join("    " + line if line.strip() else line for line in text.splitlines(keepends=True))


def decimal_dump(data):
    """What `od -An -tu1` prints."""
    rows = [data[place:place + 16] for place in range(0, len(data), 16)]
    return "".join("".join(" %3d" % byte for byte in row) + "\n" for row in rows)


def names_in(folder):
    """The names of the files in a folder and below, without what rt made."""
    for _, folders, names in os.walk(folder):
        folders[:] = [name for name in folders if name != "out"]
        yield from names


def edits():
    """The must-fail edits: crate/name."""
    paths = glob.glob(files.whole("crates/*/must-fail/*.edit"))
    return {"%s/%s" % (path.split(os.sep)[-3], os.path.basename(path)[:-len(".edit")]) for path in paths}


def faults():
    pages = {path: files.text(path) for path in PAGES}
    if indented(files.text("crates/example/src/main.rt")) not in pages["README.md"]:
        yield "README.md: the program is not that of crates/example/src/main.rt"
    sample = files.contents("samples/two-controllers")
    for what, text in (("bytes", decimal_dump(sample)), ("listing", bakery.lister(sample).decode("ascii"))):
        if indented(text) not in pages["docs/WALK.md"]:
            yield "docs/WALK.md: these are not the %s of the sample" % what
    there = set(names_in(files.whole("crates")))
    there |= set(os.listdir(files.ROOT)) | set(os.listdir(files.whole("tests/cases")))
    for path, page in pages.items():
        for name in sorted(set(NAMED_PATH.findall(page))):
            if "NAME" not in name and not os.path.exists(files.whole(name)):
                yield "%s: there is no %s" % (path, name)
        for name in sorted(set(NAMED_FILE.findall(page)) - there):
            yield "%s: there is no %s" % (path, name)
        for name in sorted(set(re.findall(r"`((?!out/)[a-z]+/[a-z0-9_-]+)`", page)) - edits()):
            if not os.path.exists(files.whole(name)):
                yield "%s: there is no edit %s" % (path, name)
    yield from not_the_same(pages)


def not_the_same(pages):
    """Lists in the pages that must be those of other files."""
    promises, reading = pages["docs/PROMISES.md"], pages["docs/READING.md"]
    theorems = re.findall(r"^pub (\w+) :", files.text(public_calls.THEOREMS), re.M)
    steps = [" ".join(command).replace(sys.executable, "python3") for command, _ in gate.STEPS]
    for page, named, there in (
        ("docs/PROMISES.md: the theorems", re.findall(r"`(\w+_relied)`", promises), theorems),
        ("docs/READING.md: the crates", re.findall(r"^\| `(\w+)` \|", reading, re.M), public_calls.crates()),
        ("docs/READING.md: the first steps", re.findall(r"^\| `(python3 [^`]*)` \|", reading, re.M), steps),
    ):
        for name in sorted(set(named) ^ set(there)):
            yield "%s: %s is in one of the two lists alone" % (page, name)


def main():
    found = list(faults())
    for fault in found:
        print(fault)
    print("pages: %d, faults: %d" % (len(PAGES), len(found)))
    return 1 if found else 0


if __name__ == "__main__":
    sys.exit(main())
