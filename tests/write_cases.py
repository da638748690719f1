"""Writes the data of the programs and the output expected of them, as the machine in bakery.py gives it.

    python3 tests/write_cases.py            writes the files
    python3 tests/write_cases.py --check    writes nothing; says whether exactly these files stand there (else exit 1)

The cases are the text files of tests/cases. Those of the lister are for its own program: one of them is
crates/lister/stdin. The others are for the program `cases`, a data file for each subject. A data file opens with its
number of cases (2 bytes, little-endian as all numbers are). Each case is its heading, its kind (1 byte), and by kind:
    F  a fresh table: algorithm, n
    S  a step: a table, a process
    R  a run: a table, the length of the lent buffer (2), the schedule
    D  a read: the bytes of a stored form
    W  a write: a table, the length of the lent buffer (2)
A heading, a schedule and a form have their length (2) before them. A table is algorithm, n, X and 16 rows of line,
index, choosing, token, pivot and 16 read cells; X, token, pivot and read cells have 4 bytes (two's complement), the
others one. Before a run and before a write, byte k of the lent buffer holds 100 + k % 100. After a read that is accepted
the table is written again, to a buffer of the form's length; after a write the table is written once more and read
back. The functions that end in `lines` say what the program prints below the heading.
"""

import glob
import os
import sys

sys.dont_write_bytecode = True

import bakery
import case_text
import compare_totals
import files
from bakery import ROWS, Row, four_bytes

DATA = "crates/cases/data/"
LISTER_STDIN = "lister-60002-bytes-thousands-of-entries-bounded"


# What a data file holds.

def plain(table):
    """The bytes of a table."""
    parts = [bytes([table.algorithm, table.n]), four_bytes(table.x)]
    for row in table.rows:
        parts.append(bytes([row.line, row.index, row.choosing]))
        parts += [four_bytes(number) for number in [row.token, row.pivot] + row.cells]
    return b"".join(parts)


def two_bytes(number):
    return number.to_bytes(2, "little")


def piece(data):
    """Some bytes with their length before them."""
    return two_bytes(len(data)) + data


def heading(case):
    """The line above a case's answer."""
    return ("== %s\n" % case.name).encode("ascii")


def fresh_body(case):
    return bytes([case.algorithm, case.n])


def step_body(case):
    return plain(case.table) + bytes([case.process])


def run_body(case):
    return plain(case.table) + two_bytes(case.lent) + piece(case.schedule)


def read_body(case):
    return piece(case.form)


def write_body(case):
    return plain(case.table) + two_bytes(case.lent)


# What the program prints.

def fresh_lines(case):
    table, stop = bakery.fresh(case.algorithm, case.n)
    return ["stop %d" % stop] + table_lines(table)


def step_lines(case):
    answer = bakery.step(case.table, case.process)
    return ["mark %d stop %d" % (answer.mark, answer.stop)] + table_lines(answer.table)


def run_lines(case):
    lent = lent_buffer(case.lent)
    answer = bakery.run(case.table, case.schedule, lent)
    return [
        "moved %d waited %d entries %d waiting %d place %d stop %d"
        % (answer.moved, answer.waited, answer.entries, answer.waiting, answer.place, answer.stop),
        numbers_line("entered", answer.buffer[:answer.entries]),
        kept_line(answer.buffer, lent, answer.entries),
    ] + table_lines(answer.table)


def read_lines(case):
    answer = bakery.read(case.form)
    lines = read_answer_lines(answer)
    if answer.stop == 0:
        again = bakery.write(answer.table, lent_buffer(len(case.form))).buffer
        lines.append("again %d of %d" % (equal_places(again, case.form), len(case.form)))
    return lines


def write_lines(case):
    lent = lent_buffer(case.lent)
    answer = bakery.write(case.table, lent)
    form = answer.buffer[:answer.length]
    return [
        "length %d stop %d" % (answer.length, answer.stop),
        numbers_line("bytes", form),
        kept_line(answer.buffer, lent, answer.length),
    ] + read_answer_lines(bakery.read(form))


def read_answer_lines(answer):
    return ["stop %d place %d" % (answer.stop, answer.place)] + table_lines(answer.table)


def lent_buffer(length):
    """A lent buffer before it is written to."""
    return bytes(100 + k % 100 for k in range(length))


def equal_places(some, others):
    """The number of places at which two rows of bytes are equal."""
    return sum(a == b for a, b in zip(some, others))


def numbers_line(word, numbers):
    return " ".join([word] + [str(number) for number in numbers])


def kept_line(now, before, written):
    """How many bytes of a buffer are as before, of those after the written ones."""
    return "kept %d of %d" % (equal_places(now[written:], before[written:]), len(before) - written)


def table_lines(table):
    """A line for the head, and one for each row that is not as in a fresh table."""
    lines = ["table %d %d x %d" % (table.algorithm, table.n, table.x)]
    for process in range(1, ROWS + 1):
        row = table.row(process)
        if row != Row():
            numbers = (process, row.line, row.index, row.choosing, row.token, row.pivot)
            lines.append("row %d: %d %d %d %d %d |" % numbers + "".join(" %d" % cell for cell in row.cells))
    return lines


# The subjects of the program `cases` in the order in which it runs them: kind, body, and what is printed.
SUBJECTS = {
    "fresh": (b"F", fresh_body, fresh_lines),
    "step": (b"S", step_body, step_lines),
    "run": (b"R", run_body, run_lines),
    "read": (b"D", read_body, read_lines),
    "write": (b"W", write_body, write_lines),
}


def data_file(subject, cases):
    kind, body_of, _ = SUBJECTS[subject]
    return two_bytes(len(cases)) + b"".join(piece(heading(case)) + kind + body_of(case) for case in cases)


def printed(subject, cases):
    lines_of = SUBJECTS[subject][2]
    return b"".join(heading(case) + text_of(lines_of(case)) for case in cases)


def text_of(lines):
    return "".join(line + "\n" for line in lines).encode("ascii")


# What the program `example` prints.

def example_lines():
    """Two runs of two processes on the bounded machine, the second from the table that is stored and read back."""
    table = bakery.fresh(bakery.BOUNDED, 2)[0]
    first = bakery.run(table, bytes([1, 2] * 6 + [2, 2, 1, 1, 1]), bytes(17))
    stored = bakery.write(first.table, bytes(165))
    second = bakery.run(bakery.read(stored.buffer).table, bytes([1, 1, 2, 2]), first.buffer)
    return (entered_lines(first) + ["waited %d" % first.waited, "stop %d" % first.stop, "stored %d" % stored.length]
            + entered_lines(second) + ["waiting %d" % second.waiting])


def entered_lines(answer):
    entered = answer.buffer[:answer.entries]
    return ["entry %d" % process for process in entered] + ["of process 2 %d" % entered.count(2)]


# The files.

def wanted_files():
    """All files to write, by path, and the number of cases of each subject."""
    texts = sorted(os.listdir(files.whole(case_text.FOLDER)))
    case_text.need(texts == sorted(subject + ".txt" for subject in case_text.CASE_OF), "%s has other files than one for"
                   " each subject: %s" % (case_text.FOLDER, " ".join(texts)))
    cases = {subject: case_text.cases_of(subject) for subject in SUBJECTS}
    listed = dict(case_text.lister_cases())
    case_text.need(LISTER_STDIN in listed, "tests/cases/lister.txt has no case %s" % LISTER_STDIN)
    wanted = {DATA + subject: data_file(subject, cases[subject]) for subject in SUBJECTS}
    wanted["crates/cases/args"] = text_of(SUBJECTS)
    wanted["crates/cases/stdout"] = b"".join(printed(subject, cases[subject]) for subject in SUBJECTS)
    wanted["crates/lister/stdin"] = listed[LISTER_STDIN]
    wanted["crates/lister/stdout"] = bakery.lister(listed[LISTER_STDIN])
    wanted["crates/compare/stdout"] = compare_totals.printed()
    wanted["crates/example/stdout"] = text_of(example_lines())
    return wanted, [(subject, len(cases[subject])) for subject in SUBJECTS] + [("lister", len(listed))]


def standing_files():
    """The files that stand there of those that a program is given, or held to."""
    paths = []
    for pattern in ("stdin", "stdout", "args", "status", "data/**"):
        paths += glob.glob(files.whole("crates/*/" + pattern), recursive=True)
    paths = [os.path.relpath(path, files.ROOT) for path in sorted(paths) if os.path.isfile(path)]
    return {path: files.contents(path) for path in paths}


def check(wanted):
    """Prints a line for each difference between the files wanted and those that stand; whether there is none."""
    standing = standing_files()
    differences = ["missing: " + path for path in wanted if path not in standing]
    differences += ["differs: " + path for path in wanted if path in standing and standing[path] != wanted[path]]
    differences += ["not written from here: " + path for path in standing if path not in wanted]
    for difference in differences:
        print(difference)
    print("the files %s those that would be written" % ("are not" if differences else "are"))
    return not differences


def write(wanted):
    os.makedirs(files.whole(DATA), exist_ok=True)
    for path in standing_files():
        if path.startswith(DATA) and path not in wanted:
            os.remove(files.whole(path))
    for path, data in wanted.items():
        with open(files.whole(path), "wb") as file:
            file.write(data)


def main(arguments):
    if arguments not in ([], ["--check"]):
        print("usage: write_cases.py [--check]")
        return 2
    try:
        wanted, counts = wanted_files()
    except case_text.CaseError as error:
        print(error)
        return 1
    same = True
    if arguments:
        same = check(wanted)
    else:
        write(wanted)
    print("cases: %d (%s)" % (sum(count for _, count in counts), ", ".join("%s %d" % count for count in counts)))
    return 0 if same else 1


if __name__ == "__main__":
    sys.exit(main(sys.argv[1:]))
