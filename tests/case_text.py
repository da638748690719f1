"""Reads the cases: the text files of tests/cases, which people write and review. Each file opens with its format.

`cases_of(subject)` answers the cases of a file in their order, `lister_cases()` those of the lister. A text that is not
a case raises CaseError, whose message names the file and the line.
"""

import os
import re
from collections import namedtuple

import files
import schedules
from bakery import BOUNDED, ROWS, UNBOUNDED, Table, form_length, stored_form

FOLDER = "tests/cases"
ALGORITHMS = {"unbounded": UNBOUNDED, "bounded": BOUNDED}
SMALLEST, LARGEST = -2 ** 31, 2 ** 31 - 1
LONGEST = 65535  # of a lent buffer, a schedule and a form: two bytes say the length

Fresh = namedtuple("Fresh", "name algorithm n")
Step = namedtuple("Step", "name table process")
Run = namedtuple("Run", "name table schedule lent")
Lister = namedtuple("Lister", "name input")
Read = namedtuple("Read", "name form")
Write = namedtuple("Write", "name table lent")

NUMBERS = re.compile(r"(\d+)(?:\*(\d+))?")  # 7, or 1*28
GROUP = re.compile(r"\(([\d* ]+)\)\*(\d+)")  # (1 2)*6
ROW = re.compile(r"\s+(\d+):(.*)")
CASE = re.compile(r"([a-z0-9_-]{1,59}):(.*)")

# Where a field stands, and its length: of the head in the form, and of a process from its records' first byte on.
HEAD_FIELDS = {"kind-1": (0, 1), "algorithm": (1, 1), "n": (2, 1), "x": (3, 4)}
RECORD_FIELDS = {"kind-2": (0, 1), "process-2": (1, 1), "line": (2, 1), "index": (3, 1), "choosing": (4, 1),
                 "token": (5, 4), "pivot": (9, 4), "kind-3": (13, 1), "process-3": (14, 1)}
RECORD_FIELDS.update({"cell-%d" % j: (11 + 4 * j, 4) for j in range(1, ROWS + 1)})


class CaseError(Exception):
    """A text that is not a case."""


def need(condition, message):
    if not condition:
        raise CaseError(message)


def within(text, low, high):
    """The number of a text, from low to high."""
    need(re.fullmatch(r"-?\d+", text), "a number is due, not '%s'" % text)
    need(low <= int(text) <= high, "%s is not a number from %d to %d" % (text, low, high))
    return int(text)


class Words:
    """The words of a line, taken from its front."""

    def __init__(self, text):
        self.left = GROUP.sub(lambda group: " ".join([group[1]] * int(group[2])), text).split()

    def next(self):
        need(self.left, "the line ends too soon")
        return self.left.pop(0)

    def take(self, words):
        """Takes these words if they are next; whether they are."""
        wanted = words.split()
        found = self.left[:len(wanted)] == wanted
        if found:
            del self.left[:len(wanted)]
        return found

    def number(self, low, high):
        return within(self.next(), low, high)

    def byte(self):
        return self.number(0, 255)

    def bytes(self):
        """The bytes that are next, with repeats: `1*28 2`."""
        found = b""
        while self.left and NUMBERS.fullmatch(self.left[0]):
            value, times = NUMBERS.fullmatch(self.next()).groups()
            found += bytes([within(value, 0, 255)]) * within(times or "1", 0, 100000)
        return found


# Tables.

def table_of(words):
    """A table with fresh rows, from the words after `table`."""
    word = words.next()
    algorithm = ALGORITHMS[word] if word in ALGORITHMS else within(word, 0, 255)
    table = Table(algorithm, words.byte())
    if words.take("x"):
        table.x = words.number(SMALLEST, LARGEST)
    return table


def fill_row(row, words):
    """Puts the fields of a line into a row that is fresh."""
    choosing = None
    while words.left:
        field = words.next()
        if field in ("line", "index"):
            setattr(row, field, words.byte())
        elif field == "choosing":
            choosing = words.byte()
        elif field in ("token", "pivot"):
            setattr(row, field, words.number(SMALLEST, LARGEST))
        else:
            need(field == "cells", "no field of a row is called '%s'" % field)
            while words.left:
                fill_cells(row, words.next())
    # "choosing is 1 at lines 2 to 5 and 0 at the others", unless the line says another
    row.choosing = choosing if choosing is not None else 1 if 2 <= row.line <= 5 else 0


def fill_cells(row, text):
    """Puts a number into a read cell, `3=4`, or into some in a row, `3..16=4`."""
    parts = re.fullmatch(r"(\d+)(?:\.\.(\d+))?=(\S+)", text)
    need(parts, "a read cell is due, not '%s'" % text)
    first = within(parts[1], 1, ROWS)
    for j in range(first, within(parts[2] or parts[1], first, ROWS) + 1):
        row.cells[j - 1] = within(parts[3], SMALLEST, LARGEST)


# Schedules.

def schedule_of(words, name, algorithm, n):
    """The schedule that is next: bytes and makers, one after another."""
    schedule = b""
    if words.take("no bytes"):
        return schedule
    need(words.left, "a schedule is due, or `no bytes`")
    while words.left and words.left[0] != "buffer":
        if NUMBERS.fullmatch(words.left[0]):
            schedule += words.bytes()
        elif words.take("with"):
            byte = words.byte()
            need(words.take("at"), "after `with` a byte and `at` are due")
            place = words.number(0, len(schedule))
            schedule = schedule[:place] + bytes([byte]) + schedule[place:]
        else:
            schedule += made(words, name, algorithm, n)
    return schedule


def made(words, name, algorithm, n):
    """What a maker gives: `uniform 2876`, `doorway`; it draws from the case's name or from a word, `from another`."""
    maker = words.next()
    need("(" not in maker, "a group is due, such as (1 2)*6, not '%s'" % maker)
    need(maker in ("uniform", "robin", "bursty", "doorway"), "no maker of schedules is called '%s'" % maker)
    need(algorithm in ALGORITHMS.values() and (2 if maker == "doorway" else 1) <= n <= ROWS, "no such machine")
    numbers = [] if maker == "doorway" else [words.number(0, LONGEST)]
    chance = schedules.Chance(words.next() if words.take("from") else name)
    return getattr(schedules, maker)(chance, algorithm, n, *numbers)


# Stored forms.

def edited(form, words):
    """A form with its edits, one after another."""
    while words.left:
        if words.take("cut"):
            form = form[:words.number(0, len(form))]
        elif words.take("add"):
            more = words.bytes()
            need(more, "after `add` bytes are due")
            form += more
        elif words.take("take"):
            form = pieces(form, words)
        else:
            place, values = placed(words.next())
            need(place + len(values) <= len(form), "the form has no place %d" % (place + len(values) - 1))
            form = form[:place] + values + form[place + len(values):]
    return form


def pieces(form, words):
    """The parts of a form that are named, `0..7 86..165`, one after another."""
    taken = b""
    while words.left and ".." in words.left[0]:
        first, end = words.next().split("..")
        end = within(end, 0, len(form))
        taken += form[within(first, 0, end):end]
    return taken


def placed(text):
    """The place and the bytes of an edit: `@5=0,0,0,128` from a place on, `@x=-1` or `@2.token=-1` in a field."""
    at_place = re.fullmatch(r"@(\d+)=([\d,]+)", text)
    if at_place:
        return int(at_place[1]), bytes(within(value, 0, 255) for value in at_place[2].split(","))
    in_field = re.fullmatch(r"@(?:(\d+)\.)?([a-z0-9-]+)=(-?\d+)", text)
    need(in_field, "an edit is due, not '%s'" % text)
    process, field, value = in_field.groups()
    fields = RECORD_FIELDS if process else HEAD_FIELDS
    need(field in fields, "no field is called '%s' there" % field)
    start = form_length(within(process, 1, ROWS) - 1) if process else 0
    place, length = fields[field]
    if length == 1:
        return start + place, bytes([within(value, 0, 255)])
    return start + place, within(value, SMALLEST, LARGEST).to_bytes(4, "little", signed=True)


# Cases: each function takes what stands after the name, and the table above.

def fresh_case(name, words, table):
    return Fresh(name, words.byte(), words.byte())


def step_case(name, words, table):
    need(words.take("step"), "`step` is due")
    return Step(name, table, words.byte())


def run_case(name, words, table):
    need(words.take("run"), "`run` is due")
    schedule = schedule_of(words, name, table.algorithm, table.n)
    lent = words.number(0, LONGEST) if words.take("buffer") else len(schedule) + 5
    need(max(lent, len(schedule)) <= LONGEST, "the schedule or its buffer has more than %d bytes" % LONGEST)
    return Run(name, table, schedule, lent)


def lister_case(name, words, table):
    if words.take("no bytes"):
        return Lister(name, b"")
    if words.take("file"):
        path = words.next()
        need(os.path.isfile(files.whole(path)), "there is no file %s" % path)
        return Lister(name, files.contents(path))
    head = words.bytes()
    if words.take("|"):
        need(len(head) == 2, "algorithm and n are due before `|`")
        return Lister(name, head + schedule_of(words, name, *head))
    need(1 <= len(head) <= 2, "algorithm and n are due, or `no bytes`; `|` after them if there is a schedule")
    return Lister(name, head)


def read_case(name, words, table):
    if words.take("bytes"):
        form = words.bytes()
    else:
        need(table and 1 <= table.n <= ROWS, "there is no table above of which a form can be made")
        need(words.left, "edits are due, or `as it is`")
        form = stored_form(table) if words.take("as it is") else edited(stored_form(table), words)
    need(len(form) <= LONGEST, "the form has more than %d bytes" % LONGEST)
    return Read(name, form)


def write_case(name, words, table):
    need(words.take("write buffer"), "`write buffer` is due")
    return Write(name, table, words.number(0, LONGEST))


CASE_OF = {"fresh": fresh_case, "step": step_case, "run": run_case, "lister": lister_case, "read": read_case,
           "write": write_case}
WITH_A_TABLE = ("step", "run", "read", "write")  # a read may do without


def lines_of(text):
    """The lines that say something, each with its number and with the indented lines that go on with it."""
    lines, goes_on = [], False
    for number, line in enumerate(text.splitlines(), 1):
        if line.startswith("#") or not line.strip():
            goes_on = False
        elif line[0] == " " and goes_on and not ROW.match(line):
            lines[-1] = lines[-1][0], lines[-1][1] + line
        else:
            lines.append((number, line))
            goes_on = True
    return lines


class Reader:
    """The cases of one subject, line by line."""

    def __init__(self, subject):
        self.subject = subject
        self.table = None
        self.rows = None  # the rows of the table that may still be given; none once a case has used it
        self.names = set()
        self.cases = []

    def line(self, text):
        """Takes a line: a table, a row of it, or a case."""
        row, case = ROW.fullmatch(text), CASE.fullmatch(text)
        if text.startswith("table "):
            need(self.subject in WITH_A_TABLE, "no table is due here")
            self.used()
            words = Words(text[6:])
            self.table, self.rows = table_of(words), set(range(1, ROWS + 1))
        elif row:
            process, words = within(row[1], 1, ROWS), Words(row[2])
            need(self.rows, "a row stands under its table, before the cases")
            need(process in self.rows, "row %d is there already" % process)
            self.rows.remove(process)
            fill_row(self.table.row(process), words)
        else:
            need(case, "this is no table, no row and no case")
            need(case[1] not in self.names, "another case has this name")
            need(self.table or self.subject not in WITH_A_TABLE or self.subject == "read", "there is no table above")
            words = Words(case[2])
            self.rows = None
            self.names.add(case[1])
            self.cases.append(CASE_OF[self.subject](case[1], words, self.table))
        need(not words.left, "'%s' is not understood" % " ".join(words.left))

    def used(self):
        need(self.rows is None, "there is no case under the table above")


def cases_of(subject):
    """The cases of a subject, in the order of its file."""
    path = "%s/%s.txt" % (FOLDER, subject)
    lines = lines_of(files.text(path))
    need(lines, "%s: there is no case" % path)
    reader = Reader(subject)
    for number, text in lines:
        try:
            reader.line(text)
            if number == lines[-1][0]:
                reader.used()
        except CaseError as error:
            raise CaseError("%s:%d: %s" % (path, number, error)) from None
    return reader.cases


def lister_cases():
    """The cases of the lister: pairs of a name and the bytes of its standard input."""
    return [(case.name, case.input) for case in cases_of("lister")]
