"""The bakery machines of document 01 in plain Python: a second implementation to compare the product's answers with.

Every call takes every input of its types (a byte for algorithm, n, line, index, choosing and process; four signed
bytes for X, token, pivot and read cells; any bytes for a schedule and a stored form), and none of them changes the
table it is given, save `advance` and `checks_of`.
The words in quotation marks are document 01's.
"""

from collections import namedtuple

ROWS = 16  # "sixteen rows", "sixteen read cells", "n is 1 to 16"
TOKEN_LIMIT = 1000000  # "Let T be 1,000,000 in an unbounded table"
SCHEDULE_LIMIT = 60000  # "A schedule is 0 to 60,000 bytes"

UNBOUNDED = 0
BOUNDED = 1

Step = namedtuple("Step", "table mark stop")
Run = namedtuple("Run", "table moved waited entries waiting place stop buffer")
Write = namedtuple("Write", "length stop buffer")
Read = namedtuple("Read", "table stop place")


class Row:
    """A row, made fresh: "a line, an index, a choosing flag, a token, a pivot, and sixteen read cells"."""

    __slots__ = ("line", "index", "choosing", "token", "pivot", "cells")

    def __init__(self):
        # "every row at line 1, index 0, choosing 0, token -1, pivot -1, cells -1"
        self.line = 1
        self.index = 0
        self.choosing = 0
        self.token = -1
        self.pivot = -1
        self.cells = [-1] * ROWS  # read cell j stands at place j - 1

    def copy(self):
        other = Row()
        other.line = self.line
        other.index = self.index
        other.choosing = self.choosing
        other.token = self.token
        other.pivot = self.pivot
        other.cells = list(self.cells)
        return other

    def fields(self):
        return (self.line, self.index, self.choosing, self.token, self.pivot, tuple(self.cells))

    def __eq__(self, other):
        return self.fields() == other.fields()

    def __ne__(self, other):
        return not self == other


class Table:
    """A table, made with X = 0 and fresh rows: "Algorithm, n, X, and sixteen rows"."""

    __slots__ = ("algorithm", "n", "x", "rows")

    def __init__(self, algorithm, n):
        self.algorithm = algorithm
        self.n = n
        self.x = 0
        self.rows = [Row() for _ in range(ROWS)]

    def row(self, process):
        """The row of a process, 1 to 16."""
        return self.rows[process - 1]

    def copy(self):
        other = Table(self.algorithm, self.n)
        other.x = self.x
        other.rows = [row.copy() for row in self.rows]
        return other

    def __eq__(self, other):
        return (self.algorithm, self.n, self.x, self.rows) == (other.algorithm, other.n, other.x, other.rows)

    def __ne__(self, other):
        return not self == other


def modulus(n):
    """M: "Let M = 2n - 1"."""
    return 2 * n - 1


def largest_token(algorithm, n):
    """T: "Let T be 1,000,000 in an unbounded table and 2n - 2 in a bounded one"."""
    return TOKEN_LIMIT if algorithm == UNBOUNDED else 2 * n - 2


def fresh(algorithm, n):
    """The fresh table and the stop number."""
    # "Fresh: 1, 2." "refused, fresh and read show, in the table's place, the fresh unbounded table for n = 1"
    if not algorithm_kept(algorithm):
        return Table(UNBOUNDED, 1), 1
    if not n_kept(n):
        return Table(UNBOUNDED, 1), 2
    return Table(algorithm, n), 0


# The rules of a well-formed table, field by field. A rule looks at no field that comes later in the stored form.

def algorithm_kept(algorithm):
    # "algorithm is 0 or 1"
    return algorithm in (UNBOUNDED, BOUNDED)


def n_kept(n):
    # "n is 1 to 16"
    return 1 <= n <= ROWS


def x_kept(t):
    # "X is 0 to T"
    return 0 <= t.x <= largest_token(t.algorithm, t.n)


def line_kept(t, process):
    # "in rows 1 to n, line is 1 to 10"
    return 1 <= t.row(process).line <= 10


def index_kept(t, process):
    # "index is 1 to n at line 2, 1 to n and not the row's own number at lines 6 and 7, and 0 at the other lines"
    row = t.row(process)
    if row.line == 2:
        return 1 <= row.index <= t.n
    if row.line in (6, 7):
        return 1 <= row.index <= t.n and row.index != process
    return row.index == 0


def choosing_kept(t, process):
    # "choosing is 1 at lines 2 to 5 and 0 at the others"
    row = t.row(process)
    return row.choosing == (1 if 2 <= row.line <= 5 else 0)


def token_kept(t, process):
    # "token is -1 at lines 1 to 4 and 0 to T at lines 5 to 10"
    row = t.row(process)
    return row.token == -1 if row.line <= 4 else 0 <= row.token <= largest_token(t.algorithm, t.n)


def pivot_kept(t, process):
    # "pivot is 0 to T at line 4 and -1 at the others"
    row = t.row(process)
    return 0 <= row.pivot <= largest_token(t.algorithm, t.n) if row.line == 4 else row.pivot == -1


def cell_kept(t, process, j):
    # "read cells are -1 to T at lines 2 to 4 and -1 at the others. At line 2 those from the index on are -1. The row's
    # own cell and cells above n are -1"
    row = t.row(process)
    may_hold_token = 2 <= row.line <= 4 and not (row.line == 2 and j >= row.index) and j != process and j <= t.n
    return -1 <= row.cells[j - 1] <= (largest_token(t.algorithm, t.n) if may_hold_token else -1)


def row_kept(t, process):
    """Whether the row of a process 1 to n keeps all rules."""
    rules = (line_kept, index_kept, choosing_kept, token_kept, pivot_kept)
    return all(rule(t, process) for rule in rules) and all(cell_kept(t, process, j) for j in range(1, ROWS + 1))


def well_formed(t):
    """Whether the table is well formed."""
    if not (algorithm_kept(t.algorithm) and n_kept(t.n) and x_kept(t)):
        return False
    # "rows above n are as in a fresh table"
    return all(row_kept(t, process) for process in range(1, t.n + 1)) and all(row == Row() for row in t.rows[t.n:])


def next_token(t, row):
    """The next token of a row at line 4; in an unbounded table it may be one above the limit."""
    if t.algorithm == UNBOUNDED:
        # "1 + the largest of the pivot and the read cells"
        return 1 + max([row.pivot] + row.cells)
    # "with pivot p, shift each read cell v that is not -1, and p itself, to (v + n - 1 - p) mod M; let m be the
    # largest. The next token is (m + p - n + 2) mod M." A remainder of Python's with M above 0 is "0 to M - 1".
    n, p, big_m = t.n, row.pivot, modulus(t.n)
    seen = [v for v in row.cells if v != -1] + [p]
    m = max((v + n - 1 - p) % big_m for v in seen)
    return (m + p - n + 2) % big_m


def goes_before(t, i, j):
    """Whether process i goes before process j; both hold tokens."""
    token_i, token_j = t.row(i).token, t.row(j).token
    if t.algorithm == UNBOUNDED:
        # "token i < token j, or they are equal and i < j"
        return token_i < token_j or (token_i == token_j and i < j)
    # "let d = (token j - token i) mod M. Yes if 1 <= d <= n - 1, or d = 0 and i < j. No if n <= d <= 2n - 2."
    d = (token_j - token_i) % modulus(t.n)
    return 1 <= d <= t.n - 1 or (d == 0 and i < j)


def advance(t, i):
    """Does one step of process i, 1 to n, in a well-formed table, in place: the mark, the stop number, an entry."""
    row = t.row(i)
    line = row.line
    if line == 1:
        # "choosing becomes 1, index 1, line 2"
        row.choosing, row.index, row.line = 1, 1, 2
    elif line == 2:
        # "read cell j takes token j. Then index j + 1, or, if j = n, index 0 and line 3"
        j = row.index
        row.cells[j - 1] = t.row(j).token
        if j == t.n:
            row.index, row.line = 0, 3
        else:
            row.index = j + 1
    elif line == 3:
        # "pivot takes X; line 4"
        row.pivot, row.line = t.x, 4
    elif line == 4:
        # "line 4 of an unbounded row would give a token above 1,000,000"
        token = next_token(t, row)
        if t.algorithm == UNBOUNDED and token > TOKEN_LIMIT:
            return 0, 5, False
        # "token takes the next token (below); pivot and read cells become -1; line 5"
        row.token, row.pivot, row.cells, row.line = token, -1, [-1] * ROWS, 5
    elif line == 5:
        # "choosing becomes 0. Index becomes the smallest number other than i and line 6; if n = 1, index 0 and line 8"
        row.choosing = 0
        if t.n == 1:
            row.index, row.line = 0, 8
        else:
            row.index, row.line = min(j for j in range(1, t.n + 1) if j != i), 6
    elif line == 6:
        # "if choosing j is 0, line 7 with the same index; else the step waits"
        if t.row(row.index).choosing != 0:
            return 0, 0, False
        row.line = 7
    elif line == 7:
        # "if token j is -1 or i goes before j, the index becomes the next larger number other than i and line 6, or,
        # if there is none, index 0 and line 8; else the step waits"
        j = row.index
        if t.row(j).token != -1 and not goes_before(t, i, j):
            return 0, 0, False
        larger = [k for k in range(j + 1, t.n + 1) if k != i]
        if larger:
            row.index, row.line = larger[0], 6
        else:
            row.index, row.line = 0, 8
    elif line == 8:
        # "X takes the token; line 9. This step is the entry."
        t.x, row.line = row.token, 9
    elif line == 9:
        # "line 10"
        row.line = 10
    else:
        # "token becomes -1; line 1"
        row.token, row.line = -1, 1
    return 1, 0, line == 8


def step(t, process):
    """One step of a process: the table, the mark and the stop number."""
    # "Step: 3, 4, 5." "On refusal step returns the given table and the mark 0"
    if not well_formed(t):
        return Step(t, 0, 3)
    if not 1 <= process <= t.n:
        return Step(t, 0, 4)
    after = t.copy()
    mark, stop, _ = advance(after, process)
    return Step(after, mark, stop)


def run(t, schedule, entries_buffer):
    """The steps of a schedule one after another, with a lent entry buffer; the buffer answered is another one."""
    # "Run: 3, 6, 7, then 4 or 5 byte by byte." "3, 6 and 7 of run return it with all counts and the place 0 and the
    # buffer untouched"
    stop = 0
    if not well_formed(t):
        stop = 3
    elif len(schedule) > SCHEDULE_LIMIT:
        stop = 6
    elif len(entries_buffer) < len(schedule):
        stop = 7
    if stop:
        return Run(t, 0, 0, 0, 0, 0, stop, bytes(entries_buffer))

    after = t.copy()
    buffer = bytearray(entries_buffer)
    moved = waited = entries = place = 0
    for process in schedule:
        # "The run takes them in order and stops at the first byte refused." "4 and 5 of run keep the steps and entries
        # before that byte"
        if not 1 <= process <= t.n:
            stop = 4
            break
        mark, stop, entered = advance(after, process)
        if stop:
            break
        # "Moved is the count of taken bytes whose step changed the table, waited of those that did not"
        moved += mark
        waited += 1 - mark
        # "The process number of each entry is written to the front of the lent entry buffer, in order"
        if entered:
            buffer[entries] = process
            entries += 1
        place += 1
    # "waiting is the number of rows at line 6 or 7 in the last table"
    waiting = sum(1 for row in after.rows if row.line in (6, 7))
    return Run(after, moved, waited, entries, waiting, place, stop, bytes(buffer))


# The stored form.

def form_length(n):
    """The length of the stored form of n processes: "Length 7 + 79n"."""
    return 7 + 79 * n


def four_bytes(number):
    # "Numbers of four bytes are little-endian; -1 is four bytes of 255."
    return number.to_bytes(4, "little", signed=True)


def number_at(form, place):
    """The number of the four bytes at a place; from 2^31 on it is below 0, where no rule allows any but -1."""
    return int.from_bytes(form[place:place + 4], "little", signed=True)


def stored_form(t):
    """The stored form of a table, well formed or not; n is 1 to 16."""
    # "kind 1, body 6: algorithm, n, X (4)"
    parts = [bytes([1, t.algorithm, t.n]), four_bytes(t.x)]
    # "Order: kind 1, then for each process 1 to n kind 2 and kind 3."
    for process in range(1, t.n + 1):
        row = t.row(process)
        # "kind 2, body 12: process number, line, index, choosing, token (4), pivot (4)"
        parts += [bytes([2, process, row.line, row.index, row.choosing]), four_bytes(row.token), four_bytes(row.pivot)]
        # "kind 3, body 65: process number, sixteen read cells (4 each)"
        parts += [bytes([3, process])] + [four_bytes(cell) for cell in row.cells]
    return b"".join(parts)


def write(t, lent_buffer):
    """The table's stored form, written to a lent buffer; the buffer answered is another one."""
    # "Write: 3, 8." "a refusal answers length 0" "Write leaves its buffer untouched."
    stop = 0
    if not well_formed(t):
        stop = 3
    elif len(lent_buffer) < form_length(t.n):
        stop = 8
    if stop:
        return Write(0, stop, bytes(lent_buffer))
    # "The writer fills the front of the lent buffer, touches nothing after it, and answers the length"
    form = stored_form(t)
    return Write(len(form), 0, form + bytes(lent_buffer[len(form):]))


def read(form):
    """The table of a stored form, the stop number and the place."""
    table = Table(UNBOUNDED, 1)
    for stop, place, passed in checks_of(form, table):
        # "refused, fresh and read show, in the table's place, the fresh unbounded table for n = 1"
        if not passed:
            return Read(Table(UNBOUNDED, 1), stop, place)
    # "An accepted read answers the table, stop number 0 and the form's length as the place."
    return Read(table, 0, len(form))


def checks_of(form, t):
    """The checks of a stored form in their order: the stop number and the place if it fails, and whether it passes.

    The fresh table is filled on the way. A check is asked for only when those before it have passed.
    """
    # "Read: under 7 bytes; head kind; head fields in byte order; 9 or 11 by length; then each record's kind and fields
    # in byte order." "the place is its offending kind's or field's first byte. For 9 the place is the input's length,
    # for 11 it is 7 + 79n."
    yield 9, len(form), len(form) >= 7
    yield 10, 0, form[0] == 1
    t.algorithm, t.n, t.x = form[1], form[2], number_at(form, 3)
    yield 12, 1, algorithm_kept(t.algorithm)
    yield 12, 2, n_kept(t.n)
    yield 12, 3, x_kept(t)
    length = form_length(t.n)
    yield 9, len(form), len(form) >= length
    yield 11, length, len(form) <= length
    for process in range(1, t.n + 1):
        row = t.row(process)
        at = form_length(process - 1)
        yield 10, at, form[at] == 2
        yield 12, at + 1, form[at + 1] == process
        row.line, row.index, row.choosing = form[at + 2:at + 5]
        row.token, row.pivot = number_at(form, at + 5), number_at(form, at + 9)
        yield 12, at + 2, line_kept(t, process)
        yield 12, at + 3, index_kept(t, process)
        yield 12, at + 4, choosing_kept(t, process)
        yield 12, at + 5, token_kept(t, process)
        yield 12, at + 9, pivot_kept(t, process)
        yield 10, at + 13, form[at + 13] == 3
        yield 12, at + 14, form[at + 14] == process
        for j in range(1, ROWS + 1):
            place = at + 11 + 4 * j
            row.cells[j - 1] = number_at(form, place)
            yield 12, place, cell_kept(t, process, j)


def lister(input_bytes):
    """The whole output of the entry lister for its standard input."""
    # "It refuses 9 (fewer than two bytes), 1, 2, 6 in that order, printing only the line `refused N`."
    if len(input_bytes) < 2:
        return b"refused 9\n"
    algorithm, n, schedule = input_bytes[0], input_bytes[1], input_bytes[2:]
    table, stop = fresh(algorithm, n)
    if stop == 0 and len(schedule) > SCHEDULE_LIMIT:
        stop = 6
    if stop:
        return b"refused %d\n" % stop
    # "`bakery A n`; one line `entry P` for each entry in order; then the counts and the stop number"
    answer = run(table, schedule, bytes(len(schedule)))
    lines = ["bakery %d %d" % (algorithm, n)]
    lines += ["entry %d" % process for process in answer.buffer[:answer.entries]]
    lines.append("moved %d waited %d entries %d waiting %d stop %d"
                 % (answer.moved, answer.waited, answer.entries, answer.waiting, answer.stop))
    return "".join(line + "\n" for line in lines).encode("ascii")
