"""What the program `compare` must print, by the machine in bakery.py: the same schedules, and the totals over their bytes.

A byte that is no process number is taken to be refused without asking the machine, and of a step only the row that it
changed is looked at. The words in quotation marks are document 01's and the order's.
"""

import bakery
from bakery import BOUNDED, ROWS, UNBOUNDED
from case_text import need

PASSAGES = 100  # how many passages without waits a schedule has bytes for
FACTOR, PRIME = 48271, 2 ** 31 - 1  # of a Lehmer generator
BURSTS_TO_ONE_REFUSED = 32  # one burst in this many is of a byte that is no process number


def passage(n):
    # "A passage without waits takes 3n + 5 steps."
    return 3 * n + 5


def byte_of(n, number):
    """A process number, or 0 or n + 1, which both machines refuse."""
    rest, kind = divmod(number, BURSTS_TO_ONE_REFUSED)
    if kind == 0:
        return 0 if rest % 2 == 0 else n + 1
    return 1 + rest % n


class Pair:
    """The two machines, fresh, given the same bytes."""

    def __init__(self, n):
        self.n = n
        self.unbounded = bakery.fresh(UNBOUNDED, n)[0]
        self.bounded = bakery.fresh(BOUNDED, n)[0]

    def given(self, byte):
        """A byte: the mark, whether it was refused, whether it was an entry, whether the machines agree after it."""
        # "process number 0 or above n" is refused, and "On refusal step returns the given table and the mark 0".
        if not 1 <= byte <= self.n:
            return 0, True, False, True
        mark, stop, entered = bakery.advance(self.unbounded, byte)
        agreed = bakery.advance(self.bounded, byte) == (mark, 0, entered) and stop == 0
        return mark, stop != 0, entered, agreed and self.meets(byte)

    def meets(self, i):
        """Demand 3 after a step of process i. The step changed no row but that one."""
        # "all rows agree in line, index and choosing flag; X and every token, pivot and read cell of the bounded table
        # is the unbounded one's remainder modulo 2n - 1, with -1 for -1; and at most one process stands at lines 8 to
        # 10"
        u, b = self.unbounded.row(i), self.bounded.row(i)
        numbers = zip([self.unbounded.x, u.token, u.pivot] + u.cells, [self.bounded.x, b.token, b.pivot] + b.cells)
        return ((u.line, u.index, u.choosing) == (b.line, b.index, b.choosing)
                and all(bounded == self.remainder(unbounded) for unbounded, bounded in numbers)
                and at_most_one(self.unbounded) and at_most_one(self.bounded))

    def remainder(self, number):
        return -1 if number == -1 else number % bakery.modulus(self.n)


def at_most_one(table):
    return sum(8 <= row.line <= 10 for row in table.rows) <= 1


def over_schedule(n, longest, length):
    """Totals over one schedule, in bursts of at most `longest` bytes. A burst ends at a byte that changed nothing."""
    pair = Pair(n)
    seed, byte, left = 1000 * n + longest, 0, 0
    entries = waits = refused = disagreements = 0
    for _ in range(length):
        if left:
            left -= 1
        else:
            drawn = seed * FACTOR % PRIME
            seed = drawn * FACTOR % PRIME
            byte, left = byte_of(n, seed), drawn % longest
        mark, was_refused, entered, agreed = pair.given(byte)
        entries += entered
        waits += not mark and not was_refused
        refused += was_refused
        disagreements += not agreed
        if not mark:
            left = 0
    return length, entries, waits, refused, disagreements


def over_count(n):
    """Totals over the schedules of one n: every byte drawn anew, bursts of up to a passage, and bursts of up to four."""
    length = PASSAGES * passage(n)
    return plus(over_schedule(n, longest, length) for longest in (1, passage(n), 4 * passage(n)))


def plus(totals):
    return tuple(sum(column) for column in zip(*totals))


def printed():
    """The whole output of `compare`."""
    words = ": bytes %d entries %d waits %d refused %d disagreements %d\n"
    counts = [over_count(n) for n in range(1, ROWS + 1)]
    _, entries, waits, refused, disagreements = plus(counts)
    need(entries and waits and refused and not disagreements, "the two machines of tests/bakery.py are not alike")
    lines = ["n %d" % n + words % totals for n, totals in enumerate(counts, 1)] + ["all" + words % plus(counts)]
    return "".join(lines).encode("ascii")
