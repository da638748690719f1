"""Makers of schedules that are too long to be written out, and the random numbers that they draw."""

import bakery


class Chance:
    """Random numbers (xorshift, 64 bits) that depend on a word only."""

    def __init__(self, word):
        self.state = 0xCBF29CE484222325
        for byte in word.encode("ascii"):
            self.state = (self.state ^ byte) * 0x100000001B3 % 2 ** 64
        self.state = self.state or 1

    def below(self, bound):
        """A number from 0 to bound - 1."""
        state = self.state
        state ^= (state << 13) % 2 ** 64
        state ^= state >> 7
        state ^= (state << 17) % 2 ** 64
        self.state = state
        return (state >> 24) % bound

    def pick(self, choices):
        return choices[self.below(len(choices))]

    def shuffled(self, choices):
        left, order = list(choices), []
        while left:
            order.append(left.pop(self.below(len(left))))
        return order


class Driver:
    """A schedule made step by step, with the machine beside it to see how far each process has come."""

    def __init__(self, algorithm, n):
        self.table = bakery.fresh(algorithm, n)[0]
        self.schedule = bytearray()
        self.entries = 0

    def line(self, process):
        return self.table.row(process).line

    def go(self, process):
        """One step; whether it changed the table."""
        mark, stop, entered = bakery.advance(self.table, process)
        assert stop == 0
        self.schedule.append(process)
        self.entries += entered
        return mark == 1

    def burst(self, process):
        """Steps up to the first wait or back to line 1."""
        while self.go(process) and self.line(process) != 1:
            pass

    def climb(self, process):
        """Steps up to line 8 or the first wait."""
        while self.line(process) != 8 and self.go(process):
            pass


def uniform(chance, algorithm, n, length):
    """Any process at each place."""
    return bytes(1 + chance.below(n) for _ in range(length))


def robin(chance, algorithm, n, length):
    """All processes in turn, in some order."""
    order = chance.shuffled(range(1, n + 1))
    return bytes(order[k % n] for k in range(length))


def bursty(chance, algorithm, n, length):
    """Each process for a while, which is cut short where it waits, so that many processes enter."""
    driver = Driver(algorithm, n)
    while len(driver.schedule) < length:
        process, patience = 1 + chance.below(n), 1 + chance.below(3)
        for _ in range(1 + chance.below(6 * n + 10)):
            patience -= 0 if driver.go(process) else 1
            if patience == 0:
                break
    return bytes(driver.schedule[:length])


def doorway(chance, algorithm, n):
    """Holds a process at lines 2 to 5, a round for each line, and lets it go on when the others can do no more.

    While its choosing flag is set no other process gets past it at line 6. So the others first pass until the bounded
    tokens wrap, then climb past its place in their loops, and enter and take new tokens while it is held. Process 1
    held at line 3 has seen all their tokens when X moves on. There are two processes at least.
    """
    driver = Driver(algorithm, n)
    rounds = 4 if n <= 4 else 3 if n <= 8 else 2
    for count, line in enumerate(([3] + chance.shuffled([2, 4, 5]))[:rounds]):
        held = 1 if count % 2 == 0 else 1 + chance.below(n)
        others = [j for j in range(1, n + 1) if j != held]
        goal = driver.entries + n
        while driver.entries < goal or driver.line(held) != 1:
            driver.burst(chance.pick(others if driver.line(held) == 1 else others + [held]))
        for process in reversed(others):
            driver.climb(process)
        index = 1 + chance.below(n) if line == 2 else 0
        while (driver.line(held), driver.table.row(held).index) != (line, index):
            driver.go(held)
        for process in others[::-1] + [chance.pick(others) for _ in range(n)]:
            driver.burst(process)
        while driver.line(held) != 9:
            driver.climb(held)
            if driver.line(held) == 8:
                driver.go(held)
            else:
                driver.burst(chance.pick(others))
    return bytes(driver.schedule)
