"""Runs the program `lister` as README runs it, and compares every byte that it prints with the second implementation's.

    python3 tests/lister_program.py

The inputs are those of tests/cases/lister.txt: each from a file, and the short ones, and the longest, through a pipe
too, in pieces of which each is written when the lister has read the one before. `rt run` in crates/lister builds the
program.
"""

import fcntl
import itertools
import os
import struct
import subprocess
import sys
import tempfile
import termios
import time

sys.dont_write_bytecode = True

import bakery
import files
from case_text import lister_cases

COMMAND = [files.whole("run"), "lister"]
SHORT, LONG = 100, 60002  # up to SHORT bytes an input comes byte by byte too, from LONG bytes on in larger pieces
LONG_PIECE = 200
LONGEST_RUN = 60  # seconds
LONGEST_TEXT = 60062  # bytes: that of 60,000 steps of one process alone
ENOUGH = 5  # differences: after so many no further run is made


def unread(pipe):
    """How many bytes of a pipe have not been read."""
    return struct.unpack("i", fcntl.ioctl(pipe, termios.FIONREAD, bytes(4)))[0]


def taken(pipe, data):
    """How many bytes of some a pipe takes now."""
    try:
        return os.write(pipe.fileno(), data) if data else 0
    except BlockingIOError:
        return 0
    except BrokenPipeError:
        # The lister has read as much as it wants.
        return len(data)


def give(lister, pieces):
    """Gives the lister its input piece by piece, each when the one before is read, until it ends or is too slow."""
    deadline = time.monotonic() + LONGEST_RUN
    os.set_blocking(lister.stdin.fileno(), False)
    for piece in pieces:
        while piece or unread(lister.stdin):
            piece = piece[taken(lister.stdin, piece):]
            if lister.poll() is not None or time.monotonic() > deadline:
                break
            time.sleep(0.0001)
    lister.stdin.close()


def printed(data, pieces=None):
    """What the lister prints for an input, from a file or in pieces through a pipe; None if it does not end well."""
    with tempfile.TemporaryFile() as given, tempfile.TemporaryFile() as output:
        given.write(data)
        given.seek(0)
        # What it says on standard error would stand in the output too.
        with subprocess.Popen(COMMAND, stdin=subprocess.PIPE if pieces else given, stdout=output,
                              stderr=subprocess.STDOUT, bufsize=0) as lister:
            try:
                if pieces:
                    give(lister, pieces)
                ended = lister.wait(LONGEST_RUN)
            except subprocess.TimeoutExpired:
                lister.kill()
                return None
        output.seek(0)
        return output.read() if ended == 0 else None


def cut(data, length):
    return [data[place:place + length] for place in range(0, len(data), length)]


def ways(data):
    """How an input is given: the words for it, and its pieces, if it comes through a pipe."""
    yield "from a file", None
    if 0 < len(data) <= SHORT:
        yield "byte by byte", cut(data, 1)
    elif len(data) >= LONG:
        yield "%d bytes at a time" % LONG_PIECE, cut(data, LONG_PIECE)
        yield "a byte, and then the others", [data[:1], data[1:]]


def missing(inputs):
    """What must be among the inputs, and is not."""
    lengths, answers = {len(data) for data in inputs}, [bakery.lister(data) for data in inputs]
    machines = {tuple(data[:2]) for data, answer in zip(inputs, answers) if not answer.startswith(b"refused")}
    for length in (0, 1, LONG, LONG + 1, 100000):
        if length not in lengths:
            yield "an input of %d bytes" % length
    for number in (9, 1, 2, 6):
        if b"refused %d\n" % number not in answers:
            yield "an input that is refused by %d" % number
    for machine in itertools.product((bakery.UNBOUNDED, bakery.BOUNDED), range(1, bakery.ROWS + 1)):
        if machine not in machines:
            yield "algorithm %d with n = %d" % machine
    if not any(len(data) == LONG and answer.count(b"entry") >= 2000 for data, answer in zip(inputs, answers)):
        yield "an input of %d bytes with thousands of entries" % LONG
    if LONGEST_TEXT not in map(len, answers):
        yield "one that prints the longest text, of %d bytes" % LONGEST_TEXT


def differences(cases):
    """A line for each run in which the lister prints something else than it must, up to ENOUGH; and the runs made."""
    lines, runs = [], 0
    for name, data in cases:
        wanted = bakery.lister(data)
        for way, pieces in ways(data):
            runs += 1
            got = printed(data, pieces)
            if got != wanted:
                lines.append("%s, %s: %s; %s" % (name, way, told("printed", got), told("wanted", wanted)))
            # A lister that does not end costs LONGEST_RUN each time.
            if got is None or len(lines) == ENOUGH:
                return lines, runs
    return lines, runs


def told(word, text):
    """A text in short: its length and its end."""
    if text is None:
        return "it did not end, or not with status 0"
    return "%s %d bytes, ending in %r" % (word, len(text), text[-60:])


def check():
    """Runs the lister on all inputs, says how it went, and answers whether all is well."""
    cases = lister_cases()
    lacking = list(missing([data for _, data in cases]))
    for words in lacking:
        print("lister: tests/cases/lister.txt lacks " + words)
    lines, runs = differences(cases)
    for line in lines:
        print("lister: " + line)
    print("lister: %d inputs, %d runs, %d of them with other output than the second implementation's"
          % (len(cases), runs, len(lines)), flush=True)
    return not lines and not lacking


if __name__ == "__main__":
    sys.exit(0 if check() else 1)
