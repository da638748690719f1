"""Measures what a byte of a schedule costs in a run of the library, and in a run of plain C, in instructions.

    python3 tests/run_cost.py [N ...]

It is no part of the gate. For both machines and each N (3 and 16 if none is given) it prints the instructions a byte of
the library's run, those of the loop in tests/run_cost.c, and the ratio of the two. The schedules are pseudo-random, or
such that nobody waits, and the same for both; beside them stands the share of their bytes whose step waits.

The library's run is built by `rt lib` of a static library, as C can call it, and the loop by the same compiler at the
same level: the clang of the Rattle kit at -O3, for x86-64. Valgrind counts the instructions. A run over a schedule less
a run over its front leaves the loop alone, since all else cancels out, and nothing in it is printed.
"""

import collections
import functools
import os
import re
import shutil
import struct
import subprocess
import sys
import tempfile

sys.dont_write_bytecode = True

import bakery
import files
import schedules

# The call that is measured.
CRATE, CALL = "machine", "machine::run"

# What C calls of the library.
EXPORT = """// A run of the library from a fresh table, as C calls it: all of its answer but the table.
#[repr(C)]
pub struct Counts {
    pub moved: usize,
    pub waited: usize,
    pub entries: usize,
    pub waiting: usize,
    pub place: usize,
    pub stop: u8,
}

#[unsafe(no_mangle)]
pub extern "C" fn library_run(algorithm: u8, n: u8, schedule: &[u8], entries: &mut [u8]) -> Counts {
    let r = CALL(table::fresh(algorithm, n).table, schedule, entries);
    Counts {
        moved: r.moved,
        waited: r.waited,
        entries: r.entries,
        waiting: r.waiting,
        place: r.place,
        stop: fields::stop_number(r.stop),
    }
}
""".replace("CALL", CALL)

# The static library and the program, which are built in a repository of their own, with copies of the crates of this one.
NAME = "run_cost"
TARGET = "x86_64-unknown-linux-gnu"
# As rt calls it for a program.
COMPILER_WORDS = ("--target=" + TARGET, "-march=x86-64-v2", "-O3", "-fPIE", "-ffunction-sections", "-fdata-sections")
COUNTER = ("valgrind", "--tool=cachegrind", "--cache-sim=no", "--cachegrind-out-file=/dev/null")
COUNTED = re.compile(r"I +refs: +([\d,]+)")

MACHINES = (("unbounded", bakery.UNBOUNDED), ("bounded", bakery.BOUNDED))


def alone(chance, algorithm, n, length):
    """One passage after another, each by a process alone, so that nobody waits."""
    passage = 3 * n + 5
    return bytes(1 + k // passage % n for k in range(length))


MAKERS = (("uniform", schedules.uniform), ("bursty", schedules.bursty), ("alone", alone))
FRONT, LENGTH = 2000, 8000  # bytes: measured is the loop over those between
Counts = collections.namedtuple("Counts", "moved waited entries waiting place stop")
ANSWER = struct.Struct("<6Q")  # what the program writes: these counts, and after them the entries


@functools.lru_cache(maxsize=None)
def kit(path):
    """A file of the kit."""
    guide = subprocess.run(["rt", "doc"], check=True, stdout=subprocess.PIPE).stdout.decode().strip()
    return os.path.join(os.path.dirname(guide), path)


def write(path, text):
    os.makedirs(os.path.dirname(path), exist_ok=True)
    with open(path, "w", encoding="utf-8") as file:
        file.write(text)


def call(folder, *command):
    """Runs a command in a folder; what it says is shown if it fails."""
    done = subprocess.run(command, cwd=folder, stdout=subprocess.PIPE, stderr=subprocess.STDOUT)
    if done.returncode != 0:
        sys.exit(done.stdout.decode("utf-8", "replace") + "run_cost: failed: " + " ".join(command))


def built(folder):
    """Builds the program in a folder, and answers its path."""
    shutil.copytree(files.whole("crates"), os.path.join(folder, "crates"), ignore=shutil.ignore_patterns("out"))
    write(os.path.join(folder, "crates.txt"), "%s%s staticlib: fields table %s\n" % (files.text("crates.txt"), NAME, CRATE))
    crate = os.path.join(folder, "crates", NAME)
    write(os.path.join(crate, "src/lib.rt"), EXPORT)
    call(crate, "rt", "lib")
    call(folder, kit("toolchain/bin/clang"), *COMPILER_WORDS, "-Wall", "-Wextra", "-Werror", "-c",
         files.whole("tests/run_cost.c"), "-o", "main.o")
    call(folder, kit("bin/rattle-link"), "--target", TARGET, "--toolchain", kit("toolchain"), "-o", NAME, "main.o",
         os.path.join(crate, "out/lib%s.a" % NAME))
    return os.path.join(folder, NAME)


def instructions(program, which, path):
    """How many instructions the program executes, the loading of it included."""
    with open(path, "rb") as given:
        said = subprocess.run([*COUNTER, program, which], stdin=given, check=True, stdout=subprocess.DEVNULL,
                              stderr=subprocess.PIPE).stderr.decode()
    return int(COUNTED.search(said)[1].replace(",", ""))


def answer(program, which, path):
    with open(path, "rb") as given:
        return subprocess.run([program, which], stdin=given, check=True, stdout=subprocess.PIPE).stdout


def counts_of(program, path):
    """The counts of a run, which the library and plain C must answer alike, with the same entries."""
    library, plain = answer(program, "library", path), answer(program, "plain", path)
    if library != plain:
        sys.exit("run_cost: the library and plain C differ: " + path)
    return Counts._make(ANSWER.unpack_from(library))


def input_file(program, machine, n, schedule):
    path = "%s-%d" % (program, len(schedule))
    with open(path, "wb") as file:
        file.write(bytes([machine, n]) + schedule)
    return path


def measured(program, machine, n, make):
    """Of the bytes from FRONT to LENGTH the share that waits, and the instructions a byte, the library's and C's."""
    schedule = make(schedules.Chance("run cost"), machine, n, bakery.SCHEDULE_LIMIT)
    lengths = (FRONT, LENGTH, len(schedule))
    inputs = [input_file(program, machine, n, schedule[:length]) for length in lengths]
    # No tables are compared, but what comes of them is: tables that differ would go on differently up to the end.
    counts = [counts_of(program, path) for path in inputs]
    if [count.place for count in counts] != list(lengths):
        sys.exit("run_cost: a byte was refused")
    waits = counts[1].waited - counts[0].waited
    costs = [instructions(program, which, inputs[1]) - instructions(program, which, inputs[0])
             for which in ("library", "plain")]
    return [number / (LENGTH - FRONT) for number in (waits, *costs)]


def main():
    numbers = [int(word) for word in sys.argv[1:]] or [3, 16]
    if not all(1 <= n <= bakery.ROWS for n in numbers):
        sys.exit("run_cost: n is 1 to %d" % bakery.ROWS)
    if shutil.which(COUNTER[0]) is None:
        sys.exit("run_cost: valgrind counts the instructions, and it is not on the PATH")
    with tempfile.TemporaryDirectory() as folder:
        program = built(folder)
        print("| machine | n | schedule | waits | library | plain C | ratio |\n|---|---|---|---|---|---|---|")
        for name, machine in MACHINES:
            for n in numbers:
                for kind, make in MAKERS:
                    waits, library, plain = measured(program, machine, n, make)
                    print("| %s | %d | %s | %.0f%% | %.1f | %.1f | %.2f |"
                          % (name, n, kind, 100 * waits, library, plain, library / plain), flush=True)


if __name__ == "__main__":
    main()
