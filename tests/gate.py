"""Checks everything; the last line is `N passed, 0 failed`.

    python3 tests/gate.py

First: that the case files and expected outputs are what the second implementation writes, and that the pages show what
is there. Then comes `rt ci`, which refuses sources without their layout, proves every crate, tries every edit that the
prover must refuse, and runs every program. The public calls are read off each library as `rt ci` has built it; the
lister that it leaves is run on its cases. A step that fails ends the gate, with a sentence that says what to do.
"""

import os
import re
import shutil
import signal
import subprocess
import sys

sys.dont_write_bytecode = True

import files
import lister_program
import public_calls

STEPS = (
    ([sys.executable, "tests/write_cases.py", "--check"],
     "Mend tests/cases if a case is named above; else run `python3 tests/write_cases.py`, and see by `git diff` that what"
     " changed is what was meant to."),
    ([sys.executable, "tests/pages.py"], "Mend the pages named above."),
)

# What `rt ci` says of a crate when its build stands there, proved in this run or kept from one before; and when all is
# well, with the number of edits that could not be tried if there are any.
BUILT = re.compile(rb"rt: (\w+) (?:proved|is kept: .*)\n")
EDITS = re.compile(rb"rt: ok; .*?must-fail edits: (\d+ refused[^;]*);.*\n")
BAD = re.compile(rb", [1-9]\d* bad\b")


def stop(sentence, status=1):
    sys.stdout.flush()
    print("gate: stopped. " + sentence, file=sys.stderr)
    sys.exit(status)


def put(line):
    """Prints a line of `rt ci`: bytes, whatever they are."""
    sys.stdout.flush()
    sys.stdout.buffer.write(line)
    sys.stdout.buffer.flush()


def end(ci):
    """Ends `rt ci` with all that it has started."""
    if ci.poll() is None:
        os.killpg(ci.pid, signal.SIGTERM)
    ci.wait()


def rt_ci():
    """Runs `rt ci`, and looks at what it has built. Its last line comes last."""
    libraries, calls, edits, last = public_calls.libraries(), {}, None, b""
    ci = subprocess.Popen(["rt", "ci"], start_new_session=True, stdout=subprocess.PIPE)
    try:
        for line in ci.stdout:
            put(last)
            last = line
            built = BUILT.fullmatch(line)
            crate = built[1].decode() if built else None
            if crate in libraries:
                # now, since at its end `rt ci` puts back the library that an earlier check left there
                calls[crate] = public_calls.calls_of(crate)
            edits = EDITS.fullmatch(line) or edits
        status = ci.wait()
    finally:
        end(ci)
    if status != 0:
        put(last)
        stop("`rt ci` says above what is not proved, what is not refused, or which program prints something else.", status)
    if not edits or BAD.search(edits[1]):
        stop("Mend the must-fail edits that `rt ci` calls bad above: the prover must see each, and refuse it.")
    if not public_calls.check(calls):
        stop("Give each call named above its theorem in crates/promises and its row in docs/PROMISES.md, or make it"
             " `pub(crate)`; `rt lib` in crates/promises and in crates/demands, and then `python3"
             " tests/public_calls.py`, try it alone.")
    if not lister_program.check():
        stop("Mend crates/lister, or tests/cases/lister.txt where that lacks an input; `rt run` in crates/lister, and then"
             " `python3 tests/lister_program.py`, try it alone.")
    put(last)


def main():
    os.chdir(files.ROOT)
    # A gate that is ended ends `rt ci` too.
    for number in (signal.SIGTERM, signal.SIGHUP):
        signal.signal(number, lambda *_: sys.exit(1))
    if shutil.which("rt") is None:
        stop("The Rattle kit's command `rt` is not on the PATH.")
    for command, sentence in STEPS:
        if subprocess.run(command).returncode != 0:
            stop(sentence)
    rt_ci()


if __name__ == "__main__":
    main()
