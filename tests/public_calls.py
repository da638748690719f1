"""Checks that every public function of the library crates has its theorem in crates/promises, and names those without.

    python3 tests/public_calls.py

What is public is read off what the toolchain built of each library, under its out/rlib: the names that other crates can
use, and the parameters. `rt lib` in a library's folder builds it. Of each function this asks: a statement in
crates/promises/specs/Calls.antt that is of this function in all its parts, and of its lent buffer too if it has one; a
theorem of that statement in crates/promises/proofs/Calls.antt; its name in docs/PROMISES.md. What the statement says,
that the call asks nothing and that its promise determines its answer, is for the prover.
"""

import json
import os
import re
import sys
from collections import namedtuple

sys.dont_write_bytecode = True

import files

STATEMENTS, THEOREMS, PAGE = "crates/promises/specs/Calls.antt", "crates/promises/proofs/Calls.antt", "docs/PROMISES.md"

# A module that a library has for the proofs of its callers, by its path there.
CALLERS_MODULE = re.compile(r"facade/proofs/(.+)/Reads")

# The crate, the path by which other crates know it, and the places of the parameters that are lent to be written to.
Call = namedtuple("Call", "crate path lent")


def crates():
    """The crates that crates.txt lists."""
    return re.findall(r"^\s*(\w+)\b[^:\n]*:", re.sub(r"#.*", "", files.text("crates.txt")), re.M)


def libraries():
    return [crate for crate in crates() if os.path.exists(files.whole("crates/%s/src/lib.rt" % crate))]


def public_paths(built):
    """The paths of a library's public functions: each has a module of this name for its callers' proofs."""
    modules = [json.loads(line)[0] for line in files.text(built + "/toolchain/made.json").splitlines()]
    return sorted(found[1].replace("/", ".") for found in map(CALLERS_MODULE.fullmatch, modules) if found)


def lent_places(function):
    """The places of the parameters that are a reference to write through, or a struct that holds any reference."""
    parameters = function["locals"][1:1 + function["params"]]
    return [place for place, parameter in enumerate(parameters)
            if re.search(r'"Mut"|"lifetimes": \[[^\]]', json.dumps(parameter))]


def calls_of(crate):
    """The public functions of a library, and what is wrong with those that are not told by the library itself."""
    built = "crates/{0}/out/rlib/{0}.rlib".format(crate)
    if not os.path.exists(files.whole(built)):
        return [], ["%s: it is not built; run `rt lib` in crates/%s" % (crate, crate)]
    own = dict(json.loads(files.text(built + "/interface/toolchain/mir.json")))
    calls, faults, told = [], [], set()
    for path in public_paths(built):
        end = "::" + path.replace(".", "::")
        found = [name for name in own if name.endswith(end)]
        told.update(found)
        if len(found) == 1:
            calls.append(Call(crate, path, lent_places(own[found[0]])))
        else:
            faults.append("%s%s: it is another crate's, or has another name here, or there are two" % (crate, end))
    faults += [name + ": other crates can use it, under a name that is not its own" for name in sorted(set(own) - told)]
    return calls, faults


def faults_of(call, statements, theorems, page):
    """What is missing of a call."""
    told = "%s::%s" % (call.crate, call.path.replace(".", "::"))
    used = re.search(r"^use Rattle\.%s\.proofs\.(%s)(?: as (\w+))?$"
                     % (call.crate, re.escape(call.path.split(".")[0])), statements, re.M)
    if not used:
        yield "%s: %s has no line `use Rattle.%s.proofs.%s`" % (told, STATEMENTS, call.crate, call.path.split(".")[0])
        return
    path = ".".join([used[2] or used[1]] + call.path.split(".")[1:])
    if len(call.lent) > 1:
        yield "%s: it is lent more than one buffer, and a statement is of one" % told
    kind = "AnswersAndLeaves" if call.lent else "Answers"
    end = " (λ κs e. e%s.0.now)" % (".1" * call.lent[0]) if call.lent else ""
    wanted = "{0}.Kinds.ps {0}.Kinds.r {0}.Reads.Asked {0}.Reads.Learnt".format(path) + end
    stated = re.search(r"^(\w+) = %s \d+ %s$" % (kind, re.escape(wanted)), statements, re.M)
    if not stated:
        yield "%s: %s has no statement `%s .. %s`" % (told, STATEMENTS, kind, wanted)
    elif not re.search(r"^pub \w+ : %s$" % stated[1], theorems, re.M):
        yield "%s: %s has no theorem of `%s`" % (told, THEOREMS, stated[1])
    if "`%s`" % told not in page:
        yield "%s: %s does not have it" % (told, PAGE)


def check(read):
    """Says which calls lack something, and answers whether none does. `read` has by crate what calls_of answers."""
    statements, theorems, page = (files.text(path) for path in (STATEMENTS, THEOREMS, PAGE))
    faults = [path + ": `{-` opens a comment; write `--`" for path, text in ((STATEMENTS, statements), (THEOREMS, theorems))
              if "{-" in text]
    calls = []
    for crate in libraries():
        own, wrong = read.get(crate, ([], [crate + ": it was not read"]))
        calls += own
        faults += wrong
    faults += [fault for call in calls for fault in faults_of(call, statements, theorems, page)]
    for fault in faults:
        print(fault)
    print("public calls: %d, faults: %d" % (len(calls), len(faults)), flush=True)
    return bool(calls) and not faults


if __name__ == "__main__":
    sys.exit(0 if check({crate: calls_of(crate) for crate in libraries()}) else 1)
