#!/usr/bin/env python3
"""Checks that need many scripts in one process. The last line is 'N passed, M failed'.

    second/check.py order SEEDS               the promise of the run law after every line: the worked history, the
                                              scripts under scripts/ and the generated ones of seeds 0 up to SEEDS
    second/check.py compare PROGRAM SEEDS     another program that plays scripts, against lineplay.py, on the same
                                              scripts; it stops at the first difference
"""

import pathlib
import subprocess
import sys

import generate
import lineplay
import order

SCRIPTS = pathlib.Path(__file__).resolve().parent.parent / "scripts"


def all_scripts(seeds):
    """The scripts under scripts/, then the generated ones, each with a name."""
    for path in sorted(SCRIPTS.glob("*.script")):
        yield f"scripts/{path.name}", path.read_bytes()
    for seed in range(seeds):
        yield f"second/generate.py {seed}", generate.script(seed)


# The worked history of docs/run-law.md, moment by moment, copied from there by hand.
DONE = ("ok",)
WORKED_HISTORY = [
    (("bind", 0, 0), DONE),
    (("bind", 1, 1), DONE),
    (("begin", 1, "grade", 5), DONE),
    (("begin", 2, "grade", 3), DONE),
    (("lock", 2, "write", 2), DONE),
    (("lock", 1, "write", 0), DONE),
    (("lock", 1, "write", 1), DONE),
    (("change", 1, 0, 700), DONE),
    (("change", 1, 1, 800), DONE),
    (("lock", 1, "write", 2), DONE),
    (("get", 0), ("ok", 100)),
    (("commit", 1), DONE),
    (("back", 1), ("ok", 0, "written")),
    (("put", 1, 510), DONE),
    (("back", 1), ("ok", 1, "dropped")),
    (("get", 1), ("ok", 510)),
    (("get", 0), ("ok", 100)),
    (("end", 1), DONE),
    (("begin", 3, "grade", 9), DONE),
    (("lock", 3, "read", 0), DONE),
    (("read", 3, 0), ("ok", 700)),
    (("lock", 3, "write", 1), DONE),
    (("read", 3, 1), ("ok", 510)),
    (("change", 3, 1, 600), DONE),
    (("commit", 3), DONE),
    (("back", 3), ("ok", 1, "written")),
    (("end", 3), DONE),
    (("get", 1), ("ok", 600)),
    (("read", 2, 2), ("no", 11)),
]
WORKED_ORDER = [10, 16, 17, 13, 15, 26, 27]
WORKED_STEPS = [
    ("read", 0, 100), ("read", 0, 100), ("set", 0, 700), ("set", 1, 800), ("set", 1, 510), ("read", 1, 510),
    ("read", 0, 700), ("read", 1, 510), ("set", 1, 600), ("read", 1, 600),
]
OTHER_ORDER = [10, 13, 15, 16, 17, 26, 27]


class Tally:
    def __init__(self):
        self.passed = self.failed = 0

    def note(self, what, wrong):
        """`wrong` says what is wrong; None or False where it is right."""
        if wrong:
            self.failed += 1
            print(f"FAILED: {what}: {wrong}")
        else:
            self.passed += 1

    def close(self):
        print(f"{self.passed} passed, {self.failed} failed")
        return 0 if self.failed == 0 else 1


def check_worked_history(tally):
    plant = lineplay.Plant([100, 100, 100], "grade")
    given = [(call, plant.perform(call)) for call, _ in WORKED_HISTORY]
    tally.note("the worked history: answers", given != WORKED_HISTORY and f"found {given}")
    entries = order.order(WORKED_HISTORY)
    names = [entry.name() for entry in entries]
    tally.note("the worked history: order", names != WORKED_ORDER and f"found {names}")
    steps = order.steps(entries)
    tally.note("the worked history: steps", steps != WORKED_STEPS and f"found {steps}")
    ends = order.play(entries, [100, 100, 100])
    tally.note("the worked history: play", ends != ([700, 600, 100], None) and f"found {ends}")
    # A check that nothing could fail would say nothing: with each access at its own moment a read has to be wrong.
    by_name = {entry.name(): entry for entry in entries}
    wrong = order.play([by_name[name] for name in OTHER_ORDER], [100, 100, 100])[1]
    tally.note("the worked history: the other order", wrong is None and "it plays right")


def check_order(seeds):
    tally = Tally()
    check_worked_history(tally)
    for name, script in all_scripts(seeds):
        broken = order.check_script(script)
        tally.note(name, broken and f"after line {broken[0]}: {broken[1]}")
    # The generated scripts are worth their time only if everything comes up in them that can.
    counts = generate.count_kinds(range(seeds))
    for kind in generate.ALL_KINDS:
        if kind in generate.OUT_OF_REACH:
            tally.note(f"{kind} cannot come up", counts[kind] and f"it came up {counts[kind]} times")
        else:
            tally.note(f"{kind} comes up", not counts[kind] and "it never does")
    return tally.close()


def difference(script, mine, other):
    """The first line whose answers differ, told in words; None where all are the same."""
    lines = lineplay.split_lines(script)
    for index in range(max(len(mine), len(other))):
        one = mine[index] if index < len(mine) else "nothing"
        two = other[index] if index < len(other) else "nothing"
        if one != two:
            line = lines[index] if index < len(lines) else b"(behind the last line)"
            return f"line {index + 1}: {line!r}\n  second/lineplay.py: {one}\n  the other program:  {two}"
    return None


def check_compare(program, seeds):
    tally = Tally()
    for name, script in all_scripts(seeds):
        run = subprocess.run([program], input=script, stdout=subprocess.PIPE, check=False)
        printed = run.stdout.decode("latin-1")
        # The answers have to end in byte 10, so what stands behind the last one is nothing.
        *other, rest = printed.split("\n")
        wrong = difference(script, lineplay.answers(script), other)
        if wrong is None and (rest or run.returncode):
            wrong = f"the other program ended with status {run.returncode} and with {rest!r} behind its last line"
        tally.note(name, wrong)
        if wrong:
            break
    return tally.close()


def main(arguments):
    if len(arguments) == 2 and arguments[0] == "order":
        return check_order(int(arguments[1]))
    if len(arguments) == 3 and arguments[0] == "compare":
        return check_compare(arguments[1], int(arguments[2]))
    print(__doc__, file=sys.stderr)
    return 2


if __name__ == "__main__":
    sys.exit(main(sys.argv[1:]))
