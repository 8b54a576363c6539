#!/usr/bin/env python3
"""Writes a script from a seed: mostly sensible, partly damaged.

    second/generate.py SEED              writes the script to standard output
    second/generate.py --count SEEDS     plays the scripts of seeds 0 up to SEEDS and counts the kinds of answers

The script is played while it is written, so that the next line can suit the states that the clients are in. There
are few clients, elements and pointers in each script, so that they get into each other's way.
"""

import random
import re
import sys
from collections import Counter

import lineplay


class Dice:
    """Throws from a seed. They come from random() alone, the one method whose numbers are promised to stay the same
    for a seed in every version of Python."""

    def __init__(self, seed):
        self.random = random.Random(seed).random

    def below(self, count):
        return int(self.random() * count)

    def between(self, lowest, highest):
        return lowest + self.below(highest - lowest + 1)

    def chance(self, share):
        return self.random() < share

    def one_of(self, choices):
        return choices[self.below(len(choices))]

    def some_of(self, choices, count):
        left = list(choices)
        return [left.pop(self.below(len(left))) for _ in range(count)]

    def weighed(self, weights):
        """One of the keys, as often as its weight says."""
        at = self.random() * sum(weights.values())
        for key, weight in weights.items():
            at -= weight
            if at < 0:
                return key
        return key


ODD_CLIENTS = [0, 15, 16, 900, 65535]
ODD_ELEMENTS = [31, 32, 255, 256, 65535]
ODD_POINTERS = [0, 63, 64, 1000, 65535]
ODD_VALUES = [-2147483648, 2147483647, 0, -1, 65536, 2147483000]
ODD_NUMERALS = [
    b"65536", b"-1", b"256", b"257", b"-0", b"0000000001", b"00000000001", b"2147483647", b"2147483648",
    b"-2147483648", b"-2147483649", b"2147483k", b"2147484k", b"-2147484k", b"65k", b"66k", b"1K", b"+1", b"1.0",
    b"--1", b"-", b"k", b"-k", b"1k0", b"1kk", b"9999999999k", b"one", b"0x1", b"1\t", b"\xc2\xb2",
]
LIMITS = [b"255", b"256", b"257", b"65535", b"65536"]
ODD_BYTES = [0, 9, 13, 32, 40, 41, 45, 48, 57, 107, 127, 128, 195, 255]
CALLS = list(lineplay.Plant.CALLS)


class Writer:
    def __init__(self, seed):
        self.dice = dice = Dice(seed)
        self.model = lineplay.Script()
        self.lines = []
        self.kind = dice.one_of(lineplay.RANK_KINDS)
        # Now and then a table that is wide enough for more locks than a client may have.
        self.wide = dice.chance(0.06)
        if self.wide:
            self.count = dice.one_of([33, 34, 40, 256])
        else:
            self.count = 0 if dice.chance(0.01) else dice.one_of([1, 1, 2, 2, 2, 3, 3, 4, 5])
        self.clients = dice.some_of(range(16), dice.between(2, 5))
        self.pointers = dice.some_of(range(64), dice.between(1, 3))
        self.ranks = dice.between(1, 4)  # so many different ranks, so that there are ties
        self.damage = dice.one_of([0, 0, 0.02, 0.05, 0.3])
        self.strays = dice.one_of([0, 0.03, 0.1])
        # How often one client makes the next call too: taking turns all the time, few would ever come to an end.
        self.goes_on = dice.one_of([0.3, 0.6, 0.8])
        self.latest = self.client()
        # Where most locks are for reading, an element has several holders.
        self.reading = dice.one_of([0.2, 0.5, 0.85])

    # Numbers that fit the script, and some that do not.

    def client(self):
        return self.dice.one_of(self.clients)

    def element(self):
        return self.dice.below(self.count) if self.count else 0

    def pointer(self):
        return self.dice.one_of(self.pointers)

    def value(self):
        return self.dice.one_of(ODD_VALUES) if self.dice.chance(0.05) else self.dice.between(-20, 999)

    def lock_kind(self):
        return "read" if self.dice.chance(self.reading) else "write"

    def rank(self, kind):
        if self.dice.chance(0.05):
            highest = 255 if kind == "grade" else 65535
            return [self.dice.between(0, highest) for _ in range(1 if kind == "grade" else 2)]
        return [self.dice.below(self.ranks) for _ in range(1 if kind == "grade" else 2)]

    def any_call(self):
        """A call without regard to who is in which state."""
        dice = self.dice
        client = dice.one_of(ODD_CLIENTS) if dice.chance(0.15) else self.client()
        element = dice.one_of(ODD_ELEMENTS) if dice.chance(0.15) else self.element()
        pointer = dice.one_of(ODD_POINTERS) if dice.chance(0.25) else self.pointer()
        return self.call(dice.one_of(CALLS), client, element, pointer)

    def call(self, name, client=0, element=0, pointer=0):
        if name == "begin":
            return f"(begin {client} ({self.kind} {' '.join(map(str, self.rank(self.kind)))}))"
        if name == "lock":
            return f"(lock {client} ({self.lock_kind()} {element}))"
        if name == "read":
            return f"(read {client} {element})"
        if name == "change":
            return f"(change {client} {element} {self.value()})"
        if name == "bind":
            return f"(bind {pointer} {element})"
        if name == "put":
            return f"(put {pointer} {self.value()})"
        if name in ("remove", "get"):
            return f"({name} {pointer})"
        return f"({name} {client})"

    def fitting_call(self):
        """A call that suits the states that the clients and pointers are in."""
        dice, plant = self.dice, self.model.plant
        if dice.chance(0.25):
            pointer = self.pointer()
            if pointer not in plant.pointers:
                return self.call("bind", element=self.element(), pointer=pointer)
            name = dice.weighed({"put": 5, "get": 6, "remove": 1})
            return self.call(name, pointer=pointer)
        if not dice.chance(self.goes_on):
            self.latest = self.client()
        client = self.latest
        state = plant.state[client]
        if state == lineplay.IDLE:
            return self.call("begin", client)
        if state == lineplay.THROWN_OUT:
            return self.call("clear", client)
        if state == lineplay.COMMITTING:
            # Now and then the one that is refused: an end too early, a write back too many.
            left = bool(plant.left_to_take(client))
            return self.call("back" if left != dice.chance(0.1) else "end", client)
        held = plant.locks[client]
        written = [element for element, lock in held.items() if lock.kind == "write"]
        # A transaction that commits before it has changed anything says little, so that is rare.
        weights = {"lock": 6 if self.wide else 6 / (1 + len(held)), "commit": 0.2, "giveup": 0.15}
        if held:
            weights.update({"read": 2, "commit": 0.4})
        if written:
            weights.update({"change": 6})
        if any(lock.changed for lock in held.values()):
            weights.update({"commit": 3})
        name = dice.weighed(weights)
        if name == "lock" and self.wide:
            # The next element in turn, or one that is held already: a full client may still gain its write lock.
            element = dice.one_of(list(held)) if held and dice.chance(0.3) else len(held)
            return f"(lock {client} ({self.lock_kind()} {element}))"
        if name == "lock" and held and dice.chance(0.3):
            return f"(lock {client} (write {dice.one_of(list(held))}))"
        element = dice.one_of(written) if name == "change" else dice.one_of(list(held)) if name == "read" else None
        return self.call(name, client, self.element() if element is None else element)

    # Other ways to write the same line, and ways to spoil it.

    def respelled(self, line):
        dice = self.dice
        way = dice.below(4)
        if way == 0:  # spaces where they do no harm
            parts = re.findall(rb"[()]|[^() ]+| ", line)
            return b"".join(part + b" " * dice.below(3) for part in parts)
        if way == 1:  # zeros in front
            return re.sub(rb" ([0-9]{1,5})\b", lambda found: b" " + b"0" * dice.below(5) + found.group(1), line)
        if way == 2:  # no space before a bracket
            return line.replace(b" (", b"(")
        return line.ljust(dice.between(118, 120))

    def spoiled(self, line):
        dice = self.dice
        at = dice.below(len(line))
        way = dice.weighed({
            "byte": 3, "insert": 3, "bracket": 2, "numeral": 4, "limit": 2, "long": 1, "cut": 2, "two": 1, "blank": 0.5,
            "kind": 1, "open": 1, "word": 1, "noise": 0.5,
        })
        if way == "byte":
            return line[:at] + bytes([dice.one_of(ODD_BYTES)]) + line[at + 1:]
        if way == "insert":
            return line[:at] + bytes([dice.one_of(ODD_BYTES)]) + line[at:]
        if way == "bracket":
            brackets = [index for index, byte in enumerate(line) if byte in b"()"]
            at = dice.one_of(brackets) if brackets else at
            return line[:at] + line[at + 1:]
        if way in ("numeral", "limit"):
            numerals = list(re.finditer(rb"-?[0-9]+", line))
            if not numerals:
                return line
            found = dice.one_of(numerals)
            numeral = dice.one_of(ODD_NUMERALS if way == "numeral" else LIMITS)
            return line[:found.start()] + numeral + line[found.end():]
        if way == "long":
            return line.ljust(dice.between(119, 125), dice.one_of([b" ", b"x", b")"]))
        if way == "cut":
            return line[:at] + b" " * dice.below(3)
        if way == "two":
            return line + b" " * dice.below(2) + line
        if way == "blank":
            return b" " * dice.below(5)
        if way == "kind":
            other = "due" if self.kind == "grade" else "grade"
            return f"(begin {self.client()} ({other} {' '.join(map(str, self.rank(other)))}))".encode()
        if way == "open":
            return f"(open {dice.below(4)} ({dice.one_of(lineplay.RANK_KINDS)}))".encode()
        if way == "word":
            return line.replace(b"m", b"mm").replace(b"e", b"E", 1)
        return bytes(byte for byte in (dice.below(256) for _ in range(dice.below(130))) if byte != 10)

    def add(self, line):
        dice = self.dice
        line = line.encode()
        if dice.chance(0.05):
            line = self.respelled(line)
        if dice.chance(self.damage):
            line = self.spoiled(line)
        self.lines.append(line)
        self.model.play(line)

    def script(self):
        dice = self.dice
        length = dice.between(20, 90) + (90 if self.wide else 0)
        for _ in range(dice.one_of([0, 0, 0, 1, 2])):  # lines before the open
            self.add(self.any_call())
        while self.model.plant is None:
            self.add(f"(open {self.count} ({self.kind}))")
        # Damage may have opened another plant than was meant; what follows has to suit the one that there is.
        self.kind, self.count = self.model.plant.kind, len(self.model.plant.table)
        if self.wide and self.count >= 33:
            client = self.client()
            self.add(self.call("begin", client))
            for element in range(dice.between(31, 33)):
                self.add(f"(lock {client} ({self.lock_kind()} {element}))")
            self.latest = client
        while len(self.lines) < length:
            self.add(self.any_call() if dice.chance(self.strays) else self.fitting_call())
        return b"\n".join(self.lines) + (b"" if dice.chance(0.2) and self.lines[-1] else b"\n")


def script(seed):
    """The script of a seed, as bytes."""
    return Writer(seed).script()


def kind_of(answer):
    """An answer without the numbers that depend on the table: what the counts are kept by."""
    if answer[0] == "no":
        return f"(no {answer[1]})"
    if answer[0] == "fault":
        return f"(fault {answer[1]})"
    if answer[0] == "ok" and len(answer) == 3:
        return f"(ok E {answer[2]})"
    return "(ok V)" if len(answer) == 2 else lineplay.answer_text(answer)


# Every kind of answer. No script can bring about two of the refusals: a number of a form is within 32 bits, as the
# table's limits are (3), and the rank list has 16 entries (15).
OUT_OF_REACH = ["(no 3)", "(no 15)"]
ALL_KINDS = (
    ["(ok)", "(ok V)", "(wait)", "(lost)", "(ok E written)", "(ok E dropped)"]
    + [f"(no {refusal})" for refusal in range(1, 18)]
    + ["(fault 21)", "(fault 22)", "(fault 26)"]
)


def count_kinds(seeds):
    counts = Counter()
    for seed in seeds:
        played = lineplay.Script()
        for line in lineplay.split_lines(script(seed)):
            opened = played.plant is not None
            _, answer = played.play(line)
            kind = kind_of(answer)
            counts[kind] += 1
            if kind == "(fault 26)":
                counts["(fault 26), a second open" if opened else "(fault 26), no open yet"] += 1
    return counts


def main(arguments):
    if len(arguments) == 1 and re.fullmatch("[0-9]+", arguments[0]):
        sys.stdout.buffer.write(script(int(arguments[0])))
        return 0
    if len(arguments) == 2 and arguments[0] == "--count" and re.fullmatch("[0-9]+", arguments[1]):
        counts = count_kinds(range(int(arguments[1])))
        for kind in ALL_KINDS + ["(fault 26), no open yet", "(fault 26), a second open"]:
            print(f"{counts[kind]:8} {kind}" + (" cannot come up" if kind in OUT_OF_REACH else ""))
        print(f"{sum(counts[kind] for kind in ALL_KINDS):8} lines in all")
        return 0
    print("usage: generate.py SEED | generate.py --count SEEDS", file=sys.stderr)
    return 1


if __name__ == "__main__":
    sys.exit(main(sys.argv[1:]))
