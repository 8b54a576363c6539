#!/usr/bin/env python3
"""Plays a script: one line in, one answer out.

    second/lineplay.py < SCRIPT
    second/lineplay.py SCRIPT

This is the second of two programs that do the same. It is written from the pages under docs/ alone and shares
neither code nor tables with the crates, so that a mistake in one of the two shows as a difference between them.
For that reason it goes the plain way everywhere: each rule stands here once, in the words of its page, and
nothing is done for speed.
"""

import re
import sys

# ---------------------------------------------------------------------------------------------------------------
# Lines (docs/script.md)

LONGEST_LINE = 120

# The forms, item by item. A capital letter stands for a number of that name's range.
FORMS = [
    "( open N ( grade ) )",
    "( open N ( due ) )",
    "( bind P E )",
    "( remove P )",
    "( get P )",
    "( put P V )",
    "( begin C ( grade G ) )",
    "( begin C ( due M W ) )",
    "( lock C ( read E ) )",
    "( lock C ( write E ) )",
    "( read C E )",
    "( change C E V )",
    "( commit C )",
    "( back C )",
    "( end C )",
    "( giveup C )",
    "( clear C )",
]

RANGES = {
    "N": (0, 256),
    "G": (0, 255),
    "V": (-2147483648, 2147483647),
    "C": (0, 65535),
    "E": (0, 65535),
    "P": (0, 65535),
    "M": (0, 65535),
    "W": (0, 65535),
}

RANK_KINDS = ("grade", "due")

# The line's end counts as an item, so each form has it as its last one.
END = None
SHAPES = [form.split() + [END] for form in FORMS]

ITEM = re.compile(rb"[()]|[^() ]+")
NUMERAL = re.compile(rb"(-?[0-9]{1,10})(k?)")


def items(line):
    """The items of a line, each as (place, bytes); the last is the line's end."""
    found = [(match.start() + 1, match.group()) for match in ITEM.finditer(line)]
    found.append((len(line) + 1, END))
    return found


def number(text):
    """The number that these bytes spell, or None where they are a word."""
    match = NUMERAL.fullmatch(text)
    if match is None:
        return None
    digits, thousands = match.groups()
    return int(digits) * (1000 if thousands else 1)


def fits(part, item):
    """Whether an item of a line may stand where a form has this part."""
    if part is END or item is END:
        return part is item
    if part in RANGES:
        lowest, highest = RANGES[part]
        value = number(item)
        return value is not None and lowest <= value <= highest
    return part.encode() == item


def allowed(shape, kind):
    """Whether lines of this shape are forms once a script has opened with this kind of rank (None: not yet)."""
    return kind is None or all(other == kind or other not in shape for other in RANK_KINDS)


ALLOWED = {kind: [shape for shape in SHAPES if allowed(shape, kind)] for kind in (None,) + RANK_KINDS}


def read_line(line, kind):
    """What a line says: ("fault", number, place), or its words and numbers without the brackets.

    So "(begin 1 (grade 5))" gives ("begin", 1, "grade", 5). `kind` is the rank kind of the script's open, or None
    where none came yet.
    """
    if len(line) > LONGEST_LINE:
        return ("fault", 21, LONGEST_LINE + 1)
    # The shapes that begin as the line does, item for item. The place of a 22 is that of the item that leaves none.
    shapes = ALLOWED[kind]
    said = []
    for index, (place, item) in enumerate(items(line)):
        shapes = [shape for shape in shapes if fits(shape[index], item)]
        if not shapes:
            return ("fault", 22, place)
        part = shapes[0][index]
        if part in RANGES:
            said.append(number(item))
        elif part not in ("(", ")", END):
            said.append(part)
    # A shape's last part is the line's end, so here the line is a form.
    if (said[0] == "open") == (kind is not None):
        return ("fault", 26, 1)
    return tuple(said)


# ---------------------------------------------------------------------------------------------------------------
# Calls (docs/protocol.md)

CLIENTS = 16
POINTERS = 64
MOST_LOCKS = 32
RANK_ENTRIES = 16

IDLE, EXECUTING, COMMITTING, THROWN_OUT = "idle", "executing", "committing", "thrown out"

# What each call meets in each state: a refusal, or None where it is allowed.
STATE_TABLE = {
    "begin": {IDLE: None, EXECUTING: 8, COMMITTING: 8, THROWN_OUT: 11},
    "clear": {IDLE: 12, EXECUTING: 12, COMMITTING: 12, THROWN_OUT: None},
}
for _call in ("lock", "read", "change", "commit", "giveup"):
    STATE_TABLE[_call] = {IDLE: 7, EXECUTING: None, COMMITTING: 9, THROWN_OUT: 11}
for _call in ("back", "end"):
    STATE_TABLE[_call] = {IDLE: 7, EXECUTING: 10, COMMITTING: None, THROWN_OUT: 11}


class Refused(Exception):
    """A call that is refused; it is raised before anything has changed."""

    def __init__(self, refusal):
        super().__init__(refusal)
        self.refusal = refusal


class Lock:
    """A client's right to one element, with its working copy."""

    def __init__(self, kind, copy):
        self.kind = kind  # "read" or "write"
        self.copy = copy
        self.changed = False
        self.taken = False  # by a write back


class Plant:
    """A table with its clients, pointers and rank list."""

    def __init__(self, numbers, kind, lowest=-2147483648, highest=2147483647, rank_entries=RANK_ENTRIES):
        self.table = list(numbers)
        self.lowest = lowest
        self.highest = highest
        self.kind = kind
        # A grade is (G,), a due time is (M, W): at first all zeros.
        self.ranks = [(0,) if kind == "grade" else (0, 0)] * rank_entries
        self.state = [IDLE] * CLIENTS
        self.locks = [{} for _ in range(CLIENTS)]  # for each client: element -> Lock
        self.marks = set()  # the marked elements
        self.second = {}  # element -> its second version
        self.pointers = {}  # pointer -> the element that it is tied to

    # What is asked of a plant.

    def shows(self, element):
        return self.second.get(element, self.table[element])

    def holders(self, element):
        return [client for client in range(CLIENTS) if element in self.locks[client]]

    def rank_above(self, one, other):
        if self.kind == "grade":
            return one[0] > other[0]
        return one[0] < other[0] or (one[0] == other[0] and one[1] > other[1])

    def stands_above(self, client, other):
        if self.rank_above(self.ranks[client], self.ranks[other]):
            return True
        if self.rank_above(self.ranks[other], self.ranks[client]):
            return False
        return client < other

    # What the calls have in common.

    def refuse_if(self, condition, refusal):
        if condition:
            raise Refused(refusal)

    def look_at_client(self, call, client, needs_ranks=False):
        """The refusals that come first in each call of a client."""
        self.refuse_if(client >= CLIENTS, 6)
        self.refuse_if(needs_ranks and len(self.ranks) < RANK_ENTRIES, 15)
        refusal = STATE_TABLE[call][self.state[client]]
        self.refuse_if(refusal is not None, refusal)

    def look_at_element(self, element):
        self.refuse_if(element >= len(self.table), 5)

    def look_at_number(self, value):
        self.refuse_if(not self.lowest <= value <= self.highest, 3)

    def look_at_pointer(self, pointer):
        self.refuse_if(pointer >= POINTERS, 1)

    def drop_locks(self, client):
        """Locks and copies go, and with a write lock the second version; table and marks stay as they are."""
        for element, lock in self.locks[client].items():
            if lock.kind == "write":
                del self.second[element]
        self.locks[client] = {}

    def throw_out(self, client):
        self.drop_locks(client)
        self.state[client] = THROWN_OUT

    def left_to_take(self, client):
        """The elements that were changed and not taken yet, the lowest first."""
        return sorted(element for element, lock in self.locks[client].items() if lock.changed and not lock.taken)

    # The calls. Each gives what stands in its answer behind "ok", or a whole answer.

    def begin(self, client, kind, *rank):
        self.look_at_client("begin", client, needs_ranks=True)
        self.ranks[client] = rank
        self.state[client] = EXECUTING

    def lock(self, client, kind, element):
        self.look_at_client("lock", client, needs_ranks=True)
        self.look_at_element(element)
        own = self.locks[client].get(element)
        # Step 1: what the client has already.
        if own is not None and own.kind in (kind, "write"):
            return None
        # Gaining the write lock on an element that one reads adds no lock.
        self.refuse_if(own is None and len(self.locks[client]) >= MOST_LOCKS, 14)
        others = [other for other in self.holders(element) if other != client]
        conflicting = [
            other
            for other in others
            if kind == "write" or self.locks[other][element].kind == "write" or element in self.marks
        ]
        # Step 2
        if any(self.stands_above(other, client) for other in conflicting):
            self.throw_out(client)
            return ("lost",)
        # Step 3
        if any(self.state[other] == COMMITTING for other in conflicting):
            return ("wait",)
        # Step 4
        for other in conflicting:
            self.throw_out(other)
        if own is None:
            self.locks[client][element] = Lock(kind, self.table[element])
            if self.holders(element) == [client]:
                self.marks.discard(element)
        else:
            own.kind = "write"  # the copy and the mark stay
        if kind == "write":
            self.second[element] = self.table[element]
        return None

    def read(self, client, element):
        self.look_at_client("read", client)
        self.look_at_element(element)
        self.refuse_if(element not in self.locks[client], 13)
        return (self.locks[client][element].copy,)

    def change(self, client, element, value):
        self.look_at_client("change", client)
        self.look_at_element(element)
        lock = self.locks[client].get(element)
        self.refuse_if(lock is None or lock.kind != "write", 13)
        self.look_at_number(value)
        lock.copy = value
        lock.changed = True

    def commit(self, client):
        self.look_at_client("commit", client)
        self.state[client] = COMMITTING

    def back(self, client):
        self.look_at_client("back", client)
        left = self.left_to_take(client)
        self.refuse_if(not left, 17)
        element = left[0]
        lock = self.locks[client][element]
        lock.taken = True
        if element in self.marks:
            return (element, "dropped")
        self.table[element] = lock.copy
        return (element, "written")

    def end(self, client):
        self.look_at_client("end", client)
        self.refuse_if(self.left_to_take(client), 16)
        self.drop_locks(client)
        self.state[client] = IDLE

    def giveup(self, client):
        self.look_at_client("giveup", client)
        self.drop_locks(client)
        self.state[client] = IDLE

    def clear(self, client):
        self.look_at_client("clear", client)
        self.state[client] = IDLE

    def bind(self, pointer, element):
        self.look_at_pointer(pointer)
        self.refuse_if(pointer in self.pointers, 4)
        self.look_at_element(element)
        self.pointers[pointer] = element

    def remove(self, pointer):
        self.look_at_pointer(pointer)
        self.refuse_if(pointer not in self.pointers, 2)
        del self.pointers[pointer]

    def get(self, pointer):
        self.look_at_pointer(pointer)
        self.refuse_if(pointer not in self.pointers, 2)
        return (self.shows(self.pointers[pointer]),)

    def put(self, pointer, value):
        self.look_at_pointer(pointer)
        self.refuse_if(pointer not in self.pointers, 2)
        self.look_at_number(value)
        element = self.pointers[pointer]
        self.table[element] = value
        if self.holders(element):
            self.marks.add(element)
        if element in self.second:
            self.second[element] = value

    CALLS = {
        "begin": begin,
        "lock": lock,
        "read": read,
        "change": change,
        "commit": commit,
        "back": back,
        "end": end,
        "giveup": giveup,
        "clear": clear,
        "bind": bind,
        "remove": remove,
        "get": get,
        "put": put,
    }

    def perform(self, call):
        """Makes a call, written as read_line gives it, and gives its answer as a tuple."""
        try:
            answer = self.CALLS[call[0]](self, *call[1:])
        except Refused as refused:
            return ("no", refused.refusal)
        if answer in (("wait",), ("lost",)):
            return answer
        return ("ok",) + (answer or ())


# ---------------------------------------------------------------------------------------------------------------
# Scripts

def answer_text(answer):
    return "(" + " ".join(str(part) for part in answer) + ")"


class Script:
    """A script that is being played, line by line."""

    def __init__(self):
        self.plant = None  # until the open

    def play(self, line):
        """Takes one line, without its byte 10. Gives (call, answer); the call is None unless it reached the plant."""
        said = read_line(line, self.plant.kind if self.plant else None)
        if said[0] == "fault":
            return None, said
        if said[0] == "open":
            _, count, kind = said
            self.plant = Plant([0] * count, kind)
            return None, ("ok",)
        return said, self.plant.perform(said)


def lines_of(stream):
    """The lines of a stream of bytes, without byte 10; of a line that is too long only as much as shows that."""
    while True:
        line = stream.readline(LONGEST_LINE + 2)
        if not line:
            return
        if line.endswith(b"\n"):
            yield line[:-1]
            continue
        rest = line
        while len(rest) == LONGEST_LINE + 2 and not rest.endswith(b"\n"):
            rest = stream.readline(LONGEST_LINE + 2)
        yield line


def split_lines(script):
    """The lines of a whole script: each ends at byte 10, and the last one may lack it."""
    lines = script.split(b"\n")
    if lines[-1] == b"":
        lines.pop()
    return lines


def answers(script):
    """The answer lines to a whole script of bytes."""
    played = Script()
    return [answer_text(played.play(line)[1]) for line in split_lines(script)]


def main(arguments):
    if len(arguments) > 1:
        print("usage: lineplay.py [FILE]", file=sys.stderr)
        return 1
    try:
        stream = open(arguments[0], "rb") if arguments else sys.stdin.buffer
    except OSError as error:
        print(f"lineplay.py: cannot read {arguments[0]}: {error.strerror}", file=sys.stderr)
        return 1
    script = Script()
    for line in lines_of(stream):
        # Each answer goes out at once, so that the program can be driven through a pipe.
        sys.stdout.write(answer_text(script.play(line)[1]) + "\n")
        sys.stdout.flush()
    return 0


if __name__ == "__main__":
    sys.exit(main(sys.argv[1:]))
