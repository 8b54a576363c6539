#!/usr/bin/env python3
"""The order in which ended transactions and hard accesses count, and a checker that plays it (docs/run-law.md).

    second/order.py [FILE]     plays a script, prints its answers, and behind them the order in words

A history is a list of (call, answer), both as lineplay.py writes them. The order is worked out from the history
alone: the record below knows neither numbers nor copies nor ranks, so it is no second telling of the plant's steps.
"""

import sys

import lineplay


class Transaction:
    """What a client does from its begin to its end; its steps are its accepted reads and changes."""

    def __init__(self, client, moment):
        self.client = client
        self.begin = moment
        self.end = None  # the moment of its accepted end
        self.holds = {}  # element -> "read" or "write"
        self.steps = []  # ("read", element, answered number) or ("set", element, number)

    def name(self):
        return self.end


class Access:
    """An accepted hard read or hard write, and the transactions that it belongs behind."""

    def __init__(self, moment, step, behind):
        self.moment = moment
        self.steps = [step]
        self.behind = behind

    def name(self):
        return self.moment

    def place(self):
        """Behind the end of the last of them to end, once one has ended; else at its own moment."""
        ends = [transaction.end for transaction in self.behind if transaction.end is not None]
        return max(ends, default=self.moment)


class Record:
    """Who has a transaction under way and holds what, what is marked, which pointer is tied where."""

    def __init__(self):
        self.moment = 0
        self.under_way = {}  # client -> Transaction
        self.marks = set()
        self.pointers = {}
        self.transactions = []
        self.accesses = []

    def holders(self, element):
        return [transaction for transaction in self.under_way.values() if element in transaction.holds]

    def lock(self, client, kind, element):
        own = self.under_way[client]
        if own.holds.get(element) in (kind, "write"):
            return
        for other in self.holders(element):
            both_read = kind == "read" and other.holds[element] == "read" and element not in self.marks
            if other is not own and not both_read:
                del self.under_way[other.client]
        if element not in own.holds and not self.holders(element):
            self.marks.discard(element)
        own.holds[element] = kind

    def access(self, pointer, name, value):
        element = self.pointers[pointer]
        holders = self.holders(element)
        if name == "set" and holders:
            self.marks.add(element)
        behind = holders if element in self.marks else []
        self.accesses.append(Access(self.moment, (name, element, value), behind))

    def note(self, call, answer):
        """Takes the next call of the history with its answer."""
        name, first = call[0], call[1]
        if answer == ("lost",):
            del self.under_way[first]
        elif answer[0] == "ok":
            if name == "begin":
                self.under_way[first] = Transaction(first, self.moment)
                self.transactions.append(self.under_way[first])
            elif name == "lock":
                self.lock(*call[1:])
            elif name == "read":
                self.under_way[first].steps.append(("read", call[2], answer[1]))
            elif name == "change":
                self.under_way[first].steps.append(("set", call[2], call[3]))
            elif name == "end":
                self.under_way.pop(first).end = self.moment
            elif name == "giveup":
                del self.under_way[first]
            elif name == "bind":
                self.pointers[first] = call[2]
            elif name == "remove":
                del self.pointers[first]
            elif name == "get":
                self.access(first, "read", answer[1])
            elif name == "put":
                self.access(first, "set", call[2])
        self.moment += 1

    def order(self):
        """The walk through the moments: at each, the transaction that ended there, then the accesses placed there."""
        ended = {transaction.end: transaction for transaction in self.transactions if transaction.end is not None}
        placed = {}
        for access in self.accesses:  # the earlier comes first
            placed.setdefault(access.place(), []).append(access)
        found = []
        for moment in range(self.moment):
            if moment in ended:
                found.append(ended[moment])
            found.extend(placed.get(moment, []))
        return found


def order(history):
    """The entries of the order of a history; the name of each is the moment of its end or of its access."""
    record = Record()
    for call, answer in history:
        record.note(call, answer)
    return record.order()


def steps(entries):
    return [step for entry in entries for step in entry.steps]


def play(entries, numbers):
    """Plays the entries from these numbers on. Gives the numbers at the end and the first wrong read, or None."""
    numbers = list(numbers)
    for entry in entries:
        for name, element, value in entry.steps:
            if name == "set":
                numbers[element] = value
            elif numbers[element] != value:
                return numbers, f"element {element} was answered as {value}, and the play gives {numbers[element]}"
    return numbers, None


def broken_promise(history, before, shown):
    """What is wrong with the order of a history, or None.

    `before` are the table's numbers at opening, `shown` is what each element shows after the history.
    """
    entries = order(history)
    wanted = [
        moment
        for moment, (call, answer) in enumerate(history)
        if answer[0] == "ok" and call[0] in ("end", "get", "put")
    ]
    if sorted(entry.name() for entry in entries) != wanted:
        return "the order does not hold each accepted end and hard access once"
    numbers, wrong = play(entries, before)
    if wrong:
        return wrong
    for element, value in enumerate(shown):
        if numbers[element] != value:
            return f"element {element} shows {value}, and the play ends at {numbers[element]}"
    return None


def highest(plant):
    """The open client that stands above all other open ones, or None where nobody is open."""
    clients = [c for c in range(lineplay.CLIENTS) if plant.state[c] in (lineplay.EXECUTING, lineplay.COMMITTING)]
    for client in clients:
        if all(plant.stands_above(client, other) for other in clients if other != client):
            return client
    return None


def not_gone_on(plant, first, call, answer):
    """What went against the client that was the highest before this call, or None."""
    if first is None:
        return None
    if plant.state[first] == lineplay.THROWN_OUT:
        return f"client {first} was the highest and is thrown out"
    if call[:2] == ("lock", first) and answer == ("wait",):
        others = [c for c in plant.holders(call[3]) if c != first and plant.state[c] == lineplay.COMMITTING]
        if not others:
            return f"client {first} was the highest and waits for nobody who is committing"
    return None


def check_script(script):
    """Checks the whole promise after every line of a script. Gives (line number, what is wrong), or None.

    The numbers at opening are zeros, as in every script.
    """
    played = lineplay.Script()
    history = []
    for line_number, line in enumerate(lineplay.split_lines(script), 1):
        first = highest(played.plant) if played.plant else None
        call, answer = played.play(line)
        if call is None:
            continue
        history.append((call, answer))
        plant = played.plant
        count = len(plant.table)
        shown = [plant.shows(element) for element in range(count)]
        wrong = broken_promise(history, [0] * count, shown) or not_gone_on(plant, first, call, answer)
        if wrong:
            return line_number, wrong
    return None


def in_words(entries, line_numbers):
    """The order in words; `line_numbers` has the script's line for each moment."""
    told = []
    for entry in entries:
        if isinstance(entry, Transaction):
            parts = [
                f"read {element} = {value}" if name == "read" else f"changed {element} to {value}"
                for name, element, value in entry.steps
            ]
            lines = f"lines {line_numbers[entry.begin]} to {line_numbers[entry.end]}"
            told.append(f"transaction of client {entry.client} ({lines}): " + (", ".join(parts) or "no steps"))
        else:
            name, element, value = entry.steps[0]
            access = f"hard read of element {element} = {value}" if name == "read" else (
                f"hard write of {value} to element {element}"
            )
            moved = ", counted behind it" if entry.place() != entry.moment else ""
            told.append(f"{access} (line {line_numbers[entry.moment]}){moved}")
    return told


def main(arguments):
    if len(arguments) > 1:
        print("usage: order.py [FILE]", file=sys.stderr)
        return 1
    try:
        stream = open(arguments[0], "rb") if arguments else sys.stdin.buffer
    except OSError as error:
        print(f"order.py: cannot read {arguments[0]}: {error.strerror}", file=sys.stderr)
        return 1
    script = lineplay.Script()
    record = Record()
    line_numbers = []
    for line_number, line in enumerate(lineplay.lines_of(stream), 1):
        call, answer = script.play(line)
        print(lineplay.answer_text(answer))
        if call is not None:
            record.note(call, answer)
            line_numbers.append(line_number)
    for told in in_words(record.order(), line_numbers):
        print(told)
    return 0


if __name__ == "__main__":
    sys.exit(main(sys.argv[1:]))
