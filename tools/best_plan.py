#!/usr/bin/env python3
"""Prints which entries of an order sheet make its best plans, or why the sheet is refused: a reference to compare answers with.

usage: python3 tools/best_plan.py <examples/weekday.sheet     at the top

It follows docs/RULES.md and shares nothing with the crates. The cheapest cut is found in the plainest way: something is sent along a
shortest path from the source to the sink until there is none.
"""

import collections
import sys

MOST_BYTES = 8192
MOST_ENTRIES = 4096
MOST_AMOUNT = 1000000
RECORDS = 2048
BINDING = 8000000000

Entry = collections.namedtuple("Entry", "earning cost needs start")


class Refused(Exception):
    """The number of the question whose answer is no, the record's number and the place of its first byte."""


def entry_at(sheet, start, number):
    """The entry whose record begins at this place, and the place after it."""

    def ask(question, answer):
        if not answer:
            raise Refused(question, number, start)

    ask(12, number < MOST_ENTRIES)
    bits = sheet[start]
    ask(13, bits < 64)
    needs = (bits >> 2).bit_count()
    ask(14, bits >> 2 == (1 << needs) - 1)
    amounts = (bits & 3).bit_count()
    split, end = start + 1 + 4 * amounts, start + 1 + 4 * amounts + 2 * needs
    ask(15, end <= len(sheet))
    amounts = [int.from_bytes(sheet[at : at + 4], "big") for at in range(start + 1, split, 4)]
    needs = [int.from_bytes(sheet[at : at + 2], "big") for at in range(split, end, 2)]
    ask(16, all(1 <= amount <= MOST_AMOUNT for amount in amounts))
    ask(17, needs == sorted(set(needs)) and number not in needs)
    earning = amounts[0] if bits & 1 else 0
    cost = amounts[-1] if bits & 2 else 0
    return Entry(earning, cost, needs, start), end


def entries_of(sheet):
    """The entries of a sheet, in order of their numbers."""
    if len(sheet) > MOST_BYTES:
        raise Refused(30, 0, 0)
    if not sheet:
        raise Refused(11, 0, 0)
    entries, place = [], 0
    while place < len(sheet):
        entry, place = entry_at(sheet, place, len(entries))
        entries.append(entry)
    for number, entry in enumerate(entries):
        if any(needed >= len(entries) for needed in entry.needs):
            raise Refused(18, number, entry.start)
    if len(entries) + 2 * sum(len(entry.needs) for entry in entries) > RECORDS:
        raise Refused(19, 0, 0)
    return entries


def network_of(entries):
    """What can be sent from each node to each other. The last two nodes are the source and the sink."""
    source, sink = len(entries), len(entries) + 1
    residual = [collections.defaultdict(int) for _ in range(len(entries) + 2)]
    for number, entry in enumerate(entries):
        residual[source][number] = entry.earning
        residual[number][sink] = entry.cost
        for needed in entry.needs:
            residual[number][needed] += BINDING
    return residual, source, sink


def reached(residual, start):
    """The nodes to which something can be sent from the start, each with the one before it on a shortest way."""
    before = {start: None}
    waiting = collections.deque([start])
    while waiting:
        tail = waiting.popleft()
        for head, left in residual[tail].items():
            if left > 0 and head not in before:
                before[head] = tail
                waiting.append(head)
    return before


def send_most(residual, source, sink):
    """Sends all that can be sent, and answers how much that is."""
    sent = 0
    while sink in (before := reached(residual, source)):
        path, head = [], sink
        while head != source:
            path.append((before[head], head))
            head = before[head]
        amount = min(residual[tail][head] for tail, head in path)
        for tail, head in path:
            residual[tail][head] -= amount
            residual[head][tail] += amount
        sent += amount
    return sent


def turned(residual):
    """The same with each arc led the other way."""
    other = [{} for _ in residual]
    for tail, arcs in enumerate(residual):
        for head, left in arcs.items():
            other[head][tail] = left
    return other


def listing(entries):
    """The lines that tell the best plans."""
    residual, source, sink = network_of(entries)
    least = send_most(residual, source, sink)
    from_source, to_sink = reached(residual, source), reached(turned(residual), sink)
    yield f"entries {len(entries)} needs {sum(len(entry.needs) for entry in entries)}"
    yield f"least {least} net {sum(entry.earning for entry in entries) - least}"
    for number in range(len(entries)):
        mark = "in" if number in from_source else "out" if number in to_sink else "either"
        yield f"{number} {mark}"


def main():
    try:
        print("\n".join(listing(entries_of(sys.stdin.buffer.read()))))
    except Refused as refused:
        print("refused {} record {} byte {}".format(*refused.args))
        sys.exit(1)


if __name__ == "__main__":
    main()
