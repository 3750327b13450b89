#!/usr/bin/env python3
"""Writes the script that the program `cases` runs, and what it must print: a reference to compare answers with.

usage, at the top:
    python3 tools/cases.py script >crates/cases/stdin
    python3 tools/cases.py answers <crates/cases/stdin >crates/cases/stdout

It follows docs/RULES.md and shares neither code nor method with the crates. The cheapest cut is found by pushing excess from node to node
down labels of height; the marks are what is reached in what is left; and of a small network all selections are tried too, and compared.
Only what the rules fix is answered: a script that asks for more is refused here.
"""

import collections
import itertools
import random
import sys

MOST_AMOUNT = 1000000
MOST_ENTRIES = 4096
MOST_NEEDS = 4
BINDING = 8000000000
# a row lowers larger amounts to this
MOST_RESIDUAL = 2**39
# of the program `plan`
PLAN_BYTES = 8192
PLAN_RECORDS = 2048
# all selections of a network of so many nodes are tried
FEW_NODES = 10

LETTERS = {"in": "i", "out": "o", "either": "e"}


class Refused(Exception):
    """The first question whose answer is no, by its number; of a sheet also the record's number and the place of its first byte."""


class Fault(Exception):
    """A line that is no call, or asks for what the rules leave free."""


def ask(question, answer, *where):
    if not answer:
        raise Refused(question, *where)


# Sheets


def fields(sheet, place, count, width):
    """So many numbers of so many bytes, from a place on."""
    return [int.from_bytes(sheet[place + width * i : place + width * (i + 1)], "big") for i in range(count)]


def read_record(sheet, place, number):
    """The amounts and needs of the record at a place, and the place behind it."""
    where = (number, place)
    ask(12, number < MOST_ENTRIES, *where)
    bits = [sheet[place] >> bit & 1 for bit in range(8)]
    ask(13, not any(bits[6:]), *where)
    ask(14, bits[2:6] == sorted(bits[2:6], reverse=True), *where)
    needs_at = place + 1 + 4 * sum(bits[:2])
    end = needs_at + 2 * sum(bits[2:6])
    ask(15, len(sheet) >= end, *where)
    present = fields(sheet, place + 1, sum(bits[:2]), 4)
    ask(16, all(0 < amount <= MOST_AMOUNT for amount in present), *where)
    needs = fields(sheet, needs_at, sum(bits[2:6]), 2)
    ask(17, all(a < b for a, b in itertools.pairwise(needs)) and number not in needs, *where)
    amounts = iter(present)
    return [next(amounts) if bit else 0 for bit in bits[:2]], needs, end


def read_sheet(sheet):
    """The amounts and the needs of the entries of a sheet."""
    ask(11, sheet, 0, 0)
    entries, needs, starts, place = [], [], [], 0
    while place < len(sheet):
        starts.append(place)
        amounts, needed, place = read_record(sheet, place, len(entries))
        entries.append(amounts)
        needs.append(needed)
    for number, needed in enumerate(needs):
        ask(18, all(other < len(entries) for other in needed), number, starts[number])
    return entries, needs


def record(earning, cost, needs=()):
    """The bytes of an entry."""
    bits, tail = 0, b""
    if earning:
        bits, tail = bits + 1, tail + earning.to_bytes(4, "big")
    if cost:
        bits, tail = bits + 2, tail + cost.to_bytes(4, "big")
    for place, needed in enumerate(sorted(needs)):
        bits, tail = bits + 4 * 2**place, tail + needed.to_bytes(2, "big")
    return bytes([bits]) + tail


# Networks and their cheapest cuts


class Network:
    """Nodes with what can be sent from the source to them and from them to the sink, and arcs by code: tail, head, reverse, residual."""

    def __init__(self, source, sink, arcs, places=None):
        self.source, self.sink, self.arcs, self.places = source, sink, arcs, places
        self.count = len(source)
        # what is known of the cut since handing over: least, marks, and the least and the most that may still be gained
        self.cut = None
        self.moved = False

    def cost(self, inside):
        """What a selection costs."""
        ends = sum(self.sink[u] if u in inside else self.source[u] for u in range(self.count))
        return ends + sum(left for tail, head, _, left in self.arcs.values() if tail in inside and head not in inside)

    def sendable(self):
        """What can be sent from each node to each other. The last two are the source and the sink."""
        source, sink = self.count, self.count + 1
        room = [collections.defaultdict(int) for _ in range(self.count + 2)]
        for tail, head, _, left in self.arcs.values():
            room[tail][head] += left
        for u in range(self.count):
            room[source][u], room[u][sink] = self.source[u], self.sink[u]
        for u, heads in enumerate(room):
            for w in list(heads):
                room[w].setdefault(u, 0)
        return [dict(heads) for heads in room]


def distances(room, start, height):
    """How far the nodes are from which something can be sent to the start, counted from this height."""
    away = {start: height}
    waiting = collections.deque([start])
    while waiting:
        head = waiting.popleft()
        for tail in room[head]:
            if tail not in away and room[tail][head] > 0:
                away[tail] = away[head] + 1
                waiting.append(tail)
    return away


class Preflow:
    """Sends as much as can be sent from the source to the sink: nodes hold an excess, which is pushed to lower ones, and back in the end."""

    def __init__(self, room, source, sink):
        self.room, self.source, self.sink = room, source, sink
        self.excess = [0] * len(room)
        self.active = collections.deque()
        for head, left in list(room[source].items()):
            self.push(source, head, left)
        self.measure()
        while self.active:
            self.discharge(self.active.popleft())

    def measure(self):
        """Sets all heights anew: how far the sink is, and where it cannot be reached, how far the source."""
        n = len(self.room)
        away = distances(self.room, self.source, n) | distances(self.room, self.sink, 0)
        self.height = [away.get(u, 2 * n) for u in range(n)]
        self.lifted = 0

    def push(self, tail, head, amount):
        self.room[tail][head] -= amount
        self.room[head][tail] += amount
        self.excess[tail] -= amount
        if amount and not self.excess[head] and head not in (self.source, self.sink):
            self.active.append(head)
        self.excess[head] += amount

    def discharge(self, u):
        """Pushes all that a node has too much, and lifts it as often as that takes."""
        while self.excess[u]:
            for w, left in self.room[u].items():
                if left and self.height[u] == self.height[w] + 1:
                    self.push(u, w, min(left, self.excess[u]))
                    if not self.excess[u]:
                        return
            self.height[u] = 1 + min(self.height[w] for w, left in self.room[u].items() if left)
            self.lifted += 1
            if self.lifted > len(self.room):
                self.measure()


def turned(room):
    """The same with each arc led the other way."""
    return [{w: room[w][u] for w in heads} for u, heads in enumerate(room)]


def mark(held, left_out):
    return "in" if held else "out" if left_out else "either"


def tried_cut(network):
    """The least cost and the marks, by trying all selections."""
    nodes = range(network.count)
    selections = [set(s) for k in range(network.count + 1) for s in itertools.combinations(nodes, k)]
    costs = [network.cost(s) for s in selections]
    best = [s for s, cost in zip(selections, costs) if cost == min(costs)]
    return min(costs), [mark(all(u in s for s in best), all(u not in s for s in best)) for u in nodes]


def cheapest_cut(network):
    """What the cheapest selections cost, and what they say of each node."""
    source, sink = network.count, network.count + 1
    room = network.sendable()
    least = Preflow(room, source, sink).excess[sink]
    held, left_out = distances(turned(room), source, 0), distances(room, sink, 0)
    marks = [mark(u in held, u in left_out) for u in range(network.count)]
    # the smallest and the largest of the cheapest selections cost just what was sent, so no selection costs less
    assert network.cost({u for u in range(network.count) if u in held}) == least
    assert network.cost({u for u in range(network.count) if u not in left_out}) == least
    if network.count <= FEW_NODES:
        assert (least, marks) == tried_cut(network)
    return least, marks


class Cut:
    """What is known of a network's cheapest cut since handing over, and how much the runs to come may gain."""

    def __init__(self, network):
        self.least, self.marks = cheapest_cut(network)
        self.fewest = self.most = self.least
        # no path gains more
        self.widest = min(max(network.source, default=0), max(network.sink, default=0))


# Calls on networks, each of which answers its line


def first_run(network):
    if network.cut is None:
        network.cut = Cut(network)
    return network.cut


def run(network, records, words, marks):
    ask(25, records >= network.count)
    ask(26, marks >= network.count)
    cut, enough = first_run(network), network.count + 2
    # each path takes 3 words or more, and no more than `enough`
    paths = (words - enough) // 3 + 1 if words >= enough else 0
    if cut.most == 0:
        return "finished"
    if paths and words >= cut.most * enough:
        cut.fewest = cut.most = 0
        network.moved = True
        return "finished"
    if cut.fewest > paths * cut.widest:
        if paths:
            cut.fewest, cut.most, network.moved = cut.fewest - paths * cut.widest, cut.most - 1, True
        return "paused"
    raise Fault("whether the run finishes is left free")


def finish(network, words):
    cut = first_run(network)
    if cut.most and words < network.count + 2:
        if not cut.fewest:
            raise Fault("whether the run pauses is left free")
        return "stuck"
    network.moved = network.moved or cut.most > 0
    cut.fewest = cut.most = 0
    return f"least {cut.least} marks " + ("".join(LETTERS[m] for m in cut.marks) or "none")


def still(network):
    """Residuals are asked for and changed only where no path was carried out."""
    if network.moved:
        raise Fault("the rules leave free which paths were carried out")


def terminal(network, word):
    return {"source": network.source, "sink": network.sink}[word]


def terminal_residual(network, word, node):
    ask(27, node < network.count)
    still(network)
    return f"residual {terminal(network, word)[node]}"


def place(network, node, at):
    ask(27, node < network.count)
    codes = network.places[node]
    return f"arc {codes[at]}" if at < len(codes) else "no arc"


def ends(network, arc):
    ask(28, arc in network.arcs)
    return "ends {} {} {}".format(*network.arcs[arc])


def arc_residual(network, arc):
    ask(28, arc in network.arcs)
    still(network)
    return f"residual {network.arcs[arc][3]}"


def take(network, word, node, amount):
    ask(27, node < network.count)
    still(network)
    ask(29, amount <= terminal(network, word)[node])
    terminal(network, word)[node] -= amount
    network.cut = None
    return "taken"


def shift(network, arc, amount):
    ask(28, arc in network.arcs)
    still(network)
    ask(29, amount <= network.arcs[arc][3])
    network.arcs[arc][3] -= amount
    network.arcs[network.arcs[arc][2]][3] += amount
    network.cut = None
    return "shifted"


def row_network(cells):
    """A row of cells, each told by its source, its sink, and the residuals of the arc to the next cell and of its reverse."""
    cells = [[min(amount, MOST_RESIDUAL) for amount in cell] for cell in cells[:MOST_ENTRIES]]
    arcs, places = {}, [[] for _ in cells]
    for i, (_, _, right, left) in enumerate(cells[:-1]):
        arcs[2 * i] = [i, i + 1, 2 * i + 1, right]
        arcs[2 * i + 1] = [i + 1, i, 2 * i, left]
    for i in range(len(cells)):
        places[i] = [code for code in (2 * i, 2 * i - 1) if code in arcs]
    return Network([cell[0] for cell in cells], [cell[1] for cell in cells], arcs, places)


# Books


class Book:
    """An open book over a table of so many records."""

    def __init__(self, records):
        self.records, self.entries, self.needs = records, [], []

    def unused(self):
        return self.records - len(self.entries) - 2 * len(self.needs)

    def needed(self, entry):
        return [b for a, b in self.needs if a == entry]

    def enter(self, earning, cost):
        ask(1, earning <= MOST_AMOUNT)
        ask(2, cost <= MOST_AMOUNT)
        ask(3, len(self.entries) < MOST_ENTRIES)
        ask(4, self.unused() >= 1)
        self.entries.append([earning, cost])
        return f"entered {len(self.entries) - 1}"

    def need(self, entry, needed):
        ask(5, max(entry, needed) < len(self.entries))
        ask(6, entry != needed)
        ask(7, (entry, needed) not in self.needs)
        ask(8, len(self.needed(entry)) < MOST_NEEDS)
        ask(9, self.unused() >= 2)
        self.needs.append((entry, needed))
        return "needed"

    def load(self, sheet):
        ask(10, not self.entries, 0, 0)
        entries, needs = read_sheet(sheet)
        pairs = [(entry, other) for entry, needed in enumerate(needs) for other in needed]
        ask(19, self.records >= len(entries) + 2 * len(pairs), 0, 0)
        self.entries, self.needs = entries, pairs
        return f"loaded entries {len(entries)} needs {len(pairs)}"

    def sheet(self):
        needs = collections.defaultdict(list)
        for entry, needed in self.needs:
            needs[entry].append(needed)
        return b"".join(record(*amounts, needs[entry]) for entry, amounts in enumerate(self.entries))

    def write(self, room):
        sheet = self.sheet()
        ask(20, room >= len(sheet))
        return f"wrote {len(sheet)} {sheet.hex()}" if sheet else "wrote 0"

    def earnings(self):
        return sum(earning for earning, _ in self.entries)

    def counts(self):
        return f"entries {len(self.entries)} needs {len(self.needs)} earnings {self.earnings()}"

    def network(self):
        arcs, places = {}, [[] for _ in self.entries]
        for number, (entry, needed) in enumerate(self.needs):
            arcs[2 * number] = [entry, needed, 2 * number + 1, BINDING]
            arcs[2 * number + 1] = [needed, entry, 2 * number, 0]
        for code, (tail, *_) in arcs.items():
            places[tail].append(code)
        return Network([e for e, _ in self.entries], [c for _, c in self.entries], arcs, places)


def listing(sheet):
    """What the program `plan` prints for a sheet."""
    ask(30, len(sheet) <= PLAN_BYTES, 0, 0)
    book = Book(PLAN_RECORDS)
    book.load(sheet)
    least, marks = cheapest_cut(book.network())
    lines = [f"entries {len(book.entries)} needs {len(book.needs)}", f"least {least} net {book.earnings() - least}"]
    return "\n".join(lines + [f"{number} {said}" for number, said in enumerate(marks)])


# Tiles


class Tile:
    """A page tile over a table of so many pixels: until something is laid it has none."""

    def __init__(self, pixels):
        self.pixels, self.network = pixels, Network([], [], {})

    def lay(self, width, height, costs):
        ask(21, 1 <= width <= 64 and 1 <= height <= 64)
        ask(22, len(costs) == 4 * width * height)
        ask(23, self.pixels >= width * height)
        pixels = [costs[4 * i : 4 * i + 4] for i in range(width * height)]
        right_edge, last_row = pixels[width - 1 :: width], pixels[width * (height - 1) :]
        ask(24, not any(p[2] for p in right_edge) and not any(p[3] for p in last_row))
        arcs = {}
        for i, (_, _, right, below) in enumerate(pixels):
            for other, penalty in ((i + 1, right), (i + width, below)):
                if penalty:
                    # the codes are the tile's own: no call asks for them here
                    code = len(arcs)
                    arcs[code] = [i, other, code + 1, penalty]
                    arcs[code + 1] = [other, i, code, penalty]
        self.network = Network([p[1] for p in pixels], [p[0] for p in pixels], arcs)
        return f"laid {len(pixels)} nodes"


# Scripts


def repeated(words):
    """What each word tells, as often as it tells it: the number behind a `*`, or once."""
    for told, _, times in (word.partition("*") for word in words):
        yield from [told] * int(times or 1)


def told_bytes(words):
    return bytes.fromhex("".join(repeated(words)))


def numbers(words):
    return [int(word) for word in words]


class Player:
    """Answers the calls of a script, line by line."""

    def __init__(self):
        self.part()

    def part(self):
        """Nothing is there."""
        self.book = self.network = self.tile = self.records = None

    def answer(self, line):
        if line.startswith("#"):
            self.part()
            return line
        call, *words = line.split(" ")
        try:
            return getattr(self, "call_" + call)(*words)
        except Refused as refused:
            question, *where = refused.args
            return f"refused {question}" + (" record {} byte {}".format(*where) if where else "")

    def call_book(self, records):
        self.part()
        self.book, self.records = Book(int(records)), int(records)

    def call_row(self, *words):
        self.part()
        self.network = row_network([numbers(cell.split(",")) for cell in repeated(words)])
        return f"row of {self.network.count} nodes"

    def call_tile(self, pixels):
        self.part()
        self.tile, self.records = Tile(int(pixels)), int(pixels)

    def call_plan(self, *words):
        self.part()
        return listing(told_bytes(words))

    def call_enter(self, earning, cost):
        return self.book.enter(int(earning), int(cost))

    def call_need(self, entry, needed):
        return self.book.need(int(entry), int(needed))

    def call_load(self, *words):
        return self.book.load(told_bytes(words))

    def call_write(self, room):
        return self.book.write(int(room))

    def call_entries(self):
        return self.book.counts()

    def call_seal(self):
        self.network, self.book = self.book.network(), None
        return f"sealed {self.network.count} nodes"

    def call_lay(self, width, height, *words):
        laid = self.tile.lay(int(width), int(height), told_bytes(words))
        self.network = self.tile.network
        return laid

    def call_residual(self, word, number):
        if word == "arc":
            return arc_residual(self.network, int(number))
        return terminal_residual(self.network, word, int(number))

    def call_place(self, *words):
        return place(self.network, *numbers(words))

    def call_ends(self, arc):
        return ends(self.network, int(arc))

    def call_take(self, word, node, amount):
        return take(self.network, word, int(node), int(amount))

    def call_shift(self, *words):
        return shift(self.network, *numbers(words))

    def call_run(self, *words):
        return run(self.network, *numbers(words))

    def call_finish(self, words):
        return finish(self.network, int(words))

    def call_release(self):
        records = self.records
        self.part()
        return f"released {records}"


def answers(script):
    player = Player()
    for number, line in enumerate(script, 1):
        try:
            said = player.answer(line.rstrip("\n"))
        except Exception as fault:
            sys.exit(f"line {number}: {type(fault).__name__} {fault}")
        if said is not None:
            yield said


# The script


class Made:
    """A book that a script enters: entries by what they earn and cost, needs as the entry and what it needs."""

    def __init__(self, entries, needs=()):
        self.entries, self.needs = list(entries), list(needs)
        self.records = len(self.entries) + 2 * len(self.needs)

    def entering(self):
        yield from (f"enter {earning} {cost}" for earning, cost in self.entries)
        yield from (f"need {entry} {needed}" for entry, needed in self.needs)

    def sheet(self):
        return [record(*amounts, [b for a, b in self.needs if a == entry]) for entry, amounts in enumerate(self.entries)]

    def loading(self):
        """One word for each run of records that are alike."""
        runs = [(one, len(list(alike))) for one, alike in itertools.groupby(self.sheet())]
        return " ".join(["load"] + [one.hex() + (f"*{times}" if times > 1 else "") for one, times in runs])

    def length(self):
        return sum(len(one) for one in self.sheet())


def fixed(lines):
    """The lines without those whose answer the rules leave free."""
    player = Player()
    for line in lines:
        try:
            player.answer(line)
            yield line
        except Fault:
            pass


def entering_edges():
    yield "# enter: amounts up to a million, on both sides"
    yield "book 40"
    amounts = (0, 1, MOST_AMOUNT - 1, MOST_AMOUNT, MOST_AMOUNT + 1, 2**32 - 1)
    yield from (f"enter {earning} {cost}" for earning in amounts for cost in amounts)
    yield from ("entries", "seal", "release")
    large = MOST_AMOUNT + 1
    refused = ("enter 3 4", f"enter {large} 4", f"enter 3 {large}", f"enter {large} {large}")
    yield "# enter: a table of no record and of one"
    yield from ("book 0", *refused, "entries", "release")
    yield from ("book 1", "enter 5 6", *refused, "entries", "release")
    yield "# enter: the last of 4,096 entries, and one more, whether or not a record is unused"
    yield from ("book 4096", "load 00*4095", "enter 3 4", *refused, "entries", "seal", "release")
    yield from ("book 4097", "load 00*4095", "enter 3 4", *refused, "entries", "seal", "release")
    yield from ("book 4096", "load 0100000001*4096", *refused, "entries", "seal", "residual source 4095", "residual source 4096")


def needing_edges():
    far = 2**64 - 1
    yield "# need: of entries that are there, of others, new, up to four"
    yield from ("book 40", "need 0 0", "need 0 1")
    yield from Made([(1, 0), (2, 0), (3, 0), (0, 4), (0, 5), (0, 6)]).entering()
    yield from (f"need {a} {b}" for a, b in ((5, 6), (6, 5), (6, 6), (65536, 1), (0, 65537), (far, 0), (0, far), (far, far)))
    yield from (f"need {a} {b}" for a, b in ((0, 0), (5, 5), (0, 1), (0, 1), (1, 0), (1, 0), (0, 2), (0, 3), (0, 2), (0, 4), (0, 5)))
    yield from (f"need {a} {b}" for a, b in ((0, 1), (0, 0), (0, 6), (1, 2), (1, 3), (1, 4), (1, 5), (2, 1)))
    yield from ("entries", "seal", "finish 8", "release")
    made = Made([(1, 0), (0, 2), (0, 3), (0, 4), (0, 5), (0, 6)], [(0, 1), (0, 2), (0, 3), (0, 4)])
    for spare in range(3):
        yield f"# need: with so many records unused: {spare}"
        yield f"book {made.records + spare}"
        yield from made.entering()
        yield from ("need 0 5", "need 0 4", "need 0 0", "need 0 6", "need 1 5", "need 1 0", "enter 7 7", "enter 7 7")
        yield from ("need 1 5", "enter 7 7", "entries", "seal", "finish 12", "release")
    yield "# need: of the last of 4,096 entries"
    yield from ("book 5000", "load 00*4096", "need 4095 0", "need 4095 4096", "need 4096 0", "need 0 4095", "need 4095 4094")
    yield from ("need 4095 4093", "need 4095 4092", "need 4095 4091", "entries", "seal", "place 4095 4", "place 4095 5", "release")


def whole_record():
    """All fields of entry 2, which needs the entries about it."""
    return record(MOST_AMOUNT, 1, [0, 1, 3, 4])


def refused_sheets():
    """Sheets that fail one question or two, each as the words of a load."""
    yield ""
    # too many records, also where the next has a fault by itself
    yield from ("00*4097", "00*4096 40", "00*4096 0100", "00*4095 40", "00*4095 040fff")
    # high bits, and these before a gap and a cut
    yield from ("40", "80", "c0", "ff", "48", "41", "00 00 80")
    # every bit map
    yield from (f"{bits:02x}" for bits in range(4, 64))
    # a gap before a cut, a cut before an amount, an amount before needs
    yield from ("08", "0900", "0d0000", "0100", "0300000000", "030000000000000f", "05000000000000", "05000000000001")
    # cut at every byte
    yield from (("00 00 " + whole_record()[:cut].hex()) for cut in range(1, 17))
    # amounts from 1 to 1,000,000, and these before needs
    for amount in (0, MOST_AMOUNT + 1, 2**24, 2**31, 2**32 - 1):
        yield from (f"01{amount:08x}", f"02{amount:08x}", f"0300000001{amount:08x}", f"03{amount:08x}00000001", f"05{amount:08x}0000")
    # needs that do not ascend, or stand twice, or are the entry's own
    for needs in ((1, 0), (0, 0), (2,), (2, 3), (1, 2), (0, 1, 2, 3), (0, 1, 3, 3), (0, 3, 1, 4), (3, 1, 4, 5), (9, 9), (9, 2)):
        yield f"00 00 {4 * (2 ** len(needs) - 1):02x}" + "".join(f"{need:04x}" for need in needs) + " 00*3"
    # needs that are not there, after every fault of a record by itself
    yield from ("040001", "04ffff", "040009 00 00 40", "040001 040002", "040009 040008", "00 040000 040003", "0c00010002 00")
    yield from ("00*4095 041000", "041000 00*4095", "3c0001000200031000 00*4095")


def loading_edges():
    yield "# load: sheets that are refused, and leave the book"
    yield "book 4096"
    yield from (f"load {words}".strip() for words in refused_sheets())
    yield "entries"
    yield from ("load 00", "load", "load 40", "load 00", "entries", "seal", "release")
    yield "# load: each kind of record, with amounts and needs on the right side of their edges"
    amounts = (0, 1, 255, 256, 65536, MOST_AMOUNT)
    for size in range(5):
        needs = [(2, other) for other in (0, 1, 3, 4)[:size]]
        made = Made([(0, 0), (0, 0), (amounts[size], amounts[-1 - size]), (1, 0), (0, 1)], needs)
        yield from (f"book {made.records}", made.loading(), "entries", f"write {made.length()}", "seal", "finish 7", "release")
    yield from ("book 6", "load 040001 040000", "entries", "load 00", "entries", "seal", "release")
    yield "# load: 4,096 records, and the last of them needed"
    yield from ("book 4098", "load 00*4095 040000", "entries", "seal", "place 0 0", "place 4095 0", "finish 4098", "release")
    yield from ("book 4098", "load 040fff 00*4095", "entries", "seal", "ends 0", "ends 1", "ends 2", "release")
    made = Made([(50, 0), (30, 0), (0, 60)], [(0, 2), (1, 2)])
    yield "# load: a table that is just long enough, one record less, and less"
    for records in (made.records + 1, made.records, made.records - 1, 3, 2, 0):
        yield from (f"book {records}", made.loading(), "entries", "load 040009", "load", "release")
    yield "# load: into a book that has an entry, or had one refused"
    yield from ("book 40", "enter 1 1", made.loading(), "load", "entries", "release")
    yield from ("book 40", f"enter {MOST_AMOUNT + 1} 1", "need 0 1", made.loading(), "entries", "need 0 1", "need 0 2", "enter 9 9", "entries")


def writing_edges():
    yield "# write: a book without entries"
    yield from ("book 0", "write 0", "write 9", "release")
    books = (
        Made([(0, 0)]),
        Made([(5, 0), (0, 5), (5, 5), (0, 0)]),
        Made([(0, 0), (50, 0), (0, MOST_AMOUNT), (258, 1), (0, 0)], [(4, 3), (1, 4), (4, 2), (3, 0), (4, 1), (1, 2), (4, 0), (3, 4)]),
        Made([(MOST_AMOUNT, MOST_AMOUNT)] * 6, [(a, b) for a in range(5, -1, -1) for b in range(5, -1, -1) if a != b and (a + b) % 5]),
    )
    for made in books:
        yield f"# write: a sheet of so many bytes: {made.length()}"
        yield f"book {made.records}"
        yield from made.entering()
        yield from (f"write {room}" for room in (0, made.length() - 1, made.length(), made.length() + 1, made.length() + 64))
        yield from ("entries", "enter 1 1", "release", f"book {made.records}", made.loading(), f"write {made.length()}")
    yield "# write: a book goes on after it, and the largest sheet is too long by one byte"
    yield from ("book 9", "enter 1 0", "write 99", "enter 0 1", "write 99", "need 0 1", "write 99", "need 1 0", "write 99", "seal", "finish 4")
    full = record(MOST_AMOUNT, MOST_AMOUNT - 1, [1, 2, 3, 4])
    last = record(MOST_AMOUNT, MOST_AMOUNT - 1, [0, 5, 6, 7])
    yield "book 36864"
    yield f"load {full.hex()} {last.hex()}*4 {full.hex()}*4091"
    yield from ("entries", "write 69631", "enter 0 0", "need 0 5", "need 4095 0", "seal", "release")


SHOP = Made([(50, 0), (30, 0), (0, 60), (7, 8)], [(0, 2), (1, 2), (1, 3)])


def asking(nodes, arcs):
    """All questions of a network, and those just past it."""
    for node in range(nodes + 1):
        yield from (f"residual source {node}", f"residual sink {node}")
        yield from (f"place {node} {at}" for at in range(4))
    for arc in range(arcs + 1):
        yield from (f"ends {arc}", f"residual arc {arc}")


def asking_edges():
    far = 2**64 - 1
    yield "# questions and changes: a book"
    yield "book 10"
    yield from SHOP.entering()
    yield "seal"
    yield from asking(4, 6)
    yield from (f"residual source {far}", f"place {far} 0", f"place 0 {far}", f"ends {far}", f"residual arc {far}")
    yield from ("take source 4 1", f"take sink 4 {far}", "take source 0 51", "take sink 0 1", "take sink 2 61", f"take sink 2 {2**32}")
    yield from ("shift 6 1", f"shift 6 {far}", f"shift 0 {BINDING + 1}", "shift 1 1", f"shift 3 {far}")
    yield from ("take sink 4 0", "shift 6 0", "take sink 0 0", "shift 1 0", "take source 0 50", "take source 0 1", "take sink 3 1")
    yield from (f"shift 0 {BINDING}", "shift 0 1", f"shift 1 {BINDING}", "shift 1 1", "shift 2 7", "shift 3 3", "shift 3 5")
    yield from asking(4, 6)
    yield from ("finish 6", "finish 0", "run 4 0 4", "ends 0", "place 1 1", "take source 4 1", "shift 6 0", "release")
    yield "# questions and changes: a book without needs, and one without entries"
    yield from ("book 1", "enter 3 2", "seal", *asking(1, 0), "take source 0 1", "finish 3", "release")
    yield from ("book 0", "seal", *asking(0, 0), "take source 0 0", "shift 0 0", "run 0 0 0", "finish 0", "release")
    yield "# questions and changes: rows"
    yield from ("row 9,0,3,1 2,0,8,0 0,7,5,6", *asking(3, 4), "take sink 2 8", "take sink 2 7", "shift 1 2", "shift 1 1", "shift 4 0")
    yield from ("take source 3 0", *asking(3, 4), "finish 5")
    yield from (f"row {far},{2**39},{2**39 + 1},{2**39 - 1} {2**39 + 1},{far},{far},{far}", *asking(2, 2), f"shift 0 {2**39}", "residual arc 1", "finish 9")
    yield from ("row 5,6,7,8", *asking(1, 0), "finish 3", "row", *asking(0, 0), "finish 0")
    yield "# questions and changes: a row of more cells than nodes"
    yield from ("row 0,0,1,2*4095 0,0,3,4 9,9,9,9*3", "residual source 4096", "place 4095 0", "place 4095 1", "residual arc 8189", "residual arc 8190", "finish 4098")


def lending_edges():
    yield "# runs: working records and marks for each node, or one too few"
    yield "book 10"
    yield from SHOP.entering()
    yield "seal"
    yield from (f"run {records} {words} {marks}" for records, words, marks in ((3, 900, 3), (3, 900, 4), (4, 900, 3), (0, 0, 0), (3, 0, 9), (9, 0, 3)))
    yield from ("run 4 0 4", "run 3 0 4", "run 4 5 4", "run 9 0 9", "run 4 900 4", "run 4 0 4", "run 3 0 4", "run 4 0 3", "finish 0", "release")
    yield from ("row 5,5,0,0", "run 0 0 0", "run 0 9 1", "run 1 9 0", "run 1 2 1", "run 1 30 1", "finish 0")
    yield from ("book 4096", "load 030000000200000002 0100000007 00*4094", "seal", "run 4095 9 4096", "run 4096 9 4095", "run 4096 4097 4096", "finish 4098", "release")
    yield "# runs: trails of no word and more, on books that need none"
    for made in (Made([]), Made([(0, 0)]), Made([(5, 0)]), Made([(0, 5)]), Made([(5, 0), (0, 5)]), Made([(5, 0), (0, 0)], [(0, 1)])):
        yield f"book {made.records}"
        yield from made.entering()
        n = len(made.entries)
        yield from ("seal", *(f"run {n} {words} {n}" for words in range(3)), "finish 0", "finish 1", f"finish {n + 2}", "release")
    yield "# runs: trails of no word and more, on books with a path"
    for size in range(1, 6):
        made = Made([(4, 3)] + [(0, 2)] * (size - 1), [(i, i + 1) for i in range(size - 1)])
        for words in sorted({0, 1, 2, size + 1, size + 2, size + 3}):
            yield f"book {made.records}"
            yield from made.entering()
            yield from ("seal", f"run {size} {min(words, size + 1)} {size}", f"finish {words}", f"finish {words}", f"finish {size + 2}", "release")


def small_books():
    yield "# small books"
    most = MOST_AMOUNT
    books = (
        Made([(5, 5)]),
        Made([(6, 5)]),
        Made([(5, 6)]),
        *(Made([(50, 0), (30, 0), (0, cost)], [(0, 2), (1, 2)]) for cost in (0, 1, 29, 30, 31, 50, 60, 79, 80, 81, 90)),
        # a ring of needs, whose entries go together
        *(Made([(5, 0), (0, cost), (7, 0)], [(0, 1), (1, 2), (2, 0)]) for cost in (11, 12, 13)),
        # a job that needs four, and one that four need
        *(Made([(job, 0), (0, 1), (0, 2), (0, 3), (0, 4)], [(0, 1), (0, 2), (0, 3), (0, 4)]) for job in (9, 10, 11)),
        *(Made([(0, cost), (1, 0), (2, 0), (3, 0), (4, 0)], [(i, 0) for i in range(1, 5)]) for cost in (9, 10, 11)),
        # ties of ties: pairs that each break even
        Made([(3, 0), (0, 3), (4, 0), (0, 4), (5, 5)], [(0, 1), (2, 3)]),
        Made([(3, 0), (0, 3), (4, 0), (0, 4), (5, 5)], [(0, 1), (2, 3), (4, 0), (3, 4)]),
        # three jobs whose earnings together pass along one need
        *(Made([(most, 0)] * 3 + [(0, 0)] * 2 + [(0, most)] * 2 + [(0, last)], [(0, 3), (1, 3), (2, 3), (3, 4), (4, 5), (4, 6), (4, 7)]) for last in (most - 1, most)),
        # both ways
        Made([(3, 0), (0, 3)], [(0, 1), (1, 0)]),
        Made([(most, 0), (0, most), (most, most), (0, 0)], [(0, 1), (2, 1), (1, 3), (3, 2)]),
    )
    for made in books:
        yield from resumed(made, made.entering(), random.Random(made.records))


def resumed(made, opening, chance):
    """A book that is run with short trails first, and then with longer ones."""
    n = len(made.entries)
    words = [chance.choice((0, 1, n + 1)), chance.choice((n + 2, n + 3, n + 4)), n + 2 + chance.randrange(20)]
    runs = [f"run {n} {words[0]} {n}", f"finish {words[0]}", f"run {n} {words[1]} {n}", f"run {n} {words[1]} {n}"]
    yield from fixed([f"book {made.records}", *opening, "seal", *runs, f"finish {words[2]}", f"run {n} {words[0]} {n}", "finish 0", "release"])


def random_book(chance, size, wealth):
    """Entries of every kind, and up to four needs each."""
    kinds = ((0, 0), (1, 0), (1, 0), (0, 1), (0, 1), (1, 1))
    entries = [tuple(bit * chance.randint(1, wealth) for bit in chance.choice(kinds)) for _ in range(size)]
    needs = []
    for entry in range(size):
        others = [other for other in range(size) if other != entry]
        needs += [(entry, other) for other in chance.sample(others, min(len(others), chance.choice((0, 0, 1, 1, 2, 3, 4))))]
    chance.shuffle(needs)
    return Made(entries, needs)


def random_books():
    chance = random.Random(20)
    yield "# random small books, entered call by call, with calls between that are refused"
    for _ in range(70):
        made = random_book(chance, chance.randint(1, 9), chance.choice((2, 5, 30, MOST_AMOUNT)))
        opening = list(made.entering())
        for _ in range(chance.randrange(3)):
            bad = chance.choice(("need 0 0", "need 0 99", f"enter {MOST_AMOUNT + 1} 0", "load 00", *opening[len(made.entries) :]))
            opening.insert(chance.randint(len(made.entries), len(opening)), bad)
        yield from resumed(made, opening + ["entries"], chance)
    yield "# random books, written and loaded back"
    for _ in range(20):
        made = random_book(chance, chance.randint(1, 12), 10 ** chance.randint(1, 6))
        yield from (f"book {made.records}", *made.entering(), f"write {made.length() - 1}", f"write {made.length()}", "release")
        yield from (f"book {made.records}", made.loading(), "entries", f"write {made.length()}", "seal", f"finish {len(made.entries) + 2}")
    yield "# random books of up to 60 entries, loaded"
    for _ in range(40):
        made = random_book(chance, chance.randint(10, 60), chance.choice((3, 20, 1000, MOST_AMOUNT)))
        yield from resumed(made, [made.loading()], chance)


def random_rows():
    chance = random.Random(39)
    yield "# random rows"
    for size in [*range(2, 11)] * 3 + [40, 150, 200]:
        most = chance.choice((2, 9, 100, 2**38, 2**40)) if size < 100 else 99
        cells = [",".join(str(chance.choice((0, 1, 1)) * chance.randint(0, most)) for _ in range(4)) for _ in range(size)]
        yield from fixed([" ".join(["row", *cells]), f"run {size} 1 {size}", f"run {size} {size + 2} {size}", f"finish {size + 2 + chance.randrange(9)}"])


def listed():
    yield "# listings"
    chance = random.Random(8)
    yield "plan 05000000320002050000001e0002020000003c030000000a0000000a0200000005"
    yield from ("plan", "plan 00", "plan 00*8192", "plan 00*8193", "plan 40*8192", "plan 40*8193", "plan 040001", "plan 00 00 0c00000001")
    # 228 entries with 910 needs are 2,048 records
    full = "3c0001000200030004 3c0000000200030004 3c0000000100030004 3c0000000100020004 3c0000000100020003*223 0c00000001"
    yield from (f"plan {full}", f"plan {full} 00")
    yield from ("plan 00*2049", "plan 040001 00*2046", "plan 040001 00*2045 01000000", "plan 040001 040002 00*2043")
    for size in (1, 2, 5, 9, 30):
        yield "plan " + random_book(chance, size, 50).loading().partition(" ")[2]


def large_books():
    chance = random.Random(4096)
    shared = [(i, 0) for i in range(1, 4096)]
    for cost, words in ((409499, 4098), (409500, 20000), (409501, 9000)):
        yield "# a set-up that 4,095 jobs share, at a cost just below what they earn, at it and above"
        made = Made([(0, cost)] + [(100, 0)] * 4095, shared)
        yield from (f"book {made.records}", made.loading(), "entries", "seal", f"finish {words}", "release")
    yield "# a set-up that thousands of different jobs share"
    made = Made([(0, MOST_AMOUNT)] + [(1 + i // 9, 0) for i in range(4000)], [(i, 0) for i in range(1, 4001)])
    yield from (f"book {made.records}", made.loading(), "entries", "seal", "finish 4500", "release")
    yield "# a job that needs a chain of 4,095 set-ups, of which the last costs as much"
    made = Made([(9, 0)] + [(0, 0)] * 4094 + [(0, 9)], [(i, i + 1) for i in range(4095)])
    yield from (f"book {made.records}", made.loading(), "seal", "run 4096 4097 4096", "finish 4098", "release")
    yield "# a long chain, of which some earn and some cost"
    amounts = [chance.choice(((0, 0), (0, 0), (chance.randint(1, 90), 0), (0, chance.randint(1, 60)))) for _ in range(1000)]
    made = Made(amounts, [(i, i + 1) for i in range(999)])
    yield from (f"book {made.records}", made.loading(), "seal", "run 1000 1001 1000", "finish 1002", "release")
    yield "# many jobs on few set-ups"
    made = Made([(0, chance.randint(500, 9000)) for _ in range(20)] + [(chance.randint(1, 900), 0) for _ in range(600)])
    needs = [(job, setup) for job in range(20, 620) for setup in chance.sample(range(20), chance.randint(1, 4))]
    made = Made(made.entries, needs)
    yield from (f"book {made.records}", made.loading(), "entries", "seal", "finish 622", "release")
    yield "# a large random book"
    made = random_book(chance, 2000, 1000)
    yield from (f"book {made.records}", made.loading(), "entries", "seal", "finish 2002", "release")


def tiles():
    chance = random.Random(21)
    yield "# tiles: sizes, lengths, tables and penalties at their edges"
    for pixels in (5, 6, 7):
        yield f"tile {pixels}"
        yield from ("lay 3 2 00*24", "lay 3 2 00*23", "lay 3 2 00*25", "lay 0 2", "lay 3 0", "lay 65 1 00*260", "lay 1 65 00*260")
        yield from ("lay 65 1 00", "lay 0 1", "lay 4294967296 4294967296 00", f"lay {2**64 - 1} 1", "lay 1 4 01", "lay 3 3 00*35 01")
        yield from ("lay 2 2 0000ff00 00000100 00*8", "lay 2 2 00*8 00000001 00*4", "lay 2 2 00*15 01", "lay 3 3 00*36", "lay 3 3 00*35")
        yield from ("lay 2 1 05090300 07020000", "run 2 1 2", "run 2 4 1", "finish 4", "lay 0 1", "finish 0", "lay 1 2 05090003 07020000", "finish 4", "release")
    yield from ("tile 4096", "lay 64 64 01020000*4096", "finish 4098", "lay 65 64 00*16640", "finish 0", "release")
    yield "# tiles: two pixels, and the penalty between them"
    for penalty in (3, 1, 0):
        yield from ("tile 2", f"lay 2 1 0207{penalty:02x}00 06050000", "residual source 0", "residual sink 1", "finish 4", "release")
    yield "# tiles: random ones"
    for width, height in [(1, 1), (4, 1), (1, 4), (2, 2), (3, 3), (2, 5), (64, 1), (1, 64), (8, 8), (16, 12)]:
        yield from random_tile(chance, width, height, chance.choice((3, 20, 255)), (1, 1), 255)
    yield "# tiles: on which a run that lets no neighbours of a freed node wait tells wrong marks, as was found by trying"
    for seed in (135, 138, 243, 262):
        chance = random.Random(seed)
        width, height = chance.randint(2, 5), chance.randint(2, 5)
        yield from random_tile(chance, width, height, chance.choice((3, 6, 12)), (0, 0, 1), chance.choice((1, 2, 4, 8)))


def random_tile(chance, width, height, dearest, present, widest):
    """A tile with costs and penalties up to these, some of the costs 0."""
    costs = bytearray()
    for y, x in itertools.product(range(height), range(width)):
        costs += bytes(chance.choice(present) * chance.randint(0, dearest) for _ in range(2))
        costs += bytes(chance.randint(0, widest) if inside else 0 for inside in (x < width - 1, y < height - 1))
    nodes = width * height
    yield from (f"tile {nodes}", f"lay {width} {height} {costs.hex()}", f"finish {nodes + 2 + chance.randrange(30)}", "release")


def script():
    edges = [entering_edges, needing_edges, loading_edges, writing_edges, asking_edges, lending_edges]
    for part in edges + [small_books, random_books, random_rows, tiles, listed, large_books]:
        yield from part()


def main():
    match sys.argv[1:]:
        case ["script"]:
            lines = script()
        case ["answers"]:
            lines = answers(sys.stdin)
        case _:
            sys.exit("usage: python3 tools/cases.py script, or answers <crates/cases/stdin")
    for line in lines:
        print(line)


if __name__ == "__main__":
    main()
