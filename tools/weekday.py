#!/usr/bin/env python3
"""Writes a weekday in a print shop, the set-ups that jobs share and then the jobs, as a job list or as its order sheet.

usage: python3 tools/weekday.py jobs >examples/weekday.jobs       at the top
       python3 tools/weekday.py sheet >examples/weekday.sheet

Entries have names here, which a job list tells. In the sheet they go by their numbers. `draft` makes that sheet of the job list too.
"""

import itertools
import sys

JOBS = 180

# What chance starts from: with this number a third of the entries are out, and some are either by chance.
SEED = 5


def each(form, needs, costs):
    """A set-up of this form for each name: what it costs, and the set-ups that it needs itself."""
    return {form.format(name): (cost, needs) for name, cost in costs.items()}


MACHINES = each("{}", [], {
    "small press": 140, "large press": 390, "letterpress": 230, "foil press": 210, "die cutter": 260,
    "label press": 280, "banner printer": 150, "folder": 80, "binding line": 240, "laminator": 110,
})
PAPERS = each("paper {}", ["small press"], {
    "plain 90 g": 40, "plain 120 g": 50, "cream 90 g": 60, "cream 120 g": 70, "laid 100 g": 90,
    "recycled 90 g": 80, "recycled 120 g": 80, "blue 80 g": 60, "green 80 g": 60, "pink 80 g": 60,
})
SHEETS = each("sheets {}", ["large press"], {
    "matt 115 g": 90, "gloss 115 g": 90, "matt 150 g": 110, "gloss 150 g": 110,
    "matt 200 g": 120, "gloss 250 g": 140, "recycled 130 g": 150, "silk 170 g": 160,
})
BOARDS = each("board {}", ["large press"], {
    "300 g": 130, "350 g": 140, "kraft 400 g": 190, "grey 600 g": 220, "cotton 500 g": 260,
})
CARDS = each("card {}", [], {"cotton 300 g": 150, "cotton 600 g": 240, "black 400 g": 210, "felt 350 g": 190})
ROLLS = each("roll {}", ["label press"], {
    "white": 90, "clear film": 160, "white film": 140, "kraft": 120, "silver film": 220,
})
CLOTHS = each("cloth {}", ["banner printer"], {"banner": 120, "flag": 180, "canvas": 260, "mesh": 210})
INKS = each("ink {}", ["small press"], {
    "black": 40, "blue": 90, "red": 100, "green": 110, "brown": 130, "orange": 150, "violet": 170, "silver": 240, "gold": 260,
})
PROCESS = each("four inks{}", ["large press"], {"": 160, " and a fifth": 330})
TYPES = each("metal type in {}", ["letterpress"], {"black": 80, "grey": 120, "red": 160})
PLATES = each("plates of the {}", ["large press"], {
    "theatre": 310, "brewery": 360, "school": 180, "museum": 420, "council": 330, "bank": 500,
    "airline": 740, "zoo": 270, "cinema": 290, "hospital": 380, "festival": 610, "estate agent": 220,
})
DIES = each("die for {}", ["die cutter"], {
    "folders": 320, "envelopes": 380, "hang tags": 240, "pillow boxes": 460,
    "small cartons": 560, "large cartons": 840, "bottle cartons": 900, "door hangers": 290,
})
LABEL_DIES = each("die for {} labels", ["label press"], {"round": 190, "oval": 230, "square": 170, "bottle neck": 410, "jar": 350})
FOILS = each("foil {}", ["foil press"], {"gold": 240, "silver": 240, "copper": 330, "rainbow": 560, "black": 420})
FILMS = each("film {}", ["laminator"], {"gloss": 60, "matt": 70, "soft touch": 290, "scratch proof": 340})
BINDINGS = each("{}", ["binding line"], {"stitching": 70, "perfect binding": 310, "spiral binding": 190, "sewing": 680})
MARKINGS = each("{}", ["letterpress"], {"numbering": 140, "perforation": 110, "scoring": 60})
FOLDS = each("{} fold", ["folder"], {"half": 40, "letter": 50, "map": 160, "window": 140})
CLUBS = each("plates of the {}", ["large press"], {
    "choir": 120, "chess club": 80, "parish": 140, "gardeners": 100, "rowers": 160, "library friends": 180,
})

SETUPS = (
    MACHINES | PAPERS | SHEETS | BOARDS | CARDS | ROLLS | CLOTHS | INKS | PROCESS | TYPES
    | PLATES | DIES | LABEL_DIES | FOILS | FILMS | BINDINGS | MARKINGS | FOLDS | CLUBS
)

# The kinds of jobs: a name, what one earns at least and at most, and the set-ups of which it needs one each, the usual ones in front.
KINDS = [
    ("letterhead", 15, 150, [PAPERS, INKS]),
    ("leaflet", 40, 360, [SHEETS, PROCESS, FOLDS]),
    ("business cards", 20, 160, [BOARDS, PROCESS, FILMS]),
    ("labels", 40, 380, [ROLLS, LABEL_DIES]),
    ("booklet", 70, 580, [SHEETS, PROCESS, BINDINGS]),
    ("forms", 15, 130, [PAPERS, INKS, MARKINGS]),
    ("invitations", 50, 360, [CARDS, TYPES, FOILS]),
    ("customer's leaflet", 60, 480, [SHEETS, PLATES, FOLDS]),
    ("banner", 30, 200, [CLOTHS]),
    ("cartons", 90, 700, [BOARDS, DIES, PROCESS, FILMS]),
    ("visiting cards", 20, 120, [CARDS, TYPES]),
    ("customer's catalogue", 150, 1900, [SHEETS, PLATES, BINDINGS, FILMS]),
]


def numbers(seed):
    """Numbers that look like chance, and are the same each time."""
    while True:
        seed = (seed * 1103515245 + 12345) % 2**31
        yield seed >> 12


def chosen(chance, names):
    """One of the names: of two draws the earlier, so that those in front are chosen more often."""
    return names[min(next(chance) % len(names), next(chance) % len(names))]


def job(chance, kind, least, most, choices):
    """A job's kind, what it earns and costs, and the names of the set-ups that it needs."""
    # of two draws the smaller, since most jobs are small
    steps = (most - least) // 5 + 1
    earning = least + 5 * min(next(chance) % steps, next(chance) % steps)
    # a third of the jobs are delivered, for a tenth of the earning
    cost = earning // 50 * 5 if next(chance) % 3 == 0 else 0
    return kind, earning, cost, [chosen(chance, list(setups)) for setups in choices]


def entries():
    """The entries of the day, each as its name, its earning, its cost and the names of the entries that it needs."""
    chance = numbers(SEED)
    setups = [(name, 0, cost, needs) for name, (cost, needs) in SETUPS.items()]
    jobs = [job(chance, *kind) for kind in itertools.islice(itertools.cycle(KINDS), JOBS)]
    # a club has two jobs, which together pay just what its plates cost
    at_cost = [("club", cost // 2, 0, ["sheets matt 115 g", plates]) for plates, (cost, _) in CLUBS.items() for _ in range(2)]
    named = [(f"{kind} {at}", *rest) for at, (kind, *rest) in enumerate(jobs + at_cost, 1)]
    return setups + named


def record(earning, cost, needs):
    """The bytes of an entry: its bit map, then the amounts that are not 0, then its needs."""
    bits = (earning > 0) | (cost > 0) << 1 | ((1 << len(needs)) - 1) << 2
    amounts = [amount.to_bytes(4, "big") for amount in (earning, cost) if amount]
    return bytes([bits]) + b"".join(amounts + [needed.to_bytes(2, "big") for needed in needs])


def sheet(day):
    """The order sheet of the entries."""
    number = {name: at for at, (name, *_) in enumerate(day)}
    return b"".join(record(earning, cost, sorted(number[needed] for needed in needs)) for _, earning, cost, needs in day)


def line(name, earning, cost, needs):
    """The line of a job list that tells an entry."""
    if earning and cost:
        told = ["both", name, str(earning), str(cost)]
    else:
        told = ["job", name, str(earning)] if earning else ["set-up", name, str(cost)]
    return " ".join(word.replace(" ", "-") for word in told + needs) + "\n"


def job_list(day):
    """The job list of the entries, in which names have no blanks."""
    return "".join(["# A weekday in a print shop: the set-ups, then the jobs.\n"] + [line(*entry) for entry in day]).encode()


def main():
    made = {"jobs": job_list, "sheet": sheet}
    sys.stdout.buffer.write(made[sys.argv[1]](entries()))


if __name__ == "__main__":
    main()
