"""Plans that are drawn: whole ones that mostly break no rule, often just, and changes that may."""
from .plan import KINDS, PEDESTRIAN, Number, read_change
from .rules import need

# A plan of two rings that breaks no rule, and changes of it.
BASE = [row.split(",") for row in """\
phase,2,1,8,20,40,40,15,6,7,12,490,60,0,0
phase,4,1,8,20,40,40,15,8
phase,6,2,8,20,40,40,15,2
phase,8,2,8,20,40,40,15,4
seq,1,1,2 4
seq,1,2,6 8
split,1,2,35,2,1
split,1,4,25,2,0
split,1,6,35,2,1
split,1,8,25,2,0
pattern,1,60,0,1,1""".splitlines()]
CHANGES = [row.split(",") for row in """\
phase,2,1,8,20,40,40,15,6,3,2,900,60,0,0
phase,2,1,8,20,40,40,15,6,7,12,490,60,0,2
phase,2,1,28,20,40,40,15,6,7,12,490,60,0,3
phase,2,1,8,20,40,40,15,6,4,12,490,60,1,4
phase,2,1,8,20,40,40,15,6,4,12,490,60,0,5
phase,4,1,8,20,40,29,15,8
phase,4,1,8,20,40,40,61,8
phase,4,2,8,20,40,40,15,8
phase,6,2,8,20,40,40,15,2 4
remove,phase,8
seq,1,1,4 2
seq,1,1,2
seq,1,2,
remove,seq,1,2
split,1,2,36,2,1
split,1,2,35,5,0
split,1,4,13,2,0
split,1,4,0,7,0
split,1,4,25,7,1
remove,split,1,4
split,1,6,34,2,1
split,1,8,26,2,0
pattern,1,60,60,1,1
pattern,1,60,0,2,1
pattern,2,60,30,1,1
remove,pattern,2""".splitlines()]

UNJUDGED = (3, 4)  # passage and max1 of a phase, behind its number


def texts(*row):
    """A row's fields as texts."""
    return [str(it) for it in row]


def draw_crossing(dice, clearance):
    """Walk to lead of a phase, whose yellow and red take so long: V3, V4, V5 and V14 just hold."""
    short = dice.randint(0, 1)
    walk, clear = dice.choice((4 if short else 7, 7, 9)), dice.randint(5, 15)
    clearance += 10 * clear
    crossed = 3 * (10 * walk + clearance)
    width = max(0, min(7 * clearance // 2, crossed) - dice.choice((0, 0, 1, 99)))
    setback = max(0, min(crossed - width, 999) - dice.choice((0, 0, 1, 99)))
    return [walk, clear, width, setback, short, dice.choice((0, 0, 3, walk))]


def draw_phase(dice, number, ring, mates):
    """A phase that breaks no rule of its own, often just."""
    yellow, red = dice.choice((30, 40, 40, 60)), dice.choice((0, 15, 15, 60))
    green, passage, longest = dice.randint(4, 12), dice.choice((0, 20)), dice.choice((40, 255))
    numbers = texts(number, ring, green, passage, longest, yellow, red)
    row = ["phase", *numbers, " ".join(texts(*mates))]
    if dice.random() < 0.5:
        row += texts(*draw_crossing(dice, yellow + red))
    return row


def draw_splits(dice, split, groups, phases):
    """Rows of a split in which the phases of each group take as long in each ring, and the sum."""
    rows, cycle = [], 0
    for rings in groups:
        modes = {it: dice.choice((2, 2, 3, 4, 5, 6)) for ring in rings for it in ring}
        times = {it: -(-need(phases[it], mode) // 10) for it, mode in modes.items()}
        longest = max(sum(times[it] for it in ring) for ring in rings) + dice.choice((0, 0, 1, 9))
        for ring in rings:
            times[dice.choice(ring)] += longest - sum(times[it] for it in ring)
        rows += [texts("split", split, it, times[it], modes[it], dice.choice((0, 1, 1)))
                 for ring in rings for it in ring]
        cycle += longest
    return rows, cycle


def draw_plan(dice, most=32):
    """The rows of a plan of some rings, whose phases have at most this number. Between two barriers
    stands a group: some phases of each ring, each of which may time together with all those of the
    other rings."""
    count, numbers = dice.choice((1, 2, 2, 2, 3)), dice.sample(range(1, most + 1), most)
    groups = [[[numbers.pop() for _ in range(dice.choice((1, 1, 1, 2)))] for _ in range(count)]
              for _ in range(dice.choice((1, 2, 2)))]
    rows = [draw_phase(dice, it, at, [x for other in rings if other is not ring for x in other])
            for rings in groups for at, ring in enumerate(rings, 1) for it in ring]
    phases = {int(row[1]): read_change(row)[1] for row in rows}
    sequence, split = dice.choice((1, 20)), dice.choice((1, 2, 20))
    for at in range(count):
        phases_of = " ".join(str(it) for rings in groups for it in rings[at])
        rows.append(texts("seq", sequence, at + 1, phases_of))
    splits, cycle = draw_splits(dice, split, groups, phases)
    if cycle > 255:
        return draw_plan(dice, most)
    offset = dice.choice((0, cycle - 1, cycle // 2))
    pattern = texts("pattern", dice.choice((1, 1, 48)), cycle, offset, split, sequence)
    return [*rows, *splits, pattern]


def draw_value(dice, text, number):
    """Another value of a field: one more or less, or an end of its range."""
    values = {number.least, number.most, *range(int(text) - 1, int(text) + 2)}
    return str(dice.choice([it for it in sorted(values) if number.least <= it <= number.most]))


def draw_list(dice, text):
    """Another list of phases: one more, one less, or in another order."""
    phases, luck = text.split(), dice.random()
    if phases and luck < 0.3:
        phases.remove(dice.choice(phases))
    elif luck < 0.6:
        phases.append(dice.choice([it for it in texts(*range(1, 33)) if it not in phases]))
    dice.shuffle(phases)
    return " ".join(phases)


def draw_change(dice, row):
    """A row changed in one field of which a rule speaks, or removed."""
    _, form, keys = KINDS[row[0]]
    if dice.random() < 0.15:
        return ["remove", *row[:1 + keys]]
    at = dice.choice([it for it in range(keys, len(row) - 1)
                      if row[0] != "phase" or it not in UNJUDGED])
    kind, text = (*form, *PEDESTRIAN)[at], row[1 + at]
    is_number = isinstance(kind, Number)
    other = draw_value(dice, text, kind) if is_number else draw_list(dice, text)
    return [*row[:1 + at], other, *row[2 + at:]]


def draw_changes(dice, rows):
    """Some changes of a plan, of rows of all kinds."""
    kinds = [dice.choice(("phase", "phase", "seq", "split", "pattern"))
             for _ in range(dice.choice((2, 3, 6)))]
    return [draw_change(dice, dice.choice([row for row in rows if row[0] == kind]))
            for kind in kinds]
