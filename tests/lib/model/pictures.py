"""The picture of a pattern: its rings as lanes of an SVG, whose unit is a tenth of a second."""
import itertools

from . import reasons, warnings
from .letters import quoted, width
from .rules import View, of_pattern

LEFT, RIGHT, LEAST, LANES_TOP, PITCH, RISE = 120, 60, 900, 140, 120, 12
LONGEST_NAME = 60  # places on a terminal
BELOW, LINE = 60, 22  # what stands below the lanes: the scale, and a line for each warning
# Of each stretch how far below the top of its lane it begins, how high it is, and its colour.
BANDS = {
    "green": (34, 30, "#dcefd8"),
    "lead": (34, 30, "#9fb4c7"),
    "yellow": (34, 30, "#ffd84d"),
    "red": (34, 30, "#b3261e"),
    "walk": (70, 16, "#ffffff"),
    "pedestrian clearance": (70, 16, "#f2a65a"),
}
OPENING = "<svg xmlns='http://www.w3.org/2000/svg'"
LETTERS = "font-family='sans-serif' font-size='20'>"
GROUND = "<rect width='100%' height='100%' fill='white'/>"
# The first broken rule of these three is named in the picture, with why it is broken.
NAMED = ("V9", "V12", "V13")


def box(x, y, width, height, fill, edge=1, more=""):
    """A rectangle with a black edge."""
    return (f"<rect x='{x}' y='{y}' width='{width}' height='{height}' fill='{fill}' "
            f"stroke='black' stroke-width='{edge}'{more}/>")


def dashed(x, y, width, height):
    """A rectangle of which the edge alone is drawn, in dashes."""
    return box(x, y, width, height, "none", more=" stroke-dasharray='6 4'")


def wedge(x, y):
    """The mark of a walk that goes on past the point where yellow begins, at which it points."""
    return f"<polygon points='{x - 10},{y} {x},{y + 8} {x - 10},{y + 16}' fill='black'/>"


def line(x1, y1, x2, y2, width):
    """A black line."""
    return (f"<line x1='{x1}' y1='{y1}' x2='{x2}' y2='{y2}' stroke='black' "
            f"stroke-width='{width}'/>")


def words(x, y, text, more=""):
    """Words at a point."""
    return f"<text x='{x}' y='{y}'{more}>{text}</text>"


def owner(id, name, revision):
    """Whose plan it is, above the title; a long name is drawn narrower."""
    is_long = width(name) > LONGEST_NAME
    more = " textLength='940' lengthAdjust='spacingAndGlyphs'" if is_long else ""
    return words(120, 14, f"Intersection {id}: <tspan unicode-bidi='isolate'>{quoted(name)}</tspan>,"
                 f" revision {revision}", f" font-size='16'{more}")


def opening(number, width, height, in_page):
    """A picture in a page has the size of its units and is told in words; a sheet is A4."""
    if in_page:
        return (f"{OPENING} role='img' aria-label='Pattern {number}: the phases of each ring in "
                f"turn, each as long as its split' width='{width}' height='{height}' "
                f"style='min-width:{13 * (width // 20)}px' "
                f"viewBox='0 0 {width} {height}' {LETTERS}")
    return (f"{OPENING} width='260mm' height='180mm' viewBox='0 0 {width} {height}' "
            f"preserveAspectRatio='xMidYMin' {LETTERS}")


def legend():
    """What colours, star, lines, outline and wedge mean, in two rows."""
    for x, name in ((120, "green"), (215, "lead"), (300, "yellow"), (405, "red")):
        yield box(x, 80, 20, 16, BANDS[name][2])
        yield words(x + 28, 95, name)
    yield words(480, 95, "* coordinated")
    for x, width, name in ((630, 5, "barrier"), (730, 2, "all rings change, or cycle ends")):
        yield line(x, 80, x, 96, width)
        yield words(x + 10, 95, name)
    for x, name in ((120, "walk"), (240, "pedestrian clearance")):
        yield box(x, 104, 20, 16, BANDS[name][2])
        yield words(x + 28, 119, name)
    yield dashed(510, 104, 20, 16)
    yield words(538, 119, "walk, if called")
    yield wedge(730, 104)
    yield words(738, 119, "not over when yellow begins")


def stretch(x, top, name, begin, end, is_called=True):
    """From one tenth of a phase to another; of a walk that nobody has to call the edge alone."""
    if begin < end:
        below, height, fill = BANDS[name]
        place = x + begin, top + below, end - begin, height
        yield box(*place, fill) if is_called else dashed(*place)


def walking(x, top, phase, room, is_called):
    """Lead, walk and clearance, none of which goes past the green, and a wedge where they would."""
    walk, both = 10 * phase.walk, 10 * (phase.walk + phase.clear)
    yield from stretch(x, top, "lead", 0, min(10 * phase.lead, room), is_called)
    yield from stretch(x, top, "walk", 0, min(walk, room), is_called)
    yield from stretch(x, top, "pedestrian clearance", min(walk, room), min(both, room), is_called)
    if both > room:
        yield wedge(x + room, top + 70)


def signals(x, top, phase, length, is_called):
    """What a phase shows in turn: a lead that is called, green, yellow, red."""
    red = max(length - phase.red, 0)
    yellow = max(length - phase.yellow - phase.red, 0)
    has_lead = phase.walk is not None and is_called
    yield from stretch(x, top, "green", min(10 * phase.lead, yellow) if has_lead else 0, yellow)
    if phase.walk is not None:
        yield from walking(x, top, phase, yellow, is_called)
    yield from stretch(x, top, "yellow", yellow, red)
    yield from stretch(x, top, "red", red, length)


def phase_drawn(view, split, start, top):
    """A phase from a second on: what it shows, its edge, and its number and time."""
    x, length, phase = LEFT + 10 * start, 10 * split.time, view.phases.get(split.phase)
    if phase is not None:
        yield from signals(x, top, phase, length, split.mode in (5, 6))
    yield box(x, top, length, 64, "none", 5 if split.coord else 1)
    time = f": {split.time} s" if split.time >= 10 else ""
    yield words(x + 8, top + 25, f"{split.phase}{'*' if split.coord else ''}{time}")


def starts(view, pattern, ring):
    """The splits that have time in a ring, each with the second at which it begins."""
    row = view.sequences.get(pattern.sequence, {}).get(ring, ())
    splits = [view.splits[pattern.split, it] for it in row if (pattern.split, it) in view.splits]
    timed = [it for it in splits if it.time]
    return list(zip(itertools.accumulate((it.time for it in timed), initial=0), timed))


def lines(view, lanes, cycle):
    """The seconds at which all rings change phase, and the end of the cycle, each with whether it
    is a barrier: all rings change, and no phase before it may time with one behind it."""
    for at in range(1, cycle + 1):
        behind = 0 if at == cycle else at
        ends = [[it.phase for start, it in lane if start + it.time == at] for lane in lanes]
        begins = [[it.phase for start, it in lane if start == behind] for lane in lanes]
        change = bool(lanes) and all(ends) and all(begins)
        if change or at == cycle:
            pairs = itertools.product(itertools.chain(*ends), itertools.chain(*begins))
            yield at, change and not any(together(view, *pair) for pair in pairs)


def together(view, one, other):
    """Whether two phases may time together: each lists the other."""
    return all(b in (view.phases[a].mates if a in view.phases else ())
               for a, b in ((one, other), (other, one)))


def scale(y, seconds):
    """A line below the lanes with a tick each ten seconds."""
    yield words(12, y + 32, "Seconds")
    yield line(LEFT, y, LEFT + 10 * seconds, y, 1)
    for at in range(0, seconds + 1, 10):
        yield line(LEFT + 10 * at, y, LEFT + 10 * at, y + 10, 1)
        yield words(LEFT + 10 * at, y + 32, at, " text-anchor='middle'")


def chart(view, pattern):
    """The lanes of a pattern by their rings, and for how many seconds they last."""
    rings = sorted({phase.ring for phase in view.phases.values()})
    lanes = [starts(view, pattern, ring) for ring in rings]
    return rings, lanes, max([pattern.cycle, *(sum(it.time for _, it in lane) for lane in lanes)])


def elements(plan, number, whose, in_page):
    """The lines of the picture of a pattern that the plan has; all patterns of the plan have one
    scale."""
    view = View(plan)
    pattern = view.patterns[number]
    rings, lanes, seconds = chart(view, pattern)
    room = max(chart(view, it)[2] for it in view.patterns.values())
    bottom = LANES_TOP + PITCH * len(lanes)
    warned = [] if in_page else warnings.in_pattern(view, pattern)
    yield opening(number, LEFT + max(LEAST, 10 * room) + RIGHT,
                  bottom + BELOW + LINE * len(warned), in_page)
    yield GROUND
    if whose:
        yield owner(*whose)
    yield words(120, 44, f"Pattern {number}: cycle {pattern.cycle} s, offset {pattern.offset} s, "
                f"split {pattern.split}, sequence {pattern.sequence}", " font-size='28'")
    holds = dict(of_pattern(view, pattern))
    broken = [rule for rule in NAMED if not holds.get(rule, True)]
    yield from (words(LEFT, 68, f"{rule}: {reasons.why(view, f'pattern {number}', rule)[0]}")
                for rule in broken[:1])
    yield from legend()
    for index, (ring, lane) in enumerate(zip(rings, lanes)):
        top = LANES_TOP + PITCH * index
        yield words(12, top + 40, f"Ring {ring}")
        for at, split in lane:
            yield from phase_drawn(view, split, at, top)
    for at, is_barrier in lines(view, lanes, pattern.cycle):
        x = LEFT + 10 * at
        yield line(x, LANES_TOP - RISE, x, bottom - RISE, 5 if is_barrier else 2)
    yield from scale(bottom, seconds)
    for index, told in enumerate(warned):
        yield words(12, bottom + BELOW + LINE * index, f"Warning: {told}", " font-size='15'")
    yield "</svg>"


def picture(plan, number, whose=None, in_page=False):
    """The picture of a pattern, to be printed on a sheet, with whose plan it is and its warnings, or
    to stand in a page, which has them below its rows."""
    return "".join(f"{it}\n" for it in elements(plan, number, whose, in_page))
