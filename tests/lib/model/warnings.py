"""What an engineer is warned of in a plan, beside the rules that it breaks: warnings refuse nothing.
First come the phases, then the split rows, then the patterns, then the plan as a whole."""
import itertools

from .reasons import tenths
from .rules import View, need

PEDESTRIAN_RECALLS, OMITTED = (5, 6), 7
HALF_SECOND, NARROWEST, WIDEST = 5, 200, 2_000  # tenths of a second, and of a foot


def rings(view):
    """How many rings have a phase."""
    return len({phase.ring for phase in view.phases.values()})


def serves(view, pattern, number):
    """The pattern's split has a row for the phase, which does not omit it."""
    split = view.splits.get((pattern.split, number))
    return split is not None and split.mode != OMITTED


def of_phase(view, phase):
    """Of a phase and its crossing."""
    if phase.max1 < phase.min_green:
        yield (f"the maximum green is {phase.max1} s, less than the minimum green of "
               f"{phase.min_green} s")
    if phase.min_green == 0:
        yield "the minimum green is 0 s"
    if not phase.mates and rings(view) > 1:
        yield f"no phase may time with it, and the plan has {rings(view)} rings"
    patterns = view.patterns.values()
    if patterns and not any(serves(view, it, phase.number) for it in patterns):
        yield "no pattern serves it"
    for what, value in (("the passage", phase.passage), ("red", phase.red)):
        if value < HALF_SECOND:
            yield f"{what} is {tenths(value)} s, less than 0.5 s"
    if phase.clear == 0:
        yield f"the crossing of {tenths(phase.width)} ft has a clearance of 0 s"
    if phase.width == 0:
        yield "the width of the crossing is 0 ft, not measured"
    if phase.width is not None and 0 < phase.width < NARROWEST:
        yield f"the crossing is {tenths(phase.width)} ft wide, less than {tenths(NARROWEST)} ft"
    if phase.width is not None and phase.width > WIDEST:
        yield f"the crossing is {tenths(phase.width)} ft wide, more than {tenths(WIDEST)} ft"


def called(phase, split):
    """A walk that a button may call, and for which the split is too short."""
    needed = need(phase, PEDESTRIAN_RECALLS[0])
    walk_is_longer = phase.walk + phase.clear > phase.lead + phase.min_green
    longer = "walk and clearance" if walk_is_longer else "lead and minimum green"
    return (f"if a button calls the walk, {tenths(needed)} s are needed, the split has "
            f"{split.time} s: {longer} are {tenths(needed - 10 * split.time)} s too long")


def of_split(view, split):
    """Of the split row of a phase; nothing where the plan does not have the phase."""
    phase = view.phases.get(split.phase)
    if phase is None:
        return
    recalls, has_walk = split.mode in PEDESTRIAN_RECALLS, phase.walk is not None
    if has_walk and not recalls and split.mode != OMITTED:
        if need(phase, PEDESTRIAN_RECALLS[0]) > 10 * split.time:
            yield called(phase, split)
    if recalls and not has_walk:
        yield "the mode calls the walk of a phase that has no crossing"
    lead = phase.lead if recalls and has_walk else 0
    besides = 10 * lead + phase.yellow + phase.red
    if split.coord and 10 * split.time - besides < 10:
        yield (f"coordinated without a second of green: the split has {split.time} s, and lead, "
               f"yellow and red are {tenths(besides)} s")


def times(view, pattern, number):
    """The seconds of a cycle at which a phase times: after those before it in its ring's row."""
    row = view.sequences.get(pattern.sequence, {}).get(view.phases[number].ring, ())
    seconds = {it: view.splits[pattern.split, it].time for it in {*row, number}
               if (pattern.split, it) in view.splits}
    before = itertools.takewhile(lambda it: it != number, row)
    begin = sum(seconds.get(it, 0) for it in before)
    return begin, begin + seconds.get(number, 0)


def together(view, pattern, one, other):
    """Two phases time together: each begins before the other is over."""
    (begin, end), (other_begin, other_end) = (times(view, pattern, it) for it in (one, other))
    return begin < other_end and other_begin < end


def crowded(view, pattern):
    """A phase that takes more than half of the cycle, with another one of its ring whose split
    could not be a second shorter: the first two."""
    splits = {it: view.splits.get((pattern.split, it)) for it in view.phases}
    longest = [it for it, split in splits.items() if split and 2 * split.time > pattern.cycle]
    tight = [it for it, split in splits.items() if split and split.mode != OMITTED
             and need(view.phases[it], split.mode) > max(10 * split.time - 10, 0)]
    pairs = ((one, other) for one in longest for other in tight
             if one != other and view.phases[one].ring == view.phases[other].ring)
    for one, other in itertools.islice(pairs, 1):
        yield (f"phase {one} takes {splits[one].time} s of the cycle of {pattern.cycle} s, and "
               f"phase {other} has no second more than it needs")


def of_pattern(view, pattern):
    """The first two coordinated phases that do not time together; where there are such and every
    phase is coordinated, that. Then a split that leaves another one at its need."""
    splits = {it: view.splits.get((pattern.split, it)) for it in view.phases}
    coordinated = [it for it, split in splits.items() if split and split.coord]
    pairs = itertools.combinations(coordinated, 2)
    apart = next((it for it in pairs if not together(view, pattern, *it)), None)
    if apart and len(coordinated) == len(view.phases):
        yield f"each of the {len(coordinated)} phases is coordinated"
    elif apart:
        yield f"phases {apart[0]} and {apart[1]} are coordinated and do not time together"
    yield from crowded(view, pattern)


def of_plan(view):
    """Of the plan as a whole."""
    if view.phases and not view.patterns:
        yield f"{len(view.phases)} phases, and no pattern"
    pairs = itertools.permutations(view.phases.values(), 2)
    if rings(view) > 1 and all(view.lists(one.number, other.number) for one, other in pairs
                               if one.ring != other.ring):
        yield ("each phase may time with every phase of the other rings: none of the "
               f"{rings(view)} rings waits for another")


def in_pattern(view, pattern):
    """Each warning of a pattern, after those of the rows of its split plan."""
    rows = sorted((p, split) for (n, p), split in view.splits.items() if n == pattern.split)
    subjects = [
        *((f"split {pattern.split} {p}", of_split(view, split)) for p, split in rows),
        (f"pattern {pattern.number}", of_pattern(view, pattern)),
    ]
    return [f"{subject}: {told}" for subject, all_told in subjects for told in all_told]


def warnings(plan):
    """A line for each warning of a plan."""
    view = View(plan)
    subjects = [
        *((f"phase {p}", of_phase(view, phase)) for p, phase in view.phases.items()),
        *((f"split {n} {p}", of_split(view, split)) for (n, p), split in view.splits.items()),
        *((f"pattern {n}", of_pattern(view, pattern)) for n, pattern in view.patterns.items()),
        ("plan", of_plan(view)),
    ]
    return [f"warning: {subject}: {told}" for subject, all_told in subjects for told in all_told]
