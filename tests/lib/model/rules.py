"""The timing rules. V1 to V5 and V14 are kinds of limits after MUTCD 2009, sections 4D.26 and
4E.06, with numbers of this project's own."""
import itertools

from .plan import Pattern, Phase, Sequence, Split


class View:
    """A plan by its subjects: phases, for each sequence the rows of its rings, splits, patterns."""

    def __init__(self, plan):
        rows = [plan[key] for key in sorted(plan)]
        self.phases = {row.number: row for row in rows if isinstance(row, Phase)}
        self.splits = {(row.number, row.phase): row for row in rows if isinstance(row, Split)}
        self.patterns = {row.number: row for row in rows if isinstance(row, Pattern)}
        self.sequences = {}
        for row in rows:
            if isinstance(row, Sequence):
                self.sequences.setdefault(row.number, {})[row.ring] = row.phases

    def lists(self, one, other):
        """The one is in the plan, and the other is among its mates."""
        return one in self.phases and other in self.phases[one].mates

    def list_each_other(self, one, other):
        """Each lists the other."""
        return self.lists(one, other) and self.lists(other, one)

    def lanes(self, pattern):
        """For each ring that has a phase, the phase that times at each second: its row of the
        sequence, each phase once for each second of its split."""
        rings = self.sequences.get(pattern.sequence, {})
        for ring in sorted({phase.ring for phase in self.phases.values()}):
            splits = [self.splits.get((pattern.split, it)) for it in rings.get(ring, ())]
            yield [it.phase for it in splits if it for _ in range(it.time)]


def need(phase, mode):
    """Tenths of a second that a phase needs; its crossing counts in modes 5 and 6."""
    longest = 10 * phase.min_green
    if phase.walk is not None and mode in (5, 6):
        longest = max(10 * (phase.lead + phase.min_green), 10 * (phase.walk + phase.clear))
    return longest + phase.yellow + phase.red


def of_phase(view, phase):
    """The rules of a phase, each with whether it holds."""
    yield "V1", 30 <= phase.yellow <= 60
    yield "V2", phase.red <= 60
    if phase.walk is not None:
        clearance = 10 * phase.clear + phase.yellow + phase.red
        yield "V3", phase.walk >= (4 if phase.short else 7)
        yield "V4", 7 * clearance >= 2 * phase.width
        yield "V5", 3 * (10 * phase.walk + clearance) >= phase.width + phase.setback
    yield "V6", all(
        mate in view.phases and view.phases[mate].ring != phase.ring
        and view.lists(mate, phase.number) for mate in phase.mates
    )
    if phase.walk is not None:
        yield "V14", phase.lead == 0 or 3 <= phase.lead <= phase.walk


def of_sequence(view, number):
    """Every phase stands exactly once, in the row of its ring, and nothing else stands there."""
    stand = [(ring, it) for ring, phases in view.sequences[number].items() for it in phases]
    yield "V7", sorted(stand) == sorted((it.ring, it.number) for it in view.phases.values())


def of_split(view, split):
    """The phase is there and has the time that it needs, unless it is omitted."""
    phase = view.phases.get(split.phase)
    yield "V8", (
        phase is not None
        and (split.time == 0) == (split.mode == 7)
        and (split.time == 0 or 10 * split.time >= need(phase, split.mode))
        and not (split.coord and split.mode == 7)
    )


def agree(view, lanes, cycle):
    """At each second the phases of any two lanes list each other."""
    return all(
        view.list_each_other(one[second], other[second])
        for one, other in itertools.combinations(lanes, 2) for second in range(cycle)
    )


def of_pattern(view, pattern):
    """V12 is evaluated where V9 holds, V13 where both do."""
    splits = {it: view.splits.get((pattern.split, it)) for it in view.phases}
    is_whole = pattern.sequence in view.sequences and None not in splits.values()
    yield "V9", is_whole
    yield "V10", pattern.offset < pattern.cycle
    yield "V11", any(it and it.coord for it in splits.values())
    if is_whole:
        lanes = list(view.lanes(pattern))
        fill = all(len(lane) == pattern.cycle for lane in lanes)
        yield "V12", fill
        yield "V13", not fill or agree(view, lanes, pattern.cycle)


def violations(plan):
    """The broken rules with their subjects: phases, sequences, splits, patterns, each by number."""
    view = View(plan)
    subjects = [
        *((f"phase {p}", of_phase(view, phase)) for p, phase in view.phases.items()),
        *((f"sequence {n}", of_sequence(view, n)) for n in view.sequences),
        *((f"split {n} {p}", of_split(view, split)) for (n, p), split in view.splits.items()),
        *((f"pattern {n}", of_pattern(view, pattern)) for n, pattern in view.patterns.items()),
    ]
    return [{"rule": rule, "subject": subject} for subject, rules in subjects
            for rule, holds in rules if not holds]
