"""Why a plan breaks the timing rules, in the words of an engineer: each violation with the numbers
to check. Where a rule has several things to find, the first one is told."""
import itertools

from .rules import View, need, violations


def tenths(number):
    """A number of tenths, as 13.5."""
    return f"{number // 10}.{number % 10}"


def least_walk(phase):
    """The shortest walk that a phase may have, in seconds."""
    return 4 if phase.short else 7


def walked(feet, speed, needed, what, there):
    """A way that takes longer than there is."""
    return (f"{tenths(feet)} ft at {speed} ft/s take {tenths(needed)} s; "
            f"{what} are {tenths(there)} s")


def lead(phase):
    """What is wrong with a lead: it is too short, or else longer than the walk."""
    if phase.lead < 3:
        return f"lead is {phase.lead} s, less than 3 s"
    return f"lead is {phase.lead} s, longer than the walk of {phase.walk} s"


def mate(view, phase):
    """The first mate that is none."""
    for it in phase.mates:
        if it not in view.phases:
            return f"mate {it} is not in the plan"
        if view.phases[it].ring == phase.ring:
            return f"mate {it} is in ring {phase.ring} too"
        if phase.number not in view.phases[it].mates:
            return f"mate {it} does not list it"
    return None


def of_phase(view, phase, rule):
    """Why a phase breaks a rule."""
    if rule == "V6":
        return mate(view, phase)
    if rule == "V1":
        return f"yellow is {tenths(phase.yellow)} s, not 3.0 to 6.0 s"
    if rule == "V2":
        return f"red is {tenths(phase.red)} s, more than 6.0 s"
    clearance = 10 * phase.clear + phase.yellow + phase.red
    if rule == "V3":
        return f"walk is {phase.walk} s, less than {least_walk(phase)} s"
    if rule == "V4":
        return walked(phase.width, "3.5", -(-2 * phase.width // 7),
                      "clearance, yellow and red", clearance)
    if rule == "V5":
        way = phase.width + phase.setback
        return walked(way, "3", -(-way // 3), "walk, clearance, yellow and red",
                      10 * phase.walk + clearance)
    return lead(phase)


def of_sequence(view, number):
    """What stands where it should not, ring by ring, and else what does not stand once where it
    should."""
    rings = view.sequences[number]
    for ring, it in ((ring, it) for ring in sorted(rings) for it in rings[ring]):
        if it not in view.phases:
            return f"{it} is not in the plan"
        if view.phases[it].ring != ring:
            return f"phase {it} stands in ring {ring}, and is of ring {view.phases[it].ring}"
    for it, phase in view.phases.items():
        stands = rings.get(phase.ring, ()).count(it)
        if stands != 1:
            where = f"is missing in ring {phase.ring}" if stands == 0 else "stands twice"
            return f"phase {it} {where}"
    return None


def of_split(view, split):
    """Why a split row does not fit its phase."""
    phase = view.phases.get(split.phase)
    if phase is None:
        return f"phase {split.phase} is not in the plan"
    if split.mode == 7:
        what = [f"{split.time} s"] * (split.time > 0) + ["coordinated"] * split.coord
        return f"{' and '.join(what)}, and omitted"
    if split.time == 0:
        return "0 s, and not omitted"
    is_called = phase.walk is not None and split.mode in (5, 6)
    walk_is_longer = is_called and phase.walk + phase.clear > phase.lead + phase.min_green
    governs = "walk" if walk_is_longer else "green"
    needed = tenths(need(phase, split.mode))
    return f"{split.time} s, and the need is {needed} s: {governs} governs"


def conflict(view, lanes, cycle):
    """The first second at which two rings may not time together what they have, and the second at
    which one of them goes on."""
    for second in range(cycle):
        for one, other in itertools.combinations(lanes, 2):
            pair = one[second], other[second]
            if not view.list_each_other(*pair):
                together = itertools.takewhile(
                    lambda it: (one[it], other[it]) == pair, range(second, cycle))
                return (f"from second {second} to {max(together) + 1} phases {pair[0]} and "
                        f"{pair[1]} time together and do not list each other")
    return None


def of_pattern(view, pattern, rule):
    """Why a pattern breaks a rule."""
    if rule == "V9" and pattern.sequence not in view.sequences:
        return f"sequence {pattern.sequence} has no row"
    if rule == "V9":
        without = next(it for it in view.phases if (pattern.split, it) not in view.splits)
        return f"split {pattern.split} has no row for phase {without}"
    if rule == "V10":
        return f"offset {pattern.offset} s, cycle {pattern.cycle} s"
    if rule == "V11":
        return f"split {pattern.split} has no coordinated phase of the plan"
    return conflict(view, list(view.lanes(pattern)), pattern.cycle)


def rest(view, pattern, ring, seconds):
    """What is told of a ring that lacks so many seconds, where another ring has just them in splits
    of phases with which none of the ring may time."""
    own = {it for it, phase in view.phases.items() if phase.ring == ring}
    for other in sorted({phase.ring for phase in view.phases.values()} - {ring}):
        beside = [it for it, phase in view.phases.items()
                  if phase.ring == other and not own & {*phase.mates}]
        splits = (view.splits.get((pattern.split, it)) for it in beside)
        if 0 < sum(it.time for it in splits if it) == seconds:
            return (f"; exactly what ring {other} times where this ring has no phase: "
                    f"{' '.join(map(str, beside))}")
    return ""


def other_sums(view, pattern):
    """Each ring whose splits add up to another time than the cycle, with that time."""
    used = sorted({phase.ring for phase in view.phases.values()})
    return [(ring, len(lane)) for ring, lane in zip(used, view.lanes(pattern), strict=True)
            if len(lane) != pattern.cycle]


def why(view, subject, rule):
    """Why a subject breaks a rule: one reason, but of V12 each ring."""
    kind, *numbers = subject.split(" ")
    numbers = tuple(map(int, numbers))
    if kind == "phase":
        return [of_phase(view, view.phases[numbers[0]], rule)]
    if kind == "sequence":
        return [of_sequence(view, numbers[0])]
    if kind == "split":
        return [of_split(view, view.splits[numbers])]
    pattern = view.patterns[numbers[0]]
    if rule == "V12":
        return [f"ring {ring} adds up to {seconds} s, the cycle is {pattern.cycle} s"
                for ring, seconds in other_sums(view, pattern)]
    return [of_pattern(view, pattern, rule)]


def behind(view, subject, rule):
    """What is told behind each reason why a subject breaks a rule."""
    if rule != "V12":
        return [""]
    pattern = view.patterns[int(subject.removeprefix("pattern "))]
    return [rest(view, pattern, ring, pattern.cycle - seconds)
            for ring, seconds in other_sums(view, pattern)]


def explained(plan):
    """A line for each violation of a plan, with its reason."""
    view = View(plan)
    return [f"{it['subject']} {it['rule']}: {reason}{more}" for it in violations(plan)
            for reason, more in zip(why(view, it["subject"], it["rule"]),
                                    behind(view, it["subject"], it["rule"]), strict=True)]
