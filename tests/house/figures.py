#!/usr/bin/env python3
"""Checks the numbers in sentences of the documents against what they speak of: constants, types and
definitions of the sources, the second office's refusals, the tables of docs/MEASUREMENTS.md.

    tests/house/figures.py

A sentence that is no longer found is an error, as is a constant, a type or a definition. Builds
nothing. Prints what is wrong, and ends with status 1 then.
"""
import pathlib
import re
import subprocess
import sys

sys.path.insert(0, str(pathlib.Path(__file__).resolve().parents[1] / "lib"))
from model import refusal

TOP = pathlib.Path(__file__).resolve().parents[2]
CRATES = TOP / "crates"
CONSTANT = re.compile(r"const (\w+): \w+ = ([\d_]+);")
RANGE = re.compile(
    r"(?:type|const) (\w+)(?: = Number<\w+, |: Range = Range\()([\w_]+), ([\w_]+)[>)];")
COMMANDS, HTTP, PLANS, PROOF, FORMAT = (
    f"docs/{it}.md" for it in ("COMMANDS", "HTTP", "PLANS", "PROOF", "FILE-FORMAT"))
ANY = r"([\d,.]+\d|\d)"

# A document, a sentence of it with its numbers in parentheses, and what each of them is: a constant,
# an end of a type's range, an end times or by some number, or a count.
SENTENCES = [
    (COMMANDS, f"\\| ID \\| an intersection, {ANY} to {ANY}", "InterId.low", "InterId.high"),
    (COMMANDS, f"for FILE, 0 to {ANY}; {ANY} if it is left out", "WAITS.high", "USUAL_WAIT"),
    (COMMANDS, f"standard output, at most {ANY}, over", "BATCH_LIMIT"),
    (COMMANDS, f"\\(1 to {ANY}, the default\\)", "COUNTS.high"),
    (COMMANDS, f"every INTERVAL days \\({ANY} to {ANY}\\)", "Interval.low", "Interval.high"),
    (COMMANDS, f"of a pattern \\({ANY} to {ANY}\\)", "PatternNo.low", "PatternNo.high"),
    (COMMANDS, f"at most N \\(1 to {ANY}\\)", "InterId.high"),
    (COMMANDS, f"\\| {ANY} \\| the plan breaks a rule", "HAS_VIOLATIONS"),
    (COMMANDS, f"\\| {ANY} \\| the plans differ", "DIFFERS"),
    (COMMANDS, f"\\| {ANY} \\| the arguments were refused", "WORDS_REFUSED"),
    (FORMAT, f"The version is {ANY}", "VERSION"),
    (FORMAT, f"64 MiB and {ANY} records", "MOST_RECORDS"),
    (HTTP, f"from the first {ANY} bytes, with at most {ANY} fields", "HEAD_LIMIT", "FIELD_LIMIT"),
    (HTTP, f"Content-Length says, at most {ANY} bytes", "LARGEST_BODY"),
    (HTTP, f"no whole head in the first {ANY} bytes", "HEAD_LIMIT"),
    (HTTP, f"the body is longer than {ANY} bytes", "LARGEST_BODY"),
    (HTTP, f"`id`, `{{id}}`: {ANY} to {ANY}", "InterId.low", "InterId.high"),
    (HTTP, f"`interval`: {ANY} to {ANY} days", "Interval.low", "Interval.high"),
    (HTTP, f"`number`, `{{order}}`: {ANY} to {ANY}", "RecordNo.low", "RecordNo.high"),
    (HTTP, f"`line`: {ANY} to {ANY}", "LineNo.low", "LineNo.high"),
    (HTTP, f"`count`: {ANY} to {ANY}", "Amount.low", "Amount.high"),
    (HTTP, f"the revision is {ANY}", "LAST_REVISION"),
    (HTTP, f"more than {ANY} would be on hand", "MOST_ON_HAND"),
    (HTTP, f"each for at most {ANY} requests", "CONNECTION_LIMIT"),
    (HTTP, f"or has had {ANY} answers", "CONNECTION_LIMIT"),
    (HTTP, f"it stays open for {ANY} seconds", "LONGEST_WAIT of from_listener"),
    (HTTP, f"has {ANY} milliseconds", "FIRST_WAIT"),
    (PLANS, f"`phaseNumber`, `splitPhase` \\| {ANY} to {ANY} ", "PhaseNo.low", "PhaseNo.high"),
    (PLANS, f"`sequenceRingNumber` \\| {ANY} to {ANY} ", "RingNo.low", "RingNo.high"),
    (PLANS, f"`patternNumber` \\| {ANY} to {ANY}; {ANY} to {ANY}; {ANY} to {ANY} ", "SeqNo.low",
     "SeqNo.high", "SplitNo.low", "SplitNo.high", "PatternNo.low", "PatternNo.high"),
    (PLANS, f"from curb to curb \\| none \\| {ANY} to {ANY} tenths", "Width.low", "Width.high"),
    (PLANS, f"a pedestrian starts \\| none \\| {ANY} to {ANY} tenths", "Setback.low",
     "Setback.high"),
    (PLANS, f"before the green \\| none [^|]*\\| {ANY} to {ANY} seconds", "Lead.low", "Lead.high"),
    (PLANS, f"`patternCycleTime` \\| {ANY} to {ANY} seconds", "Cycle.low", "Cycle.high"),
    (PLANS, f"at revision {ANY};", "LAST_REVISION"),
    (PLANS, f"more than {ANY} on hand", "MOST_ON_HAND"),
    ("docs/ARCHITECTURE.md", f"its buffer of {ANY} bytes", "BUFFER_LEN"),
    ("docs/OPERATING.md", f"After {ANY} connections", "COUNTS.high"),
    ("docs/OPERATING.md", f"waits for its turn, {ANY} seconds at most", "USUAL_WAIT"),
    ("docs/OPERATING.md", f"or as many as `--wait SECONDS` says \\(0 to {ANY}\\)",
     "WAITS.high"),
    ("docs/OPERATING.md", f"within {ANY} bytes, more than {ANY} bytes of body", "HEAD_LIMIT",
     "LARGEST_BODY"),
]

# A definition as it stands in specs/, and the places of docs/PLANS.md that have its numbers, in the
# definition's order; # stands for a number.
DEFINITIONS = [
    ("yellow_is_right phase = nat_le (30) phase.yellow && nat_le phase.yellow (60)",
     "V1 (phase): yellow is # to #"),
    ("red_is_right phase = nat_le phase.red (60)", "V2 (phase): red is at most #"),
    ("least_walk ped = if ped.short then (4) else (7)",
     "or at least # with `short`", "V3 (phase with pedestrian): walk is at least #,"),
    ("clearance phase ped = (10) * ped.clear", "V4 (phase with pedestrian): `7 * (#*clear"),
    ("clears_crossing phase ped = nat_le ((2) * ped.width) ((7) * clearance phase ped)",
     ">= # * width`", "V4 (phase with pedestrian): `# *"),
    ("nat_le (ped.width + ped.setback) ((3) * ((10) * ped.walk + clearance phase ped))",
     "V5 (phase with pedestrian): `# * (#*walk"),
    ("(not (ped.lead == 0) && nat_lt ped.lead (3)", "lead is 0, or at least # and"),
]


def plain(text):
    """A text in one line."""
    return " ".join(text.split())


def known():
    """Each constant and each end of a type's range, by its name and by name and place."""
    found = {}
    for path in sorted(CRATES.glob("*/src/**/*.rt")):
        places = ("", f" of {path.parts[len(CRATES.parts)]}", f" of {path.stem}")
        text = path.read_text()
        ends = [(name, end) for name, *both in RANGE.findall(text)
                for end in zip((".low", ".high"), both)]
        pairs = CONSTANT.findall(text) + [(name + side, value) for name, (side, value) in ends]
        for name, value in pairs:
            for place in places:
                found.setdefault(name + place, set()).add(value.replace("_", ""))
    return found


def value_of(name, values):
    """What a name stands for; a range may end at a constant."""
    while name in values and len(values[name]) == 1:
        name = next(iter(values[name]))
    return name


def wrong_sentences():
    values, texts = known(), {}
    for document, sentence, *names in SENTENCES:
        text = texts.setdefault(document, plain((TOP / document).read_text()))
        found = re.search(sentence, text)
        if not found:
            yield f"{document} has no sentence {sentence!r}"
            continue
        for shown, name in zip(found.groups(), names):
            value = value_of(name, values)
            if shown.replace(",", "") != value:
                yield f"{document}: {found[0]!r}, and {name} is {value}"


def wrong_definitions():
    """Each rule whose numbers are others in docs/PLANS.md than in its definition."""
    specs = plain("\n".join(it.read_text() for it in CRATES.glob("*/specs/**/*.antt")))
    plans = plain((TOP / PLANS).read_text())
    for definition, *sentences in DEFINITIONS:
        numbers = re.findall(r"\((\d+)\)", definition)
        if re.sub(r"\((\d+)\)", r"\1", definition) not in specs:
            yield f"no definition says {definition!r}"
        found = []
        for sentence in sentences:
            came = re.search(re.escape(sentence).replace(r"\#", ANY), plans)
            found += came.groups() if came else [f"no {sentence!r}"]
        if found != numbers:
            yield f"PLANS.md has {', '.join(found)}, and {definition!r}"


def wrong_refusals():
    """Each refusal of docs/HTTP.md whose number, name or status the second office or the program
    does not have."""
    text = (TOP / HTTP).read_text()
    shown = {int(number): (name, int(status)) for number, name, status
             in re.findall(r"^\| (\d+) (\w+) \| (\d+) \|", text, re.MULTILINE)}
    statuses = {number: int(it.split()[0]) for it, all_of in refusal.STATUSES.items()
                for number in all_of}
    wanted = {number: (name, statuses[number]) for number, name in refusal.NAMES.items()}
    wanted |= {90: ("Unavailable", 503), 91: ("Damaged", 500)}
    code = "\n".join(it.read_text() for it in CRATES.glob("*/src/**/*.rt"))
    for number in sorted({*shown, *wanted}):
        if shown.get(number) != wanted.get(number):
            yield f"HTTP.md has refusal {number} as {shown.get(number)}, not {wanted.get(number)}"
        elif not re.search(rf'\({number}, "{wanted[number][0]}"', code):
            yield f"the program has no refusal {number} {wanted[number][0]}"


def wrong_measurements():
    """What README.md says of measured times, where docs/MEASUREMENTS.md has others."""
    readme = plain((TOP / "README.md").read_text())
    text = plain((TOP / "docs/MEASUREMENTS.md").read_text())
    took = re.search(r"the trial took (\d+) minutes and the full build (\d+)", readme)
    gate = re.search(r"runs the scripts of\s+`tests/`: (\d+) minutes", readme)
    first = re.search(r", 4 processors of [^|]*\|[^|]*\| ([\d.]+) min .*?\| (\d+) min \|", text)
    builds = [f"{float(first[1]):.0f}", first[2]]
    if not took or not gate:
        yield "README.md does not say how long the first build and the gate took"
    elif [*took.groups()] != builds:
        yield f"README.md says {took[0]!r}, and MEASUREMENTS.md has {', '.join(builds)}"
    elif f"{gate[1]} min by the clock" not in text:
        yield f"README.md says {gate[0]!r}, and MEASUREMENTS.md has another time of the gate"


def counts():
    """What docs/PROOF.md counts: a sentence with its number, and today's."""
    lines = (TOP / "docs/MEASUREMENTS.md").read_text().partition("<!-- lines: end -->")[0]
    code, _, specs, proofs = (
        int(it.replace(",", "")) for it in re.search("together (.*)", lines)[1].split()[:4])
    bodies = len([*CRATES.glob("*/must-fail/*.edit")])
    ran = subprocess.run([TOP / "tools/calls.py", "--without"], capture_output=True, text=True)
    without, calls = map(int, re.match(r"(\d+) of (\d+) calls", ran.stdout).groups())
    yield f"{ANY} crates have", len([*CRATES.iterdir()])
    yield f"have {ANY} lines of code", code
    yield f"code, {ANY} of definitions", specs
    yield f"definitions and {ANY} of proofs", proofs
    yield f"contract: {ANY} of", calls - without
    yield f"contract: [0-9]+ of {ANY} public ones", calls
    yield f"{ANY} wrong bodies", len([*CRATES.glob("*/wrong-bodies/*.edit")]) + bodies
    yield f"The gate tries {ANY}", bodies
    yield f"{ANY} worked rows", len([*(TOP / "tests/rows").glob("*.row")])


def wrong_counts():
    """Each count of docs/PROOF.md that is too great, or by more than a tenth too small."""
    text = plain((TOP / PROOF).read_text())
    for sentence, wanted in counts():
        found = re.search(sentence, text)
        if not found:
            yield f"{PROOF} has no sentence {sentence!r}"
        elif not int(found[1].replace(",", "")) <= wanted <= 1.1 * int(found[1].replace(",", "")):
            yield f"{PROOF}: {found[0]!r}, and there are {wanted}"


def main():
    if sys.argv[1:]:
        sys.exit("figures.py: it takes no words")
    wrong = [*wrong_sentences(), *wrong_definitions(), *wrong_refusals(), *wrong_measurements(),
             *wrong_counts()]
    print("\n".join(wrong) if wrong else "ok")
    sys.exit(1 if wrong else 0)


main()
