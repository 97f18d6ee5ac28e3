"""Drawn plans, with reasons and warnings and without, and the pictures of their patterns: what the
program prints must be what the model says.

Most plans break some rule, since rows of a good plan are changed. It is told how often each rule
was broken, each reason given and each warning told; each of them must come up.
"""
import collections
import concurrent.futures
import csv
import io
import os
import random
import re
import subprocess
import sys
import tempfile

from model import pictures, planning, rows, rules

KEPT = 3  # a plan in so many is verified as it was drawn
PLAIN = 10  # a plan in so many is verified without reasons too
DRAWN = 10  # the patterns of a plan in so many are drawn
BREAKS = 3  # the status where a plan breaks a rule
# What each rule may be told for, with a mark for each number. That a phase stands twice can't come
# alone: within a list phases are distinct, and in the row of another ring that is told first.
REASONS = """\
V1: yellow is # s, not # to # s
V2: red is # s, more than # s
V3: walk is # s, less than # s
V4: # ft at # ft/s take # s; clearance, yellow and red are # s
V5: # ft at # ft/s take # s; walk, clearance, yellow and red are # s
V6: mate # is not in the plan
V6: mate # is in ring # too
V6: mate # does not list it
V7: phase # is missing in ring #
V7: phase # stands in ring #, and is of ring #
V7: # is not in the plan
V8: # s, and the need is # s: green governs
V8: # s, and the need is # s: walk governs
V8: phase # is not in the plan
V8: # s, and not omitted
V8: # s, and omitted
V8: # s and coordinated, and omitted
V8: coordinated, and omitted
V9: sequence # has no row
V9: split # has no row for phase #
V10: offset # s, cycle # s
V11: split # has no coordinated phase of the plan
V12: ring # adds up to # s, the cycle is # s
V13: from second # to # phases # and # time together and do not list each other
V14: lead is # s, less than # s
V14: lead is # s, longer than the walk of # s""".splitlines()

# What is told of a plan besides.
WARNINGS = """\
the maximum green is # s, less than the minimum green of # s
the minimum green is # s
no phase may time with it, and the plan has # rings
no pattern serves it
the crossing of # ft has a clearance of # s
the width of the crossing is # ft, not measured
if a button calls the walk, # s are needed, the split has # s: walk and clearance are # s too long
if a button calls the walk, # s are needed, the split has # s: lead and minimum green are # s too long
the mode calls the walk of a phase that has no crossing
coordinated without a second of green: the split has # s, and lead, yellow and red are # s
each of the # phases is coordinated
phases # and # are coordinated and do not time together
# phases, and no pattern
each phase may time with every phase of the other rings: none of the # rings waits for another\
""".splitlines()


def drawn(seed):
    """The text of a plan in a file."""
    dice = random.Random(f"plans {seed}")
    plan_rows = planning.draw_plan(dice)
    changed = plan_rows if seed % KEPT == 0 else [*plan_rows, *swapped(dice, plan_rows)]
    text = io.StringIO()
    csv.writer(text, lineterminator="\n").writerows(changed)
    return text.getvalue()


def swapped(dice, plan_rows):
    """A few changes of a plan: rows changed in one field, a split row that omits its phase, or the
    phases of two rows of a sequence exchanged, so that they stand in a ring that is not theirs."""
    changes = planning.draw_changes(dice, plan_rows)[:dice.choice((1, 1, 2, 6))]
    if dice.random() < 0.1:
        split = dice.choice([row for row in plan_rows if row[0] == "split"])
        changes.append([*split[:3], "0", "7", split[5]])
    rings = [row for row in plan_rows if row[0] == "seq"]
    if len(rings) > 1 and dice.random() < 0.1:
        one, other = dice.sample(rings, 2)
        changes += [[*one[:3], other[3]], [*other[:3], one[3]]]
    return changes


def verified(program, path, *flags):
    """What the program prints of a file, and its status."""
    ran = subprocess.run([program, "verify-file", *flags, path], capture_output=True)
    return (ran.stdout + ran.stderr).decode().splitlines(), ran.returncode


def misdrawn(program, path, text):
    """What is wrong with the picture of a pattern of a plan, if anything is."""
    made = rows.plan_of(text)
    for number in sorted(rules.View(made).patterns):
        ran = subprocess.run([program, "diagram", "--file", path, str(number)], capture_output=True)
        came = ran.stdout.decode(), ran.returncode
        if came != (pictures.picture(made, number), 0):
            return f"the picture of pattern {number}:\n{text}{came[0]}"
    return None


def differs(program, folder, seed):
    """The lines that are told of a plan, and what is wrong with them, if anything is."""
    text = drawn(seed)
    path = os.path.join(folder, str(seed))
    with open(path, "w") as file:
        file.write(text)
    for flags in (("--explain", "--advise"), ())[:2 if seed % PLAIN == 0 else 1]:
        wanted = rows.verified(text, flags)
        status = 0 if wanted[0] == "no violations" else BREAKS
        came = verified(program, path, *flags)
        if came != (wanted, status):
            return [], f"plan {seed}, {flags}:\n{text}told {wanted}, {status}\ncame {came}"
        told = [it for it in wanted if not it.startswith("note: ")] if flags else told
    wrong = misdrawn(program, path, text) if seed % DRAWN == 0 else None
    os.remove(path)
    return told, wrong and f"plan {seed}, {wrong}"


def marked(text):
    """A text with a mark for each number."""
    return re.sub(r"[0-9]+([.][0-9]+)?", "#", text)


def reason(line):
    """The rule and the reason of a line, or its warning, with a mark for each number."""
    if line.startswith("warning: "):
        return marked(line.split(": ", 2)[2])
    rule, _, why = line.rpartition(" V")[2].partition(": ")
    return f"V{rule}: {marked(why)}"


def compare(program, seed, count):
    """Draws the plans, and has each of them verified."""
    first, tally, whole = seed * 1_000_000, collections.Counter(), 0
    with tempfile.TemporaryDirectory() as folder, concurrent.futures.ThreadPoolExecutor() as pool:
        tried = pool.map(lambda it: differs(program, folder, first + it), range(count))
        for told, wrong in tried:
            if wrong:
                pool.shutdown(cancel_futures=True)
                sys.exit(f"plans: {wrong}")
            whole += "no violations" in told
            tally.update(reason(it) for it in told if it != "no violations")
    for it in [*REASONS, *WARNINGS]:
        print(f"{tally[it]:7} {it}")
    missing = [it for it in [*REASONS, *WARNINGS] if not tally[it]]
    if missing and count >= 20_000:
        sys.exit(f"plans: these did not come: {missing}")
    print(f"{count} drawn plans, {whole} break no rule: the program tells what the model does, and "
          f"draws the patterns of one in {DRAWN} as it does")
