"""What two plans differ in: a line for each key, or the changes that make the second of the first."""
from . import fields
from .plan import ORDER, spelled

# The names of a row's fields behind its key.
NAMES = {
    "phase": ["ring", "minGreen", "passage", "max1", "yellow", "red", "mates", "walk", "clear",
              "width", "setback", "short", "lead"],
    "seq": ["phases"],
    "split": ["time", "mode", "coord"],
    "pattern": ["cycle", "offset", "split", "sequence"],
}


def differing(before, after):
    """The keys at which two plans have other rows, in order."""
    return [key for key in sorted({*before, *after}) if before.get(key) != after.get(key)]


def key_fields(key):
    """A key as it stands at the front of its row."""
    return [ORDER[key[0]], *map(str, key[1:])]


def changed_fields(key, before, after):
    """Each field that two rows of a key do not share, by its name; a dash where it is empty or
    missing."""
    front = len(key_fields(key))
    one, other = ([*spelled(key, row)[front:], *[""] * 13] for row in (before, after))
    return [f"{name} {a or '-'} > {b or '-'}"
            for name, a, b in zip(NAMES[ORDER[key[0]]], one, other) if a != b]


def line(key, before, after):
    """What stands at a key of one plan and of the other."""
    if before is None:
        return "+ " + ",".join(spelled(key, after))
    if after is None:
        return "- " + ",".join(spelled(key, before))
    return f"~ {','.join(key_fields(key))}: {', '.join(changed_fields(key, before, after))}"


def text(before, after):
    """A line for each difference, or that there is none."""
    lines = [line(key, before.get(key), after.get(key)) for key in differing(before, after)]
    return "".join(f"{it}\n" for it in lines) or "no differences\n"


def changes(before, after):
    """The records that turn one plan into the other."""
    return [spelled(key, after[key]) if key in after else ["remove", *key_fields(key)]
            for key in differing(before, after)]


def csv(before, after):
    """These records as CSV."""
    return fields.write_csv(changes(before, after))
