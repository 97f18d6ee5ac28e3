#!/usr/bin/env python3
"""Finds names that say too little: a name should have one meaning, and say what it is.

    tests/house/names.py              checks the names
    tests/house/names.py --shorten    takes names that are gone off tests/house/standing_names.txt

- A definition has the name of another in a second crate. MEANT lists the names that crates share on
  purpose, with what each says. Fields of records are skipped, and so is what a crate re-exports.
- A function or a definition has a bare participle for a name: `told`, not `told_to_the_clerk`.
- A function has the name of others in more than three crates. Methods that a trait of others asks
  for are skipped, and so is `new`.

tests/house/standing_names.txt lists the names of the last two kinds that stand today. It only gets
shorter: no name is added, and one that is gone is taken off.

Builds nothing. Prints what is wrong, and ends with status 1 then.
"""
import collections
import pathlib
import re
import sys
import textwrap

HERE = pathlib.Path(__file__).resolve().parent
CRATES, STANDING = HERE.parents[1] / "crates", HERE / "standing_names.txt"
MOST = 3  # crates that share the name of a function
PARTICIPLE = re.compile(
    r"[a-z]+(?:ed|ing)|(?:un|re|over|mis)?(?:begun|bought|bound|brought|built|chosen|cut|done|drawn"
    r"|fallen|found|given|gone|held|hidden|kept|known|laid|left|lent|lost|made|meant|met|paid|read"
    r"|seen|sent|shown|spent|spoken|taken|told|understood|won|written)"
)
NO_PARTICIPLES = set(
    "cut read reread deed need ped drawing heading opening setting spelling string timing".split())
FUNCTION = re.compile(r" *(?:pub(?:\([^)]*\))? )?(?:const )?fn (\w+)")
DEFINED = re.compile(
    r"^(?:(?:abbrev|unfoldable|opaque|pub|record|data) )+(?!use |mod )([^\s:(]+)", re.MULTILINE
)
MEANT = {
    "what comes next, where a step found no fault: each crate has faults of its own": "◌>>=◌",
    "a result is the wanted one, unless memory ran out: each crate has faults of its own": "Gives",
    "the number, name and status of a refusal, of each layer": "line_of status_of",
    "a value of a kind at a place, a field or a key, where each reader has it":
        "day_at flag_at row_at list_of number_of phase_in phases_in rows_in body_of",
    "what something is, as columns or texts, of each table, file or page":
        "ped_columns place_of row_of "
        "view_code width_of",
    "what the desk does with a record, of the register and of a plan":
        "Makes row_change_of row_changes_of",
}


def defined():
    """Each name with the files that define it, by their crates."""
    found = collections.defaultdict(dict)
    for file in sorted(CRATES.glob("*/specs/**/*.antt")):
        crate = file.relative_to(CRATES).parts[0]
        for name in DEFINED.findall(file.read_text()):
            found[name].setdefault(crate, set()).add(file.stem)
    return found


def functions():
    """Each name of a function or method with the crates that have one, without those that an impl
    of a trait has."""
    found = collections.defaultdict(set)
    for file in sorted(CRATES.glob("*/src/**/*.rt")):
        is_of_trait = False
        for line in file.read_text().splitlines():
            if line.startswith(("impl", "}")):
                is_of_trait = " for " in line
            if (function := FUNCTION.match(line)) and not is_of_trait:
                found[function[1]].add(file.relative_to(CRATES).parts[0])
    return found


def too_short(definitions):
    """The bare participles and the names of functions that more than MOST crates share."""
    named = functions()
    bare = {name for name in {*named, *definitions} if PARTICIPLE.fullmatch(name)}
    often = {name for name, crates in named.items() if len(crates) > MOST}
    return bare - NO_PARTICIPLES | often - {"new"}


def standing():
    """The names of the list."""
    lines = STANDING.read_text().splitlines()
    return {name for line in lines if not line.startswith("#") for name in line.split()}


def shorten(short):
    """Takes names that are gone off the list."""
    lines = [line for line in STANDING.read_text().splitlines() if line.startswith("#")]
    lines += textwrap.wrap(" ".join(sorted(standing() & short)), 100)
    STANDING.write_text("\n".join(lines) + "\n")


def main():
    definitions = defined()
    short = too_short(definitions)
    if sys.argv[1:] == ["--shorten"]:
        shorten(short)
    elif sys.argv[1:]:
        sys.exit(__doc__)
    shared = {name: crates for name, crates in definitions.items() if len(crates) > 1}
    known, listed = {name for names in MEANT.values() for name in names.split()}, standing()
    told = [f"{name} stands in one crate alone: take it off the list"
            for name in sorted(known - shared.keys())]
    told += [f"{name} is gone: take it off standing_names.txt (tests/house/names.py --shorten)"
             for name in sorted(listed - short)]
    told += [f"{name} says too little: a bare participle, or in more than {MOST} crates"
             for name in sorted(short - listed)]
    for name in sorted(shared.keys() - known):
        places = (f"{crate}/specs/{file}" for crate, files in shared[name].items() for file in files)
        told.append(f"{name} is defined in {', '.join(sorted(places))}")
    print("\n".join(told) if told else "ok")
    sys.exit(bool(told))


if __name__ == "__main__":
    main()
