#!/usr/bin/env python3
"""Checks that what definitions, contracts and proofs import of this repository is there.

    tests/house/imports.py

Each file that an import names must exist, in the crate itself or in one that it uses, and the name
must be defined in it, publicly if the crate is another. What is made of the sources (`declared`,
`contracts`, the goals of a proof) is skipped. A check finds the same, but only after it has proved
the crates below.

Builds nothing. Prints what is wrong, and ends with status 1 then.
"""
import functools
import pathlib
import re
import sys

sys.path.insert(0, str(pathlib.Path(__file__).resolve().parents[1] / "lib"))
import sources

CRATES = pathlib.Path(__file__).resolve().parents[2] / "crates"
IMPORT = re.compile(
    r"^ *(?:pub )?(?:ghost )?use Rattle\.(\w+)\.(specs|proofs)([^;\n]*)", re.MULTILINE
)
MADE = {"declared", "contracts", "Goals", "Given"}  # modules that a check makes of the sources
KINDS = r"(?:(?:abbrev|unfoldable|opaque|record|data|ruleset) )*"


def split(text):
    """The items of a list in braces, each without the name that it gets."""
    return [item.strip().split(" as ")[0] for item in text.split(",") if item.strip()]


def paths(rest):
    """What an import leads to: each a list of the names of its path below `specs` or `proofs`."""
    head, brace, items = rest.strip().strip(".").partition("{")
    front = [it for it in head.split(" as ")[0].strip(".").split(".") if it]
    if not brace:
        return [front]
    return [[*front, *item.split(".")] for item in split(items.rpartition("}")[0])]


@functools.cache
def library(crate, part):
    """The text of the file that names the others."""
    file = CRATES / crate / part / "Lib.antt"
    return file.read_text() if file.is_file() else ""


@functools.cache
def module(crate, part, path):
    """The text of a file of definitions or lemmas, of the crate or handed on by it; else none."""
    file = (CRATES / crate / part).joinpath(*path).with_suffix(".antt")
    if not path or file.is_file():
        return file.read_text() if path else None
    handed = rf"^pub use Rattle\.(\w+)\.(\w+)\.([\w.]*\b{re.escape(path[0])})$"
    found = re.search(handed, library(crate, part), re.MULTILINE)
    return module(found[1], found[2], (*found[3].split("."), *path[1:])) if found else None


@functools.cache
def defines(text, name, is_public):
    """Whether a text defines a name, or hands it on."""
    public = "pub " if is_public else "(?:pub )?"
    word = re.escape(name)
    defined = rf"^ *{KINDS}{public}{KINDS}{word}\s"
    variant = rf"^  (?:\S+ )*{word}(?: \S+)* : "
    handed = rf"^pub use .*[.{{ ]{word}(?:[,}}\s]|$)"
    return any(re.search(it, text, re.MULTILINE) for it in (defined, variant, handed))


def is_there(crate, part, path, is_own):
    """Whether a path leads to a file, or to a name that a file defines; of another crate, to one
    that is public."""
    if not is_own and re.search(rf"^mod {path[0]}$", library(crate, part), re.MULTILINE):
        return False
    if module(crate, part, tuple(path)) is not None:
        return True
    text = module(crate, part, tuple(path[:-1]))
    return text is not None and defines(text, path[-1], not is_own)


def wrong(file, own, named):
    """What is wrong with the imports of a file."""
    for found in IMPORT.finditer(file.read_text()):
        crate, part, rest = found.groups()
        if crate not in named or not rest.startswith("."):
            continue
        if crate != own and crate not in named[own]:
            yield f"crates.txt does not name {crate} for {own}"
            continue
        of_files = (it for it in paths(rest) if it[0][0].isupper() and not MADE & {it[0], it[-1]})
        for path in of_files:
            if not is_there(crate, part, path, crate == own):
                yield f"{crate}.{part}.{'.'.join(path)} is not there"


def main():
    named, _ = sources.crates()
    told = []
    for own in named:
        parts = (CRATES / own / it for it in ("src", "specs", "proofs"))
        files = (file for part in parts for file in part.rglob("*"))
        for file in sorted(it for it in files if it.suffix in (".rt", ".antt")):
            told += [f"{file.relative_to(CRATES)}: {it}" for it in wrong(file, own, named)]
    print("\n".join(told) if told else "ok")
    sys.exit(bool(told))


if __name__ == "__main__":
    main()
