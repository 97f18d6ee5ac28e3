"""The crates of this repository as crates.txt lists them, and their files of definitions."""
import pathlib
import re

TOP = pathlib.Path(__file__).resolve().parents[2]
CRATES = TOP / "crates"
# Crates of tests alone; `office_lives` has laws.
TESTS = {"signal_core_tests", "office_calls", "office_trials"}
CITED = re.compile(r"\bRattle\.(\w+)\.specs\.?([\w.]*?)\.?\{([^}]*)\}")


def lines():
    """Each crate with its layer, what it is for, and the words of its line."""
    layer, remark = "", ""
    for line in (TOP / "crates.txt").read_text().splitlines():
        name, colon, words = line.partition(":")
        if line.startswith("## "):
            layer = line[3:]
        elif line.startswith("#"):
            remark = line.lstrip("# ")
        elif colon:
            yield name.strip(), layer, remark, words.split()


def crates():
    """Each crate with the crates of this repository that its line names, and what it is for."""
    named = {name: words for name, _, _, words in lines()}
    remarks = {name: remark for name, _, remark, _ in lines()}
    return {name: [it for it in words if it in named] for name, words in named.items()}, remarks


def files():
    """Each file of definitions, lowest crate first; a list of modules holds none."""
    for crate in crates()[0]:
        for path in sorted((CRATES / crate / "specs").rglob("*.antt")):
            if path.name != "Lib.antt":
                yield crate, path


def first_comment(text):
    """The comment that a file begins with, without its marks."""
    lines = text.splitlines()
    end = next((at for at, it in enumerate(lines) if not it.startswith("--")), len(lines))
    return " ".join(it.lstrip("- ").strip() for it in lines[:end])


def without_comment():
    """The files of definitions that say nothing of what they define."""
    return [f"{crate}/specs/{path.stem}" for crate, path in files()
            if not first_comment(path.read_text())]


def cited(text):
    """What a text takes from definitions: the crate, the file and the name that the text gives each.
    An import names one file, or several, each before a dot."""
    for crate, head, names in CITED.findall(text):
        for name in filter(None, map(str.strip, names.split(","))):
            path, _, alias = name.partition(" as ")
            file, *below = [*filter(None, head.split(".")), *path.split(".")]
            if len(below) == 1:
                yield crate, file, alias or below[0]
