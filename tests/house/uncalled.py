#!/usr/bin/env python3
"""Finds public functions and methods that no code but tests calls.

    tests/house/uncalled.py

Code is what stands in `src` of a crate that is no test. A free function is called where its name
stands in other code, a method where it stands behind a dot, its type or a type parameter: so one
may hide behind another method of its name. What `office_lives` shows are laws, which nothing calls.
MEANT lists the other functions that stay for those who use a library, with the reason.

Builds nothing, and takes a second. Prints each other function that nothing calls, and ends with
status 1 then, or if a listed one is called or gone.
"""
import collections
import pathlib
import re
import sys

sys.path.insert(0, str(pathlib.Path(__file__).resolve().parents[1] / "lib"))
import sources

CRATES = pathlib.Path(__file__).resolve().parents[2] / "crates"
CODE = sorted(set(sources.crates()[0]) - sources.TESTS)
LAWS = "office_lives"
MEANT = {
    "laws over two calls, and what a plan means":
        "one_front one_list_of_requests is_fit_however_called",
    "a list of phases by its numbers, for a caller that has no row": "PhaseList::new",
    "commands that are run in turn whatever they are answered, of which laws speak":
        "Office::run_all",
    "the office on a listener of the system, for a server of one's own": "serve_on",
    "a command that is made of its record, for a caller that has one":
        "Command::inspect Command::open_order Command::use_part Command::close_order "
        "Command::receive",
    "how many rows were written, for a caller that counts them": "Shelf::writes",
}
CALL = re.compile(r"( *)(pub )?(?:const )?fn (\w+)")
WORD = re.compile(r"(\.|\b\w+(?:::<[^;()]*>)?::|fn )?\b([a-z_]\w*)\b")
TEXTS = (r"b?'(?:[^'\\]|\\.)'", r'b?"(?:[^"\\]|\\.)*"', r"//[^\n]*",
         r"(?m)^ *(?:pub )?use [^;]*;")


def code_of(text):
    """Code without texts, remarks, imports and clauses, line for line."""
    for of in TEXTS:
        text = re.sub(of, lambda it: "\n" * it[0].count("\n"), text, flags=re.S)
    lines, depth = [], 0
    for line in text.splitlines():
        if depth or re.match(r" *(?:ghost|requires|ensures)\b", line):
            depth += line.count("{") - line.count("}")
            line = ""
        lines.append(line)
    return lines


def owner_of(line):
    """The type or public trait whose functions begin with this line; none if another trait asks
    for them, or the trait is private."""
    trait = re.match(r"(pub )?trait (\w+)", line)
    if trait:
        return trait[2] if trait[1] else None
    head = re.sub(r"<[^<>]*>", "", re.sub(r"<[^<>]*>", "", line))
    return None if " for " in head else re.match(r"impl\W*(\w+)", head)[1]


def public(lines):
    """The public functions of a file, each with the type or trait before its name."""
    owner, is_trait = "", False
    for line in lines:
        if line.startswith("}"):
            owner, is_trait = "", False
        elif re.match(r"impl\b|(?:pub )?trait ", line):
            owner, is_trait = owner_of(line), "trait " in line
        call = CALL.match(line)
        if call and (call[2] or is_trait) and owner is not None:
            yield (owner if call[1] else "", call[3])


def fronts_of(lines):
    """How often each name stands in code behind each front: a dot, a type, a module, or none."""
    found = collections.defaultdict(collections.Counter)
    for front, name in WORD.findall("\n".join(lines)):
        found[name][re.sub(r"::.*", "", front)] += 1
    return found


def is_called(owner, fronts):
    """Whether a function is called that stands at these fronts."""
    if not owner:
        return any(front != "fn " for front in fronts)
    return any(front in (".", owner, "Self") or re.fullmatch("[A-Z]", front) for front in fronts)


def main():
    files = {file: code_of(file.read_text())
             for crate in CODE for file in sorted((CRATES / crate / "src").rglob("*.rt"))}
    used = fronts_of(line for lines in files.values() for line in lines)
    known, told = {it for names in MEANT.values() for it in names.split()}, []
    for file, lines in files.items():
        crate = file.relative_to(CRATES).parts[0]
        for owner, name in public(lines) if crate != LAWS else ():
            if not is_called(owner, used[name]):
                told.append((crate, f"{owner}::{name}" if owner else name))
    wrong = [f"nothing calls {name} of {crate}" for crate, name in told if name not in known]
    wrong += [f"{name} is called or gone: take it off the list"
              for name in sorted(known - {name for _, name in told})]
    print("\n".join(wrong) if wrong else "ok")
    sys.exit(bool(wrong))


if __name__ == "__main__":
    main()
