#!/usr/bin/env python3
"""Lists each public call of the libraries with its clauses, and the files of the definitions that
these name.

    tools/calls.py [CRATE..]      by default of all crates of libraries
    tools/calls.py CALL..         where a call is, public or not, and its clauses: office_http::serve
    tools/calls.py --without      how many calls have no clause, and which

A call is a `pub fn`, a method of a `pub trait`, or a method of an impl of a trait that states a
named clause. Private functions are left out. Clauses stand in lower case, files of `specs/`
capitalized: those of other crates only if a call's own crate has none. A clause without a name is
not listed; `none` is a call without any. A `*` marks what the caller must show before the call. A
trait's methods apply to each of its types. Calls of one type that say the same share a line. Builds
nothing.
"""
import dataclasses
import pathlib
import re
import sys

sys.path.insert(0, str(pathlib.Path(__file__).resolve().parents[1] / "tests" / "lib"))
import sources

TOP = pathlib.Path(__file__).resolve().parent.parent
MAIN, WIDTH = "signal_office_main", 34
CALL = re.compile(r"( *)(pub )?(?:pub\([^)]*\) )?(?:const )?fn (\w+)")
CLAUSE = re.compile(r" *(ensures|requires)(?: (\w+))? (\{.*)")
OWN = sources.crates()[0]


@dataclasses.dataclass
class Call:
    owner: str
    name: str
    is_public: bool
    line: int
    clauses: list = dataclasses.field(default_factory=list)  # ensures or requires, name, text

    def is_shown(self, kind):
        """It is public, of a public trait, or states a named clause beside those of its trait."""
        states = kind == "trait impl" and any(name for _, name, _ in self.clauses)
        return self.is_public or kind == "trait" or states

    def named(self):
        """The clauses by name, those of what the caller must show with a star."""
        named = [(name or "*" * (kind == "requires")) + "*" * (kind == "requires" and bool(name))
                 for kind, name, _ in self.clauses]
        return [*dict.fromkeys(filter(None, named))]


def owner_of(line):
    """The type or trait whose calls begin with this line, and what it is."""
    trait = re.match(r"(pub )?(?:pub\([^)]*\) )?trait (\w+)", line)
    if trait:
        return trait[2], "trait" if trait[1] else "private trait"
    depth, at = 0, len("impl")
    while line[at:at + 1] == "<" or depth:
        depth += {"<": 1, ">": -1}.get(line[at], 0)
        at += 1
        if not depth:
            break
        while line[at] not in "<>":
            at += 1
    kind = "trait impl" if " for " in line else "impl"
    return re.match(r"\W*(\w+)", line[at:].split(" for ")[-1])[1], kind


def calls_in(text, all_of_them=False):
    """The calls of a file that the page shows, or all of them, each with its clauses."""
    owner, kind, found, open_clause, depth = "", "", [], None, 0
    for at, line in enumerate(text.splitlines(), 1):
        if open_clause is not None:
            open_clause[2] += "\n" + line
            depth += line.count("{") - line.count("}")
            open_clause = open_clause if depth > 0 else None
            continue
        if line.startswith("}"):
            owner, kind = "", ""
        elif re.match(r"impl\b|(?:pub(?:\([^)]*\))? )?trait ", line):
            owner, kind = owner_of(line)
        call, clause = CALL.match(line), CLAUSE.match(line)
        if call:
            owned = owner if call[1] else ""
            found.append((Call(owned, call[3], bool(call[2]), at), kind))
        elif clause and found:
            said = [clause[1], clause[2], clause[3]]
            found[-1][0].clauses.append(said)
            depth = clause[3].count("{") - clause[3].count("}")
            open_clause = said if depth > 0 else None
    return [call for call, kind in found if all_of_them or call.is_shown(kind)]


def definitions_of(text, crate):
    """For each name that a file takes from definitions, the file where it is defined."""
    found = {}
    for of, file, name in sources.cited(text):
        place = file if of == crate else f"{of}/{file}"
        found[name] = place if of in OWN else None
    return {name: place for name, place in found.items() if place}


def found_in(crate):
    """What each call of a crate says, by its type or trait and its name."""
    found = {}
    for path in sorted((TOP / "crates" / crate / "src").rglob("*.rt")):
        text = path.read_text()
        files = definitions_of(text, crate)
        for call in calls_in(text):
            words = {word for _, _, said in call.clauses for word in re.findall(r"[\w◌]+", said)}
            places = sorted({files[word] for word in words if word in files})
            key = call.owner, call.name
            if key in found and not call.owner:
                key = path.stem, call.name
            said = call.named() if call.clauses else ["none"]
            own = [it for it in places if "/" not in it]
            found[key] = " ".join([*said, *(own or places)])
    return found


def shown(crate):
    """The lines of a crate's calls. Calls of one type that say the same share a line."""
    groups = {}
    for (owner, name), said in sorted(found_in(crate).items()):
        groups.setdefault((owner, said), []).append(name)
    for (owner, said), names in groups.items():
        listed = names[0] if len(names) == 1 else f"{{{','.join(names)}}}"
        name = f"{owner}::{listed}" if owner else ", ".join(names)
        yield f"    {name:{WIDTH}} {said}".rstrip()


def file_of(word, place, crate):
    """The path of the file in which a definition is that a file named so has or hands on."""
    *other, name = place.split("/")
    path = pathlib.Path("crates", other[0] if other else crate, "specs", f"{name}.antt")
    defined = re.compile(rf"^(?:abbrev|pub|record|data)\b[ \w]*\b{word}\b", re.MULTILINE)
    if (TOP / path).exists() and defined.search((TOP / path).read_text()):
        return path
    for it in sorted((TOP / "crates").glob(f"*/specs/{name}.antt")):
        if defined.search(it.read_text()):
            return it.relative_to(TOP)
    return path


def clauses_of(asked):
    """The calls of a name, each with its place, its clauses, and where what they name is."""
    *owners, name = asked.split("::")
    for crate in libraries():
        for path in sorted((TOP / "crates" / crate / "src").rglob("*.rt")):
            text = path.read_text()
            files = definitions_of(text, crate)
            for it in calls_in(text, True):
                if it.name != name or not {*owners} <= {crate, path.stem, it.owner}:
                    continue
                said = [f"    {kind} {label or ''} {text}".replace("  {", " {")
                        for kind, label, text in it.clauses]
                words = {word for line in said for word in re.findall(r"[\w◌]+", line)}
                places = [f"    {word}: {file_of(word, files[word], crate)}"
                          for word in sorted(words) if word in files]
                head = f"{path.relative_to(TOP)}:{it.line}: {'::'.join(filter(None, (it.owner, name)))}"
                yield "\n".join([head, *(said or ["    no clause"]), *places, ""])


def libraries():
    """The crates whose calls others use."""
    return [it for it in sources.crates()[0] if it not in sources.TESTS and it != MAIN]


def listed(crates):
    for crate in crates:
        if lines := [*shown(crate)]:
            yield "\n".join([crate, *lines, ""])


def without_clause():
    """How many calls have no clause, of how many, and which."""
    found = [item for crate in libraries() for item in found_in(crate).items()]
    none = ["::".join(filter(None, key)) for key, said in found if said == "none"]
    return f"{len(none)} of {len(found)} calls have no clause: {', '.join(none)}"


def main():
    words, known = sys.argv[1:], libraries()
    if words == ["--without"]:
        print(without_clause())
    elif calls := [it for it in words if it not in known]:
        found = {it: [*clauses_of(it)] for it in calls}
        if wrong := [it for it in calls if not found[it]]:
            sys.exit(f"calls.py: {', '.join(wrong)}: neither a crate of a library nor a call")
        print("\n".join(text for it in calls for text in found[it]), end="")
    else:
        print("\n".join(listed(words or known)), end="")


if __name__ == "__main__":
    main()
