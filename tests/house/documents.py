#!/usr/bin/env python3
"""Checks that the documents name what is there.

    tests/house/documents.py

- docs/layers.svg is what tools/drawing.py draws, docs/openapi.json what tests/house/openapi.py
  makes, and the manual page, the completions and the synopses of docs/COMMANDS.md what
  tests/house/words.py makes of packaging/help.txt; each file of definitions begins with a comment.
- Each script of a drawer stands in the README.md of the drawer.
- docs/PROOF.md and docs/ARCHITECTURE.md: each name in the sources' spelling is a word of the
  sources, and each file or definition is where it is said to be.
- In all documents: each link leads somewhere, each file named by its path is there, no line passes
  100 columns but in tables, and nothing is named that a reader does not have. The first line says
  whom the document is for, and no document says in so many words what another says. README.md has
  at most 200 lines. README.md and docs/PROOF.md have one headline, and where its exact sentence
  stands it is that of docs/PROOF.md.
- Each command that a document shows is one of the program, docs/COMMANDS.md has each of them,
  docs/HTTP.md has each route, and docs/OPERATING.md names each fault.
- The version of the program is the newest one of CHANGELOG.md.
- The code that docs/CONTRACTS.md and CONTRIBUTING.md show is that of the sources.
- No line of crates.txt names a crate of this repository that its crate does not use.

Builds nothing. Prints what is wrong, and ends with status 1 then.
"""
import pathlib
import re
import sys

sys.path.insert(0, str(pathlib.Path(__file__).resolve().parents[1] / "lib"))
import openapi
import sources
import version
import words as program_words
from making import picture

TOP = pathlib.Path(__file__).resolve().parents[2]
DOCUMENTS = [TOP / "README.md", TOP / "CONTRIBUTING.md", TOP / "CHANGELOG.md"]
DOCUMENTS += [*sorted((TOP / "docs").glob("*.md")), TOP / "examples" / "README.md"]
DRAWERS = [TOP / it for it in ("tests/program", "tests/house", "tests/nightly", "tools", "bench")]
DOCUMENTS += [TOP / "tests" / "README.md", *(it / "README.md" for it in DRAWERS)]
COLUMNS, README_LINES = 100, 200
LONG_CODE = 70  # columns of code that is not broken
REPEATED = 12  # words in a row that two documents share
HEADLINE, EXACT = "The answers and the stored", "For every stream"  # how the two sentences begin
NAME = re.compile(r"`([^`]+)`")
FILE = r"`(\w+/(?:specs|src)/[\w/.{},]+)`"


def named(document):
    """A document as it is told of."""
    return document.relative_to(TOP)


def words():
    """All words of the sources, and the names of their files and crates."""
    paths = [path for kind in ("rt", "antt") for path in (TOP / "crates").rglob(f"*.{kind}")]
    paths += [path for kind in ("py", "row") for path in (TOP / "tests").rglob(f"*.{kind}")]
    paths += (TOP / "tools").glob("*.py")
    paths += [TOP / "HANDLES", TOP / "crates.txt"]
    found = {word for path in paths for word in re.findall(r"\w+", path.read_text())}
    return found | {path.stem for path in paths} | {it.name for it in (TOP / "crates").iterdir()}


def spread(name):
    """A name with a list in braces as the names that it stands for."""
    many = re.fullmatch(r"(.*)\{(.*)\}(.*)", name)
    return [many[1] + it + many[3] for it in many[2].split(",")] if many else [name]


def file_named(name):
    """The file of definitions or of code that stands for this name."""
    return TOP / "crates" / (name if name.endswith(".rt") else f"{name}.antt")


def missing_names(document, known):
    """What a document names in the sources' spelling, and is not where it says."""
    text = (TOP / "docs" / document).read_text()
    for name in NAME.findall(text):
        is_name = re.fullmatch(r"\w+((::|\.)\w+)?", name)
        if is_name and not known >= {*re.findall(r"\w+", name)} - {"rt", "py"}:
            yield f"{document}: there is no {name}"
    for name in (it for found in re.findall(FILE, text) for it in spread(found)):
        if not file_named(name).exists():
            yield f"{document}: there is no file {name}"
    for crate, files in re.findall(r"`(\w+)`\s+\(([^)]*\.rt`[^)]*)\)", text):
        for name in re.findall(r"`([\w/]+\.rt)`", files):
            source = TOP / "crates" / crate / "src"
            if source.exists() and not [*source.rglob(name)]:
                yield f"{document}: there is no file {name} in {crate}"
    for names, file in re.findall(rf"((?:`\w+`(?: and )?)+)\s+in\s+{FILE}", text):
        files = [file_named(it) for it in spread(file)]
        there = re.findall(r"\w+", "".join(it.read_text() for it in files if it.exists()))
        yield from (f"{document}: there is no {it} in {file}" for it in NAME.findall(names)
                    if it not in there)


def anchors(text):
    """The places of a document to which a link may lead, as its headings are shown."""
    for heading in re.findall(r"^#+ (.*)$", text, re.MULTILINE):
        yield re.sub(r"[^\w\- ]", "", heading.lower()).replace(" ", "-")


def missing_links():
    for document in DOCUMENTS:
        for path, anchor in re.findall(r"\]\(([^)#:]*)(?:#([^)]*))?\)", document.read_text()):
            target = document.parent / path if path else document
            if not target.exists():
                yield f"{named(document)} leads to {path}, which is not there"
            elif anchor and anchor not in anchors(target.read_text()):
                yield f"{named(document)} leads to {anchor} in {target.name}, which is not there"


def missing_files():
    """The files of the repository that a document names by their paths."""
    folders = "tests|tools|bench|building|docs|crates|packaging"
    pattern = re.compile(rf"(?<![\w/.])(?:\./)?((?:{folders})/[\w./-]*\w)")
    for document in DOCUMENTS:
        for path in sorted(set(pattern.findall(document.read_text()))):
            if not (TOP / path).exists() and "/out/" not in path:
                yield f"{named(document)} names {path}, which is not there"


def wrong_lines():
    """Long lines, and what only those who wrote the documents can look up."""
    private = re.compile(r"\b(?:issue|paper) \d+|/(?:work|opt|home|root)/")
    for document in DOCUMENTS:
        for number, line in enumerate(document.read_text().splitlines(), 1):
            is_free = line.startswith(("|", "    ")) or any(
                len(it) > LONG_CODE for it in re.findall("`[^`]*`", line))
            if len(line) > COLUMNS and not is_free:
                yield f"{named(document)}:{number} has {len(line)} columns"
            yield from (f"{named(document)} names {it}, which no reader has"
                        for it in private.findall(line))


def in_bold(document):
    """The headline and its exact sentence, as far as a document has them, without their breaks."""
    text = (TOP / document).read_text()
    found = (re.search(rf"\*\*({it}.*?)\*\*", text, re.DOTALL) for it in (HEADLINE, EXACT))
    return [it and it[1].split() for it in found]


def wrong_sizes():
    lines = (TOP / "README.md").read_text().count("\n")
    if lines > README_LINES:
        yield f"README.md has {lines} lines"


def wrong_headlines():
    """README.md and docs/PROOF.md have one headline, and docs/PROOF.md has its exact sentence too:
    no other document has a headline of its own."""
    headline, exact = in_bold("docs/PROOF.md")
    if not headline or not exact:
        yield "docs/PROOF.md lacks the headline or its exact sentence"
    if not in_bold("README.md")[0]:
        yield "README.md lacks the headline"
    for document in DOCUMENTS:
        for found, wanted in zip(in_bold(document), (headline, exact)):
            if found and found != wanted:
                yield f"{named(document)} and PROOF.md have different headlines"


def wrong_version():
    """The program's version, where it is not the newest one of CHANGELOG.md, or OPERATING.md
    installs another."""
    number, (newest, _) = version.number(), version.newest()
    if number != newest:
        yield f"CHANGELOG.md has {newest} as its newest version, and the program {number}"
    for name in (f"cayunchis_{number}_amd64.deb", f"cayunchis-{number}-amd64.tar.xz"):
        if name not in (TOP / "docs/OPERATING.md").read_text():
            yield f"OPERATING.md does not install {name}"


def unlisted_scripts():
    """The scripts of a drawer of which its README.md does not say what they are for."""
    for drawer in DRAWERS:
        text = (drawer / "README.md").read_text()
        yield from (f"{drawer.name}/README.md lacks {it.name}" for it in sorted(drawer.iterdir())
                    if it.suffix in (".py", ".sh", ".c") and f"`{it.name}" not in text)


def written_by_scripts():
    if not picture.is_drawn():
        yield "docs/layers.svg is out of date: tools/drawing.py --write"
    if not openapi.is_made():
        yield "docs/openapi.json is out of date: tests/house/openapi.py --write"
    yield from program_words.out_of_date()
    yield from (f"no comment begins {it}" for it in sources.without_comment())


def wrong_beginnings():
    """Each document whose first line does not say whom it is for."""
    for document in DOCUMENTS:
        title, _, first = document.read_text().partition("\n\n")
        if not title.startswith("# ") or not first.startswith("For "):
            yield f"{named(document)} does not begin with whom it is for"


def prose(document):
    """The sentences of a document, without code, tables and what is shared on purpose."""
    bold = rf"(?s)\*\*(?:{HEADLINE}|{EXACT}).*?\*\*"
    text = re.sub(bold, "", document.read_text())
    lines = [it for it in text.splitlines() if not it.startswith(("    ", "|", "#", "<"))]
    for part in re.split(r"\n\s*\n|\n- |\n\d+\. ", "\n".join(lines)):
        yield re.findall(r"[\w`/.'-]+", re.sub(r"\]\([^)]*\)", "", part))


def repeated():
    """What a document says in the same words as another: its first words that both have. README.md
    sums up what others say."""
    seen = {}
    for document in DOCUMENTS[1:]:
        for words in prose(document):
            rows = [" ".join(words[at:at + REPEATED]) for at in range(len(words) - REPEATED + 1)]
            wrong = next((it for it in rows if seen.get(it, document) != document), None)
            if wrong:
                yield f"{named(document)} and {named(seen[wrong])} both say: {wrong}"
            seen.update((it, seen.get(it, document)) for it in rows)


def wrong_commands():
    """Commands that are shown and are none, and those and routes that their document lacks."""
    paths = (TOP / "crates/signal_office_line/src").glob("*.rt")
    source = "\n".join(it.read_text() for it in paths)
    listed = (TOP / "docs/COMMANDS.md").read_text().partition("\n## Files")[0]
    known = set(re.findall(r"^### ([\w-]+)$", listed, re.MULTILINE))
    yield from (f"COMMANDS.md lists {it}, which is no command" for it in sorted(known)
                if f'"{it}"' not in source)
    yield from (f"COMMANDS.md lacks {it}" for it in re.findall(r'Usage\(\s*"([\w-]+)"', source)
                if it not in known)
    for document in DOCUMENTS:
        shown = {*re.findall(r"(?:\./office|\bsignal_office) ([a-z][\w-]*) ", document.read_text())}
        yield from (f"{named(document)} shows {it}, which is no command" for it in shown - known)
    faults = (TOP / "docs/COMMANDS.md").read_text().partition("## Faults")[2].partition("## ")[0]
    after = (TOP / "docs/OPERATING.md").read_text().partition("## After a fault")[2]
    for names in re.findall(r"^\| ((?:`[\w ]+`(?:, )?)+) \|", faults, re.MULTILINE):
        yield from (f"OPERATING.md does not say what to do after {it}" for it in NAME.findall(names)
                    if not re.search(rf"\b{it.split()[0]}\b", after))
    routes = (TOP / "crates/office_http_requests/src/route.rt").read_text()
    text = (TOP / "docs/HTTP.md").read_text()
    yield from (f"HTTP.md lacks {it}" for it in re.findall(r'"(/[\w/{}-]+)"', routes)
                if f" {it}`" not in text)


def wrong_quotes():
    """Code that docs/CONTRACTS.md and CONTRIBUTING.md show and that the sources do not have."""
    paths = [path for kind in ("rt", "antt") for path in (TOP / "crates").rglob(f"*.{kind}")]
    sources = [" ".join(path.read_text().split()) for path in sorted(paths)]
    for document in (TOP / "docs/CONTRACTS.md", TOP / "CONTRIBUTING.md"):
        text = document.read_text()
        for block in re.findall(r"(?:^ {4,}.*\n|^\n(?= {4}))+", text, re.MULTILINE):
            for part in re.split(r"\n\s*\n", block.strip()):
                shown = " ".join(part.split())
                is_code = shown.startswith(("pub fn", "pub(crate)", "/// ", "-- ", "abbrev"))
                if is_code and not any(shown in it for it in sources):
                    yield f"{named(document)} shows code that no source has: {shown[:60]}"
        for number, line in re.findall(r"Line (\d+) is\s+`([^`]*)`", text):
            code = (TOP / "crates/cabinet_core/src/decide.rt").read_text().splitlines()
            if line not in code[int(number) - 1]:
                yield f"{named(document)}: line {number} of decide.rt is not {line}"


def unused_crates():
    """Each crate that a line of crates.txt names in vain: it would be waited for."""
    for crate, below in sources.crates()[0].items():
        parts = [TOP / "crates" / crate / it for it in ("src", "specs", "proofs")]
        paths = (path for part in parts for path in part.rglob("*.*t") if path.is_file())
        text = "\n".join(path.read_text() for path in paths)
        for name in below:
            if not re.search(rf"\b{name}\s*::|\bRattle\.{name}\.|\buse {name}\b", text):
                yield f"crates.txt: {crate} names {name}, and nothing in it does"


def main():
    if sys.argv[1:]:
        sys.exit("documents.py: it takes no words")
    known = words()
    wrong = [*missing_names("PROOF.md", known), *missing_names("ARCHITECTURE.md", known)]
    wrong += [*missing_links(), *missing_files(), *wrong_lines(), *wrong_sizes(),
              *wrong_headlines(), *wrong_beginnings(), *repeated(), *wrong_commands(),
              *unlisted_scripts()]
    wrong += [*written_by_scripts(), *wrong_version()]
    wrong += [*wrong_quotes(), *unused_crates()]
    print("\n".join(wrong) if wrong else "ok")
    sys.exit(1 if wrong else 0)


main()
