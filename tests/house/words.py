#!/usr/bin/env python3
"""Makes the manual page, the completions of bash, zsh and fish, and the synopses of
docs/COMMANDS.md, of what the program says of its words by `--help`.

    tests/house/words.py [PROGRAM]            checks that they are today's, and tries them
    tests/house/words.py --write [PROGRAM]    writes them

What the program says is packaging/help.txt, so that tests/house/documents.py can compare without a
program. The check tries the completions in bash, and in zsh and fish where these are there, and has
`man` read the page. It prints what is wrong, and ends with status 1 then; it takes two seconds.
"""
import os
import pathlib
import re
import shutil
import subprocess
import sys
import textwrap

sys.path.insert(0, str(pathlib.Path(__file__).resolve().parents[1] / "lib"))
import version
from making.help import HINTS, PATHS, PROGRAM, Words, told
from making.manual import manual
from making.shells import bash, fish, shell_word, zsh
from program import TOP, found

PACKAGING, COMMANDS = TOP / "packaging", TOP / "docs" / "COMMANDS.md"
HELP = PACKAGING / "help.txt"
COLUMNS = 100  # of a document
STATE = re.compile("[0-9a-f]{12}|unknown")  # by ./office, or by something else


def synopsis(command):
    """The heading of a command in docs/COMMANDS.md, with its synopsis. No option is broken off from
    its value."""
    words = " ".join(it.shown().replace(" ", "\0") for it in command.words)
    shown = textwrap.fill(words, COLUMNS, initial_indent=f"    {command.name} ",
                          subsequent_indent=" " * len(f"    {command.name} "),
                          break_long_words=False, break_on_hyphens=False)
    return f"### {command.name}\n\n" + shown.replace("\0", " ") + "\n"


def commands_text(words):
    """docs/COMMANDS.md with today's synopses, each below the heading of its command."""
    text = COMMANDS.read_text()
    for it in words.commands:
        text = re.sub(rf"^### {it.name}\n(?:\n(?: {{4}}.*\n)+)?", lambda _: synopsis(it), text,
                      flags=re.MULTILINE)
    return text


def made(text):
    """The files that are made, of the help, with their texts."""
    words = Words.read(text)
    return {
        PACKAGING / f"{PROGRAM}.1": manual(words), PACKAGING / f"{PROGRAM}.bash": bash(words),
        PACKAGING / f"_{PROGRAM}": zsh(words), PACKAGING / f"{PROGRAM}.fish": fish(words),
        COMMANDS: commands_text(words)}


def out_of_date():
    """What is not made as the help is, or lacks an option."""
    words, files = Words.read(HELP.read_text()), made(HELP.read_text())
    for path, text in files.items():
        if not path.is_file() or path.read_text() != text:
            yield f"{path.relative_to(TOP)} is out of date: tests/house/words.py --write"
    for it in words.commands:
        if synopsis(it) not in files[COMMANDS]:
            yield f"COMMANDS.md lacks the synopsis of {it.name}"


# ---- trials

def completed(shell, words):
    """What a shell offers for the last of these words."""
    line, path = " ".join(words), PACKAGING / f"{PROGRAM}.{shell}"
    if shell == "bash":
        run = ['source "$1"; shift; COMP_WORDS=("$@"); COMP_CWORD=$(($# - 1)); _signal_office; '
               'printf "%s\\n" "${COMPREPLY[@]}"', "bash", path, *words]
    else:
        run = [f"source {path}; complete -C {shell_word(line)} | string replace -r '\\t.*' ''"]
    ran = subprocess.run([shell, "-c", *run], capture_output=True, text=True, cwd=PACKAGING)
    return {*ran.stdout.split()} if not ran.stderr else {ran.stderr}


def trials(words):
    """Words, of which the last is completed, with what has to be offered: of all commands, of each
    option, and of each file or folder."""
    names = {it.name for it in words.commands}
    yield [""], names
    for it in words.commands:
        yield [it.name[:-1]], {name for name in names if name.startswith(it.name[:-1])}
        yield [it.name, "--"], {one.name for one in it.options()} | {"--help"}
        for one in [one for one in it.words if PATHS.get(one.value or one.name) == "files"]:
            yield [it.name, *[one.name] * one.is_option(), f"{PROGRAM}."], {
                f"{PROGRAM}.1", f"{PROGRAM}.bash", f"{PROGRAM}.fish"}


def wrong_completions(shell, words):
    """Where a shell offers something else."""
    for asked_for, wanted in trials(words):
        came = completed(shell, [PROGRAM, *asked_for])
        if came - {"help", *HINTS} != wanted - {"help", *HINTS}:
            yield f"{shell} offers {sorted(came)} for {asked_for}, and not {sorted(wanted)}"


def wrong_page():
    """What `man` finds wrong with the page."""
    ran = subprocess.run(
        ["man", "--warnings", "--local-file", PACKAGING / f"{PROGRAM}.1"], text=True,
        stdin=subprocess.DEVNULL, capture_output=True, env={**os.environ, "LC_ALL": "C.UTF-8"})
    is_short = len(ran.stdout.splitlines()) < 100
    return [f"man: {it}" for it in ran.stderr.splitlines()] or ["man shows nothing"] * is_short


def wrong_version(program):
    """What the program prints for `--version`, where that is another version."""
    ran = subprocess.run([program, "--version"], capture_output=True, text=True)
    told = ran.stdout.replace("\n", "", 1)
    begun, _, state = told.removesuffix(")").partition(" (tables of version 2, state ")
    if begun != f"{PROGRAM} {version.number()}" or not STATE.fullmatch(state):
        yield f"--version prints {ran.stdout!r}"


def main():
    words = sys.argv[1:]
    writes = words[:1] == ["--write"]
    program = found(words[writes:])
    text = told(program)
    if writes:
        HELP.write_text(text)
        for path, made_text in made(text).items():
            path.write_text(made_text)
    wrong = [] if HELP.read_text() == text else ["packaging/help.txt is out of date"]
    wrong += [*out_of_date(), *wrong_version(program)]
    shells = [it for it in ("bash", "fish") if shutil.which(it)]
    for shell in shells:
        wrong += wrong_completions(shell, Words.read(text))
    if shutil.which("zsh"):
        script = PACKAGING / f"_{PROGRAM}"
        ran = subprocess.run(["zsh", "-n", script], capture_output=True, text=True)
        wrong += ran.stderr.splitlines()
    wrong += wrong_page() if shutil.which("man") else []
    if wrong:
        sys.exit("\n".join(wrong[:20]))
    print(f"ok: {len(Words.read(text).commands)} commands, completed in {', '.join(shells)}")


if __name__ == "__main__":
    main()
