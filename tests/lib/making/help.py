"""What the program says of its words by `--help`, read."""
import re
import subprocess
import typing

PROGRAM = "signal_office"
ASKED = "$ signal_office "  # how the help of a command begins in a text of all of them
PATHS = {"FILE": "files", "CSV": "files", "TO": "files", "PLAN": "files", "OTHER": "files",
         "DIR": "folders"}  # what may be given for a word
HINTS = ("--help", "--version")
LINE = re.compile(r"^  +(?:(-\w), |    )?(--[\w-]+|<\w+>|\[\w+\])(?: <(\w+)>)?(?:  +(.*))?$")


class Word(typing.NamedTuple):
    """An argument: its name with `--` or without, what its value is called, whether it has to be
    given, and what the help says of it."""

    name: str
    value: str
    is_needed: bool
    about: str

    def is_option(self):
        return self.name.startswith("--")

    def shown(self):
        """As a synopsis has it."""
        word = f"{self.name} {self.value}" if self.is_option() and self.value else self.name
        return word if self.is_needed else f"[{word}]"


class Command(typing.NamedTuple):
    """A command: what the help says of it, its arguments, and the end of its help."""

    name: str
    about: str
    words: list
    end: str

    def options(self):
        return [it for it in self.words if it.is_option()]

    def others(self):
        return [it for it in self.words if not it.is_option()]


def asked(program, words):
    """The help of the program, or of a command."""
    ran = subprocess.run([PROGRAM, *words, "--help"], executable=program, capture_output=True,
                         text=True, check=True)
    return f"{ASKED}{' '.join([*words, '--help'])}\n{ran.stdout}"


def told(program):
    """The help of the program and of its commands."""
    whole = asked(program, [])
    listed = whole.partition("\nCommands:\n")[2].partition("\n\n")[0]
    names = re.findall(r"^  ([\w-]+) ", listed, re.MULTILINE)
    return "\n".join([whole, *(asked(program, [it]) for it in names if it != "help")])


def parts(text):
    """The help of the program, then that of each command, each with its name."""
    for part in re.split(rf"^{re.escape(ASKED)}", text, flags=re.MULTILINE)[1:]:
        first, _, rest = part.partition("\n")
        yield first.removesuffix("--help").strip(), rest.strip("\n")


def word(line, usage):
    """The argument that a line of help is about."""
    short, name, value, about = LINE.match(line).groups()
    plain = name.strip("<>[]")
    if name.startswith("--"):
        is_needed = f" {name} <{value}>" in usage.replace(f"[{name}", "")
    else:
        is_needed = name.startswith("<")
    return Word(plain, value or "", is_needed, about or "")


def command(name, text):
    """A command of its help."""
    about, _, rest = text.partition("\n\nUsage: ")
    usage, _, rest = rest.partition("\n")
    words, end = [], []
    for line in rest.splitlines():
        if LINE.match(line) and not end:
            words.append(word(line, usage))
        elif end or line and line not in ("Arguments:", "Options:", "Commands:"):
            end.append(line)
    words = sorted((it for it in words if it.name not in HINTS), key=lambda it: not it.is_option())
    return Command(name, about, words, "\n".join(end))


class Words(typing.NamedTuple):
    """What the program says of itself, and its commands."""

    about: str
    commands: list

    @staticmethod
    def read(text):
        (_, whole), *others = parts(text)
        return Words(whole.partition("\n")[0], [command(*it) for it in others])
