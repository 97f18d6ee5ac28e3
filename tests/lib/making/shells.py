"""The completions of the program in bash, zsh and fish, of its help."""
import re

from .help import HINTS, PATHS, PROGRAM, Word


def shell_word(text):
    """A text between single quotes, of a shell."""
    return "'" + text.replace("'", "'\\''") + "'"


def bash(words):
    """The completion of bash."""
    names = [it.name for it in words.commands]
    lines = [
        f"# Completion of {PROGRAM} in bash, made by tests/house/words.py of what it says by "
        "--help.",
        "_signal_office() {",
        '    local word=${COMP_WORDS[COMP_CWORD]} before=${COMP_WORDS[COMP_CWORD - 1]}',
        "    local options= others=none",
        "    COMPREPLY=()",
        '    if ((COMP_CWORD == 1)) || [[ ${COMP_WORDS[1]} == help ]]; then',
        f'        COMPREPLY=($(compgen -W "{" ".join([*names, "help", *HINTS])}" -- "$word"))',
        "        return",
        "    fi",
        "    case ${COMP_WORDS[1]} in"]
    for it in words.commands:
        others = {PATHS.get(one.name, "none") for one in it.others()} - {"none"}
        options = " ".join([*(one.name for one in it.options()), "--help"])
        kind = f"; others={others.pop()}" if others else ""
        lines.append(f"        {it.name}) options='{options}'{kind} ;;")
    lines += ["    esac", "    case $before in"]
    for kind in ("files", "folders", "none"):
        valued = sorted({one.name for it in words.commands for one in it.options()
                         if one.value and PATHS.get(one.value, "none") == kind})
        lines.append(f"        {' | '.join(valued)}) options=; others={kind} ;;")
    return "\n".join([
        *lines, "    esac",
        "    if [[ $word == -* && $options ]]; then",
        '        COMPREPLY=($(compgen -W "$options" -- "$word"))',
        "        return",
        "    fi",
        "    case $others in",
        '        files) mapfile -t COMPREPLY < <(compgen -f -- "$word") ;;',
        '        folders) mapfile -t COMPREPLY < <(compgen -d -- "$word") ;;',
        '        none) COMPREPLY=($(compgen -W "$options" -- "$word")) ;;',
        "    esac",
        "    [[ $others == none ]] || compopt -o filenames 2> /dev/null",
        "}", f"complete -F _signal_office {PROGRAM}", ""])


def zsh_text(text):
    """What is said of an argument, in a specification of zsh."""
    return re.sub(r"([\[\]:\\])", r"\\\1", text)


def zsh_word(it, at):
    """The specification of an argument, which is the one at this place."""
    path = {"files": "_files", "folders": "_files -/"}
    if it.is_option():
        taken = f":{it.value}:{path.get(PATHS.get(it.value), ' ')}" if it.value else ""
        return shell_word(f"{it.name}[{zsh_text(it.about)}]{taken}")
    mark = "" if it.is_needed else ":"
    return shell_word(f"{at}:{mark}{it.name} - {zsh_text(it.about)}:"
                      f"{path.get(PATHS.get(it.name), ' ')}")


def zsh(words):
    """The completion of zsh."""
    lines = [
        f"#compdef {PROGRAM}",
        f"# Completion of {PROGRAM} in zsh, made by tests/house/words.py of what it says by "
        "--help.",
        "_signal_office() {",
        "    local -a commands",
        "    commands=("]
    lines += [f"        {shell_word(it.name + ':' + zsh_text(it.about))}" for it in words.commands]
    lines += [
        "        'help:Print this message or the help of the given subcommand(s)'",
        "    )",
        "    if ((CURRENT == 2)) || [[ $words[2] == help ]]; then",
        "        _describe -t commands command commands",
        "        _arguments '--help[Print help]' '--version[Print version]'",
        "        return",
        "    fi",
        "    local command=$words[2]",
        "    shift words",
        "    ((CURRENT--))",
        "    case $command in"]
    for it in words.commands:
        specs = [zsh_word(one, at) for at, one in enumerate(
            sorted(it.words, key=Word.is_option), 1)]
        lines.append(f"        {it.name}) _arguments \\")
        lines += [f"            {spec} \\" for spec in [*specs, "'--help[Print help]'"]]
        lines[-1] = lines[-1].removesuffix(" \\") + " ;;"
    return "\n".join([*lines, "    esac", "}", '_signal_office "$@"', ""])


def fish_text(text):
    """A text between single quotes, of fish."""
    return "'" + text.replace("\\", "\\\\").replace("'", "\\'") + "'"


def fish_parts(command):
    """What fish is told of each word of a command, behind the names of those that take it."""
    takes = {"files": "-r -F", "folders": "-x -a '(__fish_complete_directories)'", None: "-x"}
    for it in command.options():
        value = f"{takes[PATHS.get(it.value)]} " if it.value else ""
        yield f"-l {it.name.removeprefix('--')} {value}-d {fish_text(it.about)}"
    others = {PATHS.get(it.name) for it in command.others()}
    if "files" in others:
        yield "-F"
    if "folders" in others:
        yield "-a '(__fish_complete_directories)'"


def fish(words):
    """The completion of fish. What several commands take alike is one line."""
    all_of = f"complete -c {PROGRAM}"
    first = f"{all_of} -n __fish_use_subcommand"
    lines = [f"# Completion of {PROGRAM} in fish, made by tests/house/words.py of what it says by "
             "--help.", f"{all_of} -f", f"{all_of} -l help -d 'Print help'",
             f"{first} -l version -d 'Print version'"]
    lines += [f"{first} -a {it.name} -d {fish_text(it.about)}" for it in words.commands]
    takers = {}
    for it in words.commands:
        for part in fish_parts(it):
            takers.setdefault(part, []).append(it.name)
    lines += [f"{all_of} -n '__fish_seen_subcommand_from {' '.join(names)}' {part}"
              for part, names in takers.items()]
    return "\n".join([*lines, ""])
