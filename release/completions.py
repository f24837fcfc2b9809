#!/usr/bin/env python3
"""Writes completions for bash, zsh and fish, from the program's own help.

    python3 release/completions.py PROGRAM OUTDIR

The commands, the options and what each says of itself are read off `PROGRAM --help` and `PROGRAM COMMAND --help`, and so are the words of
an argument whose help ends in `A or B`.
"""

import pathlib
import re
import subprocess
import sys
from typing import NamedTuple

TOPICS = ("forms", "refusals")
FILES = "_files"
ENTRY = re.compile(r"  (\S+)  +(.*)")
OPTION = re.compile(r"  (?:(-\w)(?:, )?|    )(--\w[\w-]*)?(?: <(\w+)>)?  +(.*)")
ARGUMENT = re.compile(r"  <(\w+)>  .*: (\w+) or (\w+)")


class Option(NamedTuple):
    """An option: its short and its long word, what its value is called, and what is said of it."""

    short: str
    long: str
    value: str
    text: str


class Command(NamedTuple):
    """A command: its name, what is said of it, its options, the words of its argument, and whether it takes files."""

    name: str
    text: str
    options: list
    words: list
    takes_files: bool


def help_of(program, *words):
    """The lines of a help."""
    return subprocess.run([program, *words, "--help"], capture_output=True, check=True, text=True).stdout.splitlines()


def section(lines, title):
    """The lines of a section of a help."""
    if title not in lines:
        return []
    at = lines.index(title) + 1
    end = next((place for place in range(at, len(lines)) if not lines[place]), len(lines))
    return lines[at:end]


def options_of(lines):
    """The options that a help names."""
    return [Option(*(part or "" for part in found.groups())) for line in section(lines, "Options:") if (found := OPTION.fullmatch(line))]


def read(program):
    """The program as a command, and its commands."""
    lines, commands = help_of(program), []
    for entry in section(lines, "Commands:"):
        name, text = ENTRY.fullmatch(entry).groups()
        own = help_of(program, name) if name != "help" else []
        words = [word for line in section(own, "Arguments:") if (found := ARGUMENT.fullmatch(line)) for word in found.groups()[1:]]
        takes_files = any(line.startswith("  [FILE]") for line in section(own, "Arguments:"))
        commands.append(Command(name, text, options_of(own), words, takes_files))
    for command in commands:
        if command.name == "help":
            command.words.extend(other.name for other in commands)
            command.words.extend(TOPICS)
    return Command("causal_judge", lines[0], options_of(lines), [], False), commands


def spelled(command):
    """The words that may follow a command."""
    return " ".join([*command.words, *(word for option in command.options for word in (option.short, option.long) if word)])


def bash(program, commands):
    """The completion for bash."""
    cases = "".join(f"        {command.name}) words='{spelled(command)}' ;;\n" for command in commands)
    first = " ".join([*(command.name for command in commands), spelled(program)])
    return f"""# bash completion for causal_judge, made from its help
_causal_judge() {{
    local words
    COMPREPLY=()
    if [ "$COMP_CWORD" -eq 1 ]; then
        words='{first}'
    else
        case "${{COMP_WORDS[1]}}" in
{cases}        *) return ;;
        esac
    fi
    mapfile -t COMPREPLY < <(compgen -W "$words" -- "${{COMP_WORDS[COMP_CWORD]}}")
}}
complete -o default -F _causal_judge causal_judge
"""


def quoted(text):
    """A text within single quotes, for a shell."""
    return "'" + text.replace("'", "'\\''") + "'"


def plain(text):
    """A text without the signs that zsh's descriptions give a meaning."""
    return text.replace(":", r"\:").replace("[", r"\[").replace("]", r"\]")


def zsh_option(option):
    """An option as zsh's `_arguments` takes it."""
    words = [word for word in (option.short, option.long) if word]
    return " ".join(quoted(f"{word}[{plain(option.text)}]" + (f":{option.value}:{FILES if option.value == 'FILE' else ''}" if option.value else "")) for word in words)


def zsh(program, commands):
    """The completion for zsh."""
    listed = "\n".join(f"        {quoted(f'{command.name}:{plain(command.text)}')}" for command in commands)
    cases = ""
    for command in commands:
        parts = [zsh_option(option) for option in command.options]
        parts += [quoted(f"1:word:({' '.join(command.words)})")] if command.words else []
        parts += [quoted(f"*:file:{FILES}")] if command.takes_files else []
        cases += f"        {command.name}) _arguments {' '.join(parts)} ;;\n" if parts else f"        {command.name}) ;;\n"
    own = " ".join(zsh_option(option) for option in program.options)
    return f"""#compdef causal_judge
# zsh completion for causal_judge, made from its help
_causal_judge() {{
    local -a commands
    commands=(
{listed}
    )
    if (( CURRENT == 2 )); then
        _describe command commands
        _arguments {own}
        return
    fi
    local command=$words[2]
    shift words
    (( CURRENT-- ))
    case $command in
{cases}    esac
}}
_causal_judge "$@"
"""


def fish(program, commands):
    """The completion for fish."""
    lines = ["# fish completion for causal_judge, made from its help"]

    def said(where, option):
        short = f" -s {option.short[1:]}" if option.short else ""
        long = f" -l {option.long[2:]}" if option.long else ""
        value = "" if not option.value else " -r" if option.value == "FILE" else " -x"
        return f"complete -c causal_judge -n '{where}'{short}{long}{value} -d {quoted(option.text)}"

    lines += [said("__fish_use_subcommand", option) for option in program.options]
    for command in commands:
        lines.append(f"complete -c causal_judge -n '__fish_use_subcommand' -f -a {command.name} -d {quoted(command.text)}")
        where = f"__fish_seen_subcommand_from {command.name}"
        lines += [said(where, option) for option in command.options]
        lines += [f"complete -c causal_judge -n '{where}' -f -a {quoted(' '.join(command.words))}"] if command.words else []
    return "\n".join(lines) + "\n"


def main():
    program, out = sys.argv[1:]
    for shell in (bash, zsh, fish):
        (pathlib.Path(out) / f"causal_judge.{shell.__name__}").write_text(shell(*read(program)), encoding="utf-8")


if __name__ == "__main__":
    main()
