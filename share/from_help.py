#!/usr/bin/env python3
"""Writes a program's manual page and completions by what its help says.

    from_help.py PROGRAM FOLDER

PROGRAM is asked for its help and its version, and for the help of each command that it names. The files come to FOLDER:
NAME.1 for man, NAME.bash, _NAME for zsh and NAME.fish, where NAME is what the help calls the program. The manual page of
`reqs` has the exit statuses of docs/COMMANDS.md too.
"""

import os
import re
import shlex
import subprocess
import sys

ENTRY = re.compile(r" {2,6}(\S.*?)(?: {2,}(\S.*))?")
OPTION = re.compile(r"-[A-Za-z]|--[a-z][a-z-]*")
VALUES = re.compile(r"\[possible values: (.*?)\]")
# The page on a program's commands, and where it tells of itself.
PAGES = {"reqs": os.path.join(os.path.dirname(os.path.dirname(os.path.abspath(__file__))), "docs", "COMMANDS.md")}
SEE_ALSO = "COMMANDS.md, the page on the commands: docs/COMMANDS.md of the sources, /usr/share/doc/reqs/COMMANDS.md of the Debian package."
STATUS = re.compile(r"^- (\d+): (.*(?:\n  .*)*)", flags=re.M)


class Help:
    """What a program's help says, or that of one of its commands."""

    def __init__(self, text):
        self.about, self.usage, self.parts, part = [], "", {}, None
        for line in text.splitlines():
            entry = ENTRY.fullmatch(line)
            if line.startswith("Usage: "):
                self.usage, part = line[len("Usage: "):], None
            elif re.fullmatch(r"[A-Z]\w*:", line):
                part = self.parts.setdefault(line[:-1], [])
            elif part is None and line and not self.usage:
                self.about.append(line.strip())
            elif entry and part is not None:
                part.append([entry[1], entry[2] or ""])
            elif line.strip() and part:
                part[-1][1] = f"{part[-1][1]} {line.strip()}".strip()
        if not self.usage:
            raise ValueError("the help has no line that begins with Usage:")

    def about_text(self):
        return " ".join(self.about)

    def options(self):
        """The spellings of each option, what its value is called if it has one, and what is said of it."""
        parts = [(*term.partition("<")[::2], said) for term, said in self.parts.get("Options", [])]
        return [(OPTION.findall(spelled), value.rstrip(">"), said) for spelled, value, said in parts]

    def arguments(self):
        """The name of each argument, whether it may be given many times, and what is said of it."""
        return [(re.sub(r"\W", "", term), "..." in term, said) for term, said in self.parts.get("Arguments", [])]

    def commands(self):
        return self.parts.get("Commands", [])


class Program:
    def __init__(self, path):
        self.help = Help(said_by(path, "--help"))
        self.name = self.help.usage.split()[0]
        self.version = said_by(path, "--version").strip()
        # (help of `help` is that of the program)
        self.commands = {name: Help(said_by(path, name, "--help")) for name, _ in self.help.commands() if name != "help"}


def said_by(path, *words):
    return subprocess.run([path, *words], capture_output=True, check=True, encoding="utf-8", stdin=subprocess.DEVNULL).stdout


# ---- the manual page


def roff(text):
    text = text.replace("\\", "\\e").replace("-", "\\-")
    return "\\&" + text if text[:1] in (".", "'") else text


def entries(part):
    for term, said in part:
        yield from (".TP", f"\\fB{roff(term)}\\fR", roff(said))


def statuses(page):
    """The exit statuses of a page, and when they are; but those that scripts of the sources alone have."""
    with open(page, encoding="utf-8") as file:
        part = re.search(r"^## Exit statuses\n(.*?)(?=^## |\Z)", file.read(), flags=re.S | re.M)
    found = STATUS.findall(part[1] if part else "")
    told = [(status, " ".join(said.split())) for status, said in found if "`./" not in said]
    if not told:
        raise ValueError(f"{page} has no exit statuses")
    return told


def manual(program):
    name = program.name
    yield f'.TH {name.upper()} 1 "" "{roff(program.version)}"'
    yield from (".SH NAME", f"{roff(name)} \\- {roff(program.help.about_text())}", ".SH SYNOPSIS")
    for it in [program.help, *program.commands.values()]:
        yield from (f"\\fB{roff(it.usage)}\\fR", ".br")
    for title, part in program.help.parts.items():
        yield f".SH {title.upper()}"
        yield from entries(part)
    for command, it in program.commands.items():
        yield from (f".SH {name.upper()} {command.upper()}", roff(it.about_text()))
        for title, part in it.parts.items():
            yield f".SS {title}"
            yield from entries(part)
    if name in PAGES:
        yield ".SH EXIT STATUS"
        yield from (re.sub("`(.*?)`", r"\\fB\1\\fR", line) for line in entries(statuses(PAGES[name])))
        yield from (".SH SEE ALSO", roff(SEE_ALSO))


# ---- completions


def values_of(said):
    """The values that an option may have, with blanks between, where the help names them."""
    found = VALUES.search(said)
    return found[1].replace(",", "") if found else ""


def bash(program):
    name, commands = program.name, [it for it, _ in program.help.commands()]
    spelled = {"": program.help, **program.commands}
    place = "before=$((COMP_CWORD - 1))"
    yield from (f"_{name}() {{", f'    local word=${{COMP_WORDS[COMP_CWORD]}} {place} command="" options="" commands="" values=""')
    yield '    [ "$COMP_CWORD" -lt 2 ] || command=${COMP_WORDS[1]}'
    # (a = behind an option is a word of its own)
    yield '    if [ "$word" = = ]; then word=""; elif [ "${COMP_WORDS[before]}" = = ]; then before=$((before - 1)); fi'
    yield "    case $command in"
    for command, it in spelled.items():
        words = " ".join(spelling for spellings, *_ in it.options() for spelling in spellings)
        yield f"        {shlex.quote(command)}) options={shlex.quote(words)} ;;"
    yield "    esac"
    yield f'    [ -n "$command" ] && [ "$command" != help ] || commands={shlex.quote(" ".join(commands))}'
    yield '    case "$command ${COMP_WORDS[before]}" in'
    for command, it in program.commands.items():
        for spelling, values in ((spelling, values_of(said)) for spellings, _, said in it.options() for spelling in spellings):
            if values:
                yield f"        {shlex.quote(f'{command} {spelling}')}) values={shlex.quote(values)} ;;"
    yield "    esac"
    yield '    [ -z "$values" ] || { options=$values commands=$values; }'
    yield "    COMPREPLY=()"
    yield "    case $word in"
    yield '        -*) mapfile -t COMPREPLY < <(compgen -W "$options" -- "$word") ;;'
    yield '        *) mapfile -t COMPREPLY < <(compgen -W "$commands" -- "$word") ;;'
    yield "    esac"
    # (files, where there is no command to complete)
    yield from ("}", f"complete -o default -F _{name} {name}")


def zsh_said(text):
    return re.sub(r"([\[\]:\\])", r"\\\1", text)


def zsh_options(it):
    for spellings, value, said in it.options():
        # (without its value the option would be read as one that has none, and the value as an argument)
        action = f":{value}:({values_of(said)})" if values_of(said) else f":{value}: " if value else ""
        for spelling in spellings:
            mark = "=" if value and spelling.startswith("--") else ""
            yield shlex.quote(f"({' '.join(spellings)}){spelling}{mark}[{zsh_said(said)}]{action}")


def zsh(program):
    name = program.name
    yield from (f"#compdef {name}", f"_{name}() {{", '    local curcontext="$curcontext" state line', "    local -a commands=(")
    yield from (f"        {shlex.quote(f'{command}:{zsh_said(said)}')}" for command, said in program.help.commands())
    yield from ("    )", "    _arguments -C \\", *(f"        {it} \\" for it in zsh_options(program.help)))
    yield from ("        '1: :->command' '*:: :->words'", "    case $state in")
    yield from ("        command) _describe command commands ;;", "        words)", "            case $line[1] in")
    for command, it in program.commands.items():
        words = list(zsh_options(it))
        for at, (argument, is_many, said) in enumerate(it.arguments(), 1):
            place, action = ("*", " ") if is_many else (at, "_files")
            words.append(shlex.quote(f"{place}:{argument}\\: {zsh_said(said)}:{action}"))
        yield f"                {command}) _arguments {' '.join(words)} ;;"
    yield from ("                help) _describe command commands ;;", "            esac ;;", "    esac", "}", f'_{name} "$@"')


def fish_options(it):
    for spellings, value, said in it.options():
        flags = [f"-s {one[1:]}" if len(one) == 2 else f"-l {one[2:]}" for one in spellings]
        flags += ["-x"] if value else []
        flags += [f"-a {shlex.quote(values_of(said))}"] if values_of(said) else []
        yield f"{' '.join(flags)} -d {shlex.quote(said)}"


def fish(program):
    name = program.name
    first = f"complete -c {name} -n __fish_use_subcommand"
    yield f"{first} -f"
    yield from (f"{first} -a {command} -d {shlex.quote(said)}" for command, said in program.help.commands())
    yield from (f"{first} {it}" for it in fish_options(program.help))
    for command, it in program.commands.items():
        yield from (f"complete -c {name} -n '__fish_seen_subcommand_from {command}' {flags}" for flags in fish_options(it))
    others = " ".join(program.commands)
    yield f"complete -c {name} -n '__fish_seen_subcommand_from help' -f -a {shlex.quote(others)}"


def main(words):
    if len(words) != 2:
        print(__doc__, file=sys.stderr)
        return 2
    path, folder = words
    try:
        program = Program(os.path.abspath(path))
    except (OSError, ValueError, subprocess.CalledProcessError) as error:
        print(f"from_help.py: {path}: {error}", file=sys.stderr)
        return 1
    files = {f"{program.name}.1": manual, f"{program.name}.bash": bash, f"_{program.name}": zsh, f"{program.name}.fish": fish}
    for name, lines in files.items():
        with open(os.path.join(folder, name), "w", encoding="utf-8") as file:
            file.writelines(f"{line}\n" for line in lines(program))
    return 0


if __name__ == "__main__":
    sys.exit(main(sys.argv[1:]))
