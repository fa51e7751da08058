"""How bash and zsh complete the program's command lines, by what its --help and `explain` print."""

import re
import subprocess
from typing import NamedTuple

from files import stop

ENTRY = re.compile(r"^  +(?:-\w, )?(--[\w-]+|\[?[\w-]+\]?(?:\.\.\.)?)(?: <(\w+)>)?  +(\S.*)$")


class Entry(NamedTuple):
    """A line of help: a command, an argument or an option, what its value is called, if it has one,
    and its text."""

    name: str
    value: str
    told: str

    def choices(self):
        """The words that may stand for the value, if the text lists them."""
        found = re.search(r"'(\w+)' or as '(\w+)'", self.told)
        return list(found.groups()) if found else []


def help_of(program, *command):
    """Returns the entries of each section of a command's help, by the section's name."""
    ran = subprocess.run(
        [program, *command, "--help"], stderr=subprocess.PIPE, text=True, check=False
    )
    sections, entries = {}, []
    for line in ran.stderr.splitlines():
        if heading := re.match(r"^(\w+):$", line):
            entries = sections[heading[1]] = []
        elif entry := ENTRY.match(line):
            entries.append(Entry(entry[1], entry[2] or "", entry[3]))
        elif sections and line.strip():
            stop(f"{' '.join(command)} --help has a line that is no entry: {line}")
    return sections


def calls_of(program):
    """Returns the calls that `explain` lists, but for those with a colon, at which bash ends a
    word."""
    said = subprocess.run(
        [program, "explain"], stdout=subprocess.PIPE, text=True, check=True
    ).stdout
    return [call for call in said.split("The calls:")[1].split() if ":" not in call]


class Interface(NamedTuple):
    """The commands of the program, the options and the arguments of each, and the calls that may be
    explained."""

    commands: list
    options: dict
    arguments: dict
    calls: list


def interface_of(program):
    commands = help_of(program)["Commands"]
    options, arguments = {}, {}
    for command in commands:
        if command.name != "help":
            sections = help_of(program, command.name)
            options[command.name] = sections["Options"]
            arguments[command.name] = [
                entry.name.strip("[].") for entry in sections.get("Arguments", [])
            ]
    return Interface(commands, options, arguments, calls_of(program))


BASH = """# How bash completes mntgate's command lines. bin/release has made it of what the
# program says of itself.
_mntgate() {
    local word=${COMP_WORDS[COMP_CWORD]} before=${COMP_WORDS[COMP_CWORD - 1]}
    local command=${COMP_WORDS[1]-} words=
    COMPREPLY=()
    if ((COMP_CWORD == 1)); then
        words='@COMMANDS@'
    else
        case "$command $before" in
@VALUES@        esac
        case "$command,$word" in
@OPTIONS@@WORDS@        *)
            compopt -o filenames 2>/dev/null
            mapfile -t COMPREPLY < <(compgen -f -- "$word")
            return
            ;;
        esac
    fi
    mapfile -t COMPREPLY < <(compgen -W "$words" -- "$word")
}
complete -F _mntgate mntgate
"""


def bash_values(it):
    """Returns the cases of bash that complete the values of options."""
    cases, numbers = "", []
    for command, entries in it.options.items():
        for entry in entries:
            if entry.value == "DIR":
                cases += (
                    f"        '{command} {entry.name}') compopt -o filenames 2>/dev/null; mapfile"
                    ' -t COMPREPLY < <(compgen -d -- "$word"); return ;;\n'
                )
            elif entry.choices():
                cases += (
                    f"        '{command} {entry.name}') mapfile -t COMPREPLY < <(compgen -W"
                    f" '{' '.join(entry.choices())}' -- \"$word\"); return ;;\n"
                )
            elif entry.value:
                numbers.append(f"'{command} {entry.name}'")
    return cases + f"        {' | '.join(numbers)}) return ;;\n"


def bash_of(it):
    names = " ".join(command.name for command in it.commands)
    options = "".join(
        f"        {command},-*) words='{' '.join(entry.name for entry in entries)}' ;;\n"
        for command, entries in it.options.items()
    )
    words = f"        help,*) words='{names}' ;;\n"
    for command, arguments in it.arguments.items():
        if "CALL" in arguments:
            words += f"        {command},*) words='{' '.join(it.calls)}' ;;\n"
        elif not arguments:
            words += f"        {command},*) return ;;\n"
    text = BASH.replace("@COMMANDS@", f"{names} --help --version").replace(
        "@VALUES@", bash_values(it)
    )
    return text.replace("@OPTIONS@", options).replace("@WORDS@", words)


ZSH = """#compdef mntgate
# How zsh completes mntgate's command lines. bin/release has made it of what the program says of
# itself.
local -a commands=(
@COMMANDS@)
if ((CURRENT == 2)); then
    _describe command commands
    _arguments '--help[Print help]' '--version[Print version]'
    return
fi
local command=$words[2]
shift words
((CURRENT--))
case $command in
@CASES@esac
"""


def quoted(text):
    """Returns a text as a word of zsh."""
    return "'" + text.replace("'", "'\\''") + "'"


def plain(told):
    """Returns a text with the marks escaped that `_arguments` and `_describe` read."""
    return re.sub(r"([\[\]:\\])", r"\\\1", told)


def value_of(entry):
    """Returns how zsh completes an option's value, if it has one."""
    how = "_files -/" if entry.value == "DIR" else f"({' '.join(entry.choices())})"
    return f":{entry.value}:{how}" if entry.value else ""


def zsh_of(it):
    commands = "".join(
        f"    {quoted(f'{command.name}:{plain(command.told)}')}\n" for command in it.commands
    )
    cases = ""
    for command, entries in it.options.items():
        words = [quoted(f"{entry.name}[{plain(entry.told)}]{value_of(entry)}") for entry in entries]
        if "CALL" in it.arguments[command]:
            words.append(quoted(f":CALL:({' '.join(it.calls)})"))
        elif it.arguments[command]:
            words.append("'*:FILE:_files'")
        cases += (
            f"{command})\n    _arguments \\\n        " + " \\\n        ".join(words) + "\n    ;;\n"
        )
    cases += "help) _describe command commands ;;\n"
    return ZSH.replace("@COMMANDS@", commands).replace("@CASES@", cases)


def completions_of(program):
    """Returns the files that complete the program's command lines, by their places below share/."""
    it = interface_of(program)
    return {
        "bash-completion/completions/mntgate": bash_of(it),
        "zsh/site-functions/_mntgate": zsh_of(it),
    }
