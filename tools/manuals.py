"""What is made from the help of the program: manual pages, by Debian's help2man, and completions for bash."""

import os
import re
import subprocess
import tempfile
from pathlib import Path

# A command in the list of the program's help, and an option with its value in that of a command.
COMMAND = re.compile(r"^  ([a-z]+) +(\S.*)$", re.MULTILINE)
OPTION = re.compile(r"^ +(?:-\w, )?(--[a-z-]+)(?: <([^>]+)>)?", re.MULTILINE)
# The names of programs in the help of `lib`, each with its parameters.
PROGRAM_NAME = re.compile(r"\b([a-z]+) \((?:[A-Z] )?T\)")
# The scripts that are packed beside the program.
SCRIPTS = ("ultra-view", "ultra-study", "ultra-export")
COMPLETIONS = """\
# Completions of ultra for bash, made from its help.
_ultra() {{
    local word=${{COMP_WORDS[COMP_CWORD]}} words=
    if [ "$COMP_CWORD" -eq 1 ]; then
        words="{commands} --help --version"
    else
        case "${{COMP_WORDS[1]}} ${{COMP_WORDS[COMP_CWORD - 1]}}" in
{values}
            *)
                case "${{COMP_WORDS[1]}} $word" in
{options}
                esac
                ;;
        esac
    fi
    mapfile -t COMPREPLY < <(compgen -W "$words" -- "$word")
}}
complete -o default -F _ultra ultra
"""


def help_of(program, *words):
    ran = subprocess.run([program, *words, "--help"], capture_output=True, text=True, check=True)
    return ran.stdout


def section(text, name):
    """The lines of a section of a help text, up to the next one."""
    return re.split(r"\n\n(?=\S)|\Z", text.partition(f"\n{name}:\n")[2], maxsplit=1)[0]


def commands_of(program):
    """Each command of the program, with what it does in one line."""
    found = dict(COMMAND.findall(section(help_of(program), "Commands")))
    found.pop("help", None)
    return found


def options_of(text):
    """Each option in the help of a command, with the words that it takes, if they are listed."""
    parts = re.split(r"\n(?= +(?:-\w, )?--[a-z])", "\n" + section(text, "Options"))
    found = (it for it in map(OPTION.match, parts) if it)
    # a value that is one of some words is shown as these: <all|end>
    return {it[1]: it[2].split("|") if "|" in (it[2] or "") else [] for it in found}


def completions(program):
    """The completions for bash: commands, options, and the words that options and `lib` take."""
    values, options, commands = [], [], commands_of(program)
    for command in commands:
        text = help_of(program, command)
        found = options_of(text)
        options.append(f'                    "{command} -"*) words="{" ".join(found)}" ;;')
        for option, words in found.items():
            if words:
                values.append(f'            "{command} {option}") words="{" ".join(words)}" ;;')
        if names := PROGRAM_NAME.findall(text):
            values.append(f'            "{command} {command}") words="{" ".join(dict.fromkeys(names))}" ;;')
    values.append(f'            "help help") words="{" ".join(commands)}" ;;')
    return COMPLETIONS.format(commands=" ".join([*commands, "help"]), values="\n".join(values), options="\n".join(options))


def manual_page(called, name, about, fact):
    """A manual page by help2man, of what a command says of itself."""
    words = ["help2man", "--no-info", "--section", "1", "--name", about, "--manual", "ultra",
             "--source", f"ultra {fact['version']}", "--version-string", f"{name} {fact['whole']}", str(called)]
    places = {**os.environ, "SOURCE_DATE_EPOCH": str(fact["time"]), "LC_ALL": "C.UTF-8", "TZ": "UTC"}
    return subprocess.run(words, env=places, capture_output=True, text=True, check=True).stdout


def manual_pages(folder, fact):
    """The manual pages of the commands in a folder, and of each command of the program, by their names."""
    program, pages = folder / "ultra", {}
    about = help_of(program).splitlines()[0]
    pages["ultra"] = manual_page(program, "ultra", about, fact)
    for it in SCRIPTS:
        pages[it] = manual_page(folder / it, it, help_of(folder / it).splitlines()[0], fact)
    with tempfile.TemporaryDirectory() as room:
        for command, about in commands_of(program).items():
            # help2man calls a command without arguments
            called = Path(room) / f"ultra-{command}"
            called.write_text(f'#!/bin/sh\nexec {program} {command} "$@"\n')
            called.chmod(0o755)
            pages[called.name] = manual_page(called, called.name, about, fact)
    return pages
