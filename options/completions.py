"""Generates completions for bash, zsh and fish from a table."""

from __future__ import annotations

import re
from typing import Dict, List, Sequence

from table import Option, Program, SHOWN, Wrong

# Completes a command that begins at the word $1, as if it stood alone.
BASH_COMMAND = """
_NAME_command() {
    if declare -F _command_offset > /dev/null; then
        _command_offset "$1"
    elif ((COMP_CWORD == $1)); then
        mapfile -t COMPREPLY < <(compgen -c -- "${COMP_WORDS[COMP_CWORD]}"; compgen -f -- "${COMP_WORDS[COMP_CWORD]}")
    else
        mapfile -t COMPREPLY < <(compgen -f -- "${COMP_WORDS[COMP_CWORD]}")
    fi
}"""

BASH_BEFORE_COMMAND = """\
    # After the command's name it is the command's turn.
    for ((at = 1; at < COMP_CWORD; at++)); do
        case $ended${COMP_WORDS[at]} in
        --) ended=' ' ;;
        VALUED)
            ((at++))
            [[ ${COMP_WORDS[at]} == = ]] && ((at++))
            ;;
        -*) ;;
        *)
            if ((others++ == COUNT)); then
                _NAME_command "$at"
                return
            fi
            ;;
        esac
    done"""

BASH_FIND_COMMAND = """\
    for ((at = 1; at < COMP_CWORD; at++)); do
        case ${COMP_WORDS[at]} in
        COMMANDS)
            command=${COMP_WORDS[at]}
            break
            ;;
        esac
    done"""

# The options that take a value have a dash before them for __fish_complete_subcommand, which takes a first word that
# begins with two for itself.
FISH_COMMAND = """\
# Whether an option, or the command and its own words, may stand at the cursor.
function _NAME_takes -a what
    set -l words (commandline -opc)
    set -e words[1]
    set -l others 0
    set -l ends no
    set -l skips no
    for word in $words
        switch $skips$ends$word
            case 'yes*'
                set skips no
            case nono--
                set ends yes
            case 'nono--*=*'
            case VALUED
                set skips yes
            case 'nono-*'
            case '*'
                set others (math $others + 1)
        end
    end
    if test $what = command
        test $others -ge COUNT
    else
        test $ends = no -a $others -le COUNT
    end
end

complete -c PROGRAM -n '_NAME_takes command' -x -a '(__fish_complete_subcommand --fcs-skip=SKIPS - WORDS)'"""


def function_of(program: Program) -> str:
    return "_" + re.sub(r"\W", "_", program.name)


def filled(text: str, program: Program, **values: str) -> List[str]:
    """Returns the lines of a text, with what stands for its names in capitals."""
    for name, value in {"NAME": function_of(program)[1:], "PROGRAM": program.name, **values}.items():
        text = value.join(re.split(rf"\b{name}\b|(?<=_){name}(?=_|\b)", text))
    return text.split("\n")


def names_of(options: List[Option]) -> List[str]:
    return [name for it in options for name in it.names]


def folded(words: List[str], front: str, joint: str, fold: str, width: int = 118) -> List[str]:
    """Returns words in lines of at most this many columns, each but the last with what it is folded by."""
    lines = [front]
    for position, word in enumerate(words):
        piece = word + (joint if position + 1 < len(words) else "")
        if len(lines[-1]) + len(piece.rstrip()) > width:
            lines[-1] = lines[-1].rstrip() + fold
            lines.append(re.sub(r"\S.*", "", front) + "    ")
        lines[-1] += piece
    return lines


def quoted(text: str) -> str:
    """Returns a word as all three shells have it, if no quotation mark is in it."""
    if "'" in text:
        raise Wrong(f"a quotation mark that a shell would see: {text}")
    return f"'{text}'"


def reply(words: str) -> str:
    return f"mapfile -t COMPREPLY < <({words})"


def bash_of_value(kind: str, words: Sequence[str]) -> List[str]:
    """Returns what completes a value of a kind."""
    if kind == "words":
        return [reply(f'compgen -W {quoted(" ".join(words))} -- "$word"')]
    letter = {"folder": "d", "input": "f", "output": "f", "prefix": "f", "file": "f", "command": "c",
              "group": "g"}.get(kind)
    names = ["compopt -o filenames 2> /dev/null"] if letter in ("d", "f") else []
    return [reply(f'compgen -{letter} -- "$word"'), *names] if letter else []


def bash_values(options: List[Option]) -> List[str]:
    """Returns a case of the word before, for options that take a value."""
    actions: Dict[str, List[Option]] = {}
    for option in options:
        if option.value:
            actions.setdefault("\n".join(bash_of_value(option.takes.kind, option.takes.words)), []).append(option)
    lines = ["    case $before in"]
    for action, those in actions.items():
        lines += folded(names_of(those), "    ", " | ", " \\")
        lines[-1] += ")"
        lines += [f"        {it}" for it in [*action.split("\n"), "return", ";;"] if it]
    return [*lines, "    esac"] if actions else []


def bash_operands(program: Program) -> List[str]:
    """Returns what completes a word that is no option."""
    what = program.keys.get("Operands", "")
    patterns = re.findall(r"\*\.\w+|--\w+", what)
    if program.has_command:
        lines = []
        for position, kind in enumerate(program.before_command):
            lines += [f"{position})", *(f"    {it}" for it in bash_of_value(kind.split()[1], ())), "    ;;"]
        command = reply('compgen -c -- "$word"; compgen -f -- "$word"')
        return ["case $others in", *lines, f"*) {command} ;;", "esac"] if lines else [command]
    if len(patterns) == 3:
        return [f"local end='{patterns[0]}'",
                f"[[ \" ${{COMP_WORDS[*]}} \" == *' {patterns[1]} '* ]] && end='{patterns[2]}'",
                reply('compgen -d -- "$word"; compgen -f -X "!$end" -- "$word"'), "compopt -o filenames 2> /dev/null"]
    return bash_of_value("file" if what == "files" else "words", what.split(", "))


def bash_words(program: Program) -> List[str]:
    """Returns what completes an option or another word."""
    options = names_of(program.shown)
    if not options:
        return bash_operands(program)
    if program.has_command:
        options.append("--")
    lines = folded(options, "    mapfile -t COMPREPLY < <(compgen -W '", " ", "")
    lines[-1] += "' -- \"$word\")"
    is_option = "$word == -* && -z $ended" if program.has_command else "$word == -*"
    return [f"if [[ {is_option} ]]; then", *lines, "else", *(f"    {it}" for it in bash_operands(program)), "fi"]


def bash_of(program: Program, commands: List[Program]) -> List[str]:
    name, local = function_of(program), "word=$2 before=$3"
    lines, options = ["    COMPREPLY=()"], list(program.shown)
    if program.has_command:
        local += " ended='' others=0 at"
        valued = folded(names_of([it for it in options if it.value]), "        ", " | ", " \\")
        lines += filled(BASH_BEFORE_COMMAND, program, VALUED="\n".join(valued).strip(),
                        COUNT=str(len(program.before_command)))
    if commands:
        local += " command='' at"
        names = [it.name.split()[1] for it in commands]
        lines += filled(BASH_FIND_COMMAND, program, COMMANDS=" | ".join(names))
        options += [it for command in commands for it in command.shown]
    lines += ["    if [[ $before == = ]]; then", "        before=${COMP_WORDS[COMP_CWORD - 2]}",
              "    elif [[ $word == = ]]; then", "        word=", "    fi"]
    lines += bash_values(list({it.name: it for it in options}.values()))
    if commands:
        lines.append("    case $command in")
        for command in commands:
            lines += [f"    {command.name.split()[1]})", *(f"        {it}" for it in bash_words(command)), "        ;;"]
        lines += [f"    *) {it} ;;" for it in bash_of_value("words", [*names, *names_of(program.shown)])]
        lines.append("    esac")
    else:
        lines += [f"    {it}" for it in bash_words(program)]
    lines = [f"{name}() {{", f"    local {local}", *lines, "}"]
    if program.has_command:
        lines += filled(BASH_COMMAND, program)
    return [*lines, "", f"complete -F {name} {program.name}"]


def zsh_of_value(option: Option, program: str) -> str:
    default = f" ({option.of('Default', program)})" if option.of("Default", program) else ""
    if option.takes.kind == "words":
        return f":{option.value.lower()}:({' '.join(option.takes.words)})"
    files = f':file:_files -g "{option.takes.pattern}(-.)"' if option.takes.pattern else ":file:_files"
    values = {"flag": "", "folder": ":folder:_files -/", "input": files, "output": files, "prefix": files,
              "command": ":command:_command_names -e", "group": ":group:_groups", "digits": f":octal digits{default}"}
    return values.get(option.takes.kind, f":{option.takes.kind}{default}")


def zsh_options(program: Program) -> List[str]:
    """Returns a word for each option, as _arguments reads it."""
    lines = []
    for it in program.shown:
        what = re.sub(r"([\[\]])", r"\\\1", it.short(program.name))
        tail = f"{'=' if it.value else ''}[{what}]{zsh_of_value(it, program.name)}"
        names = [it.letter, it.name] if it.letter else it.names
        front = "(- *)" if it.name in SHOWN else f"({' '.join(names)})" if len(names) > 1 else ""
        front = "*" if it.of("Repeats") else front
        if it.letter:
            lines.append(f"{quoted(front)}{{{it.letter},{it.name}}}{quoted(tail)}")
        else:
            lines += [quoted(f"{front}{name}{tail}") for name in names]
    return lines


def zsh_operands(program: Program) -> List[str]:
    what = program.keys.get("Operands", "")
    if program.has_command:
        kinds = {"a file": "file:_files", "a folder": "folder:_files -/"}
        before = [quoted(f"{place}:{kinds[it]}") for place, it in enumerate(program.before_command, 1)]
        shift = f"{{ shift {len(before)} words; (( CURRENT -= {len(before)} )); _normal }}" if before else " _normal"
        return [*before, f"'(-){len(before) + 1}:command: _command_names -e'", f"'*::arguments:{shift}'"]
    if what == "files":
        return ["'*:file:_files'"]
    return ['"*:file:_files -g \'$files\'"' if what.startswith("files ") else f"'1:word:({what.replace(',', '')})'"]


def zsh_of(program: Program, commands: List[Program]) -> List[str]:
    lines = []
    patterns = re.findall(r"\*\.\w+|--\w+", program.keys.get("Operands", ""))
    if patterns:
        lines.append(f"local files='{patterns[0]}(-.)'")
        lines.append(f"(( ${{words[(I){patterns[1]}]}} )) && files='{patterns[2]}(-.)'")
    if not commands:
        return [*lines, *" \\\n    ".join(["_arguments -S", *zsh_options(program), *zsh_operands(program)]).split("\n")]
    words = " ".join(f'{it.name.split()[1]}\\:"{it.keys["Help"]}"' for it in commands)
    options = [*zsh_options(program), f"'1:command:(({words}))'", "'*::argument:->rest'"]
    lines += ["local context state line", *" \\\n    ".join(["_arguments -S", *options]).split("\n"),
              "[[ $state == rest ]] && case $line[1] in"]
    for it in commands:
        asked = " \\\n        ".join(["_arguments -S", *zsh_options(it), *zsh_operands(it)])
        lines += [*f"{it.name.split()[1]})\n    {asked}\n    ;;".split("\n")]
    return [*lines, "esac"]


def fish_of_value(option: Option) -> str:
    folders = " -x -a '(__fish_complete_directories)'"
    values = {"flag": "", "folder": folders, "input": " -r -F", "output": " -r -F",
              "command": " -x -a '(__fish_complete_command)'", "group": " -x -a '(__fish_complete_groups)'",
              "words": f" -x -a '{' '.join(option.takes.words)}'"}
    return values.get(option.takes.kind, " -x")


def fish_name(name: str) -> str:
    return f"-l {name[2:]}" if name.startswith("--") else f"-o {name[1:]}"


def fish_options(program: Program, options: List[Option], condition: str) -> List[str]:
    front = f"complete -c {program.name.split()[0]}{condition}"
    return [
        f"{front}{f' -s {it.letter[1]}' if it.letter else ''} {fish_name(name)}{fish_of_value(it)}"
        f" -d {quoted(it.short(program.name))}"
        for it in options for name in it.names
    ]


def fish_commands(program: Program, commands: List[Program]) -> List[str]:
    words = [it.name.split()[1] for it in commands]
    front = f"complete -c {program.name}"
    lines = [f"set -l no_command 'not __fish_seen_subcommand_from {' '.join(words)}'", f"{front} -f"]
    lines += [f"{front} -n $no_command -a {word} -d {quoted(it.keys['Help'])}" for word, it in zip(words, commands)]
    lines += fish_options(program, program.shown, " -n $no_command")
    for word, it in zip(words, commands):
        others = " ".join(words[: words.index(word)])
        but = f"; and not __fish_seen_subcommand_from {others}" if others else ""
        operands = it.keys["Operands"].replace(",", "")
        lines.append(f"set -l of_{word} '__fish_seen_subcommand_from {word}{but}'")
        lines.append(f"{front} -n $of_{word} {'-F' if operands == 'files' else f'-a {quoted(operands)}'}")
        lines += fish_options(it, it.shown, f" -n $of_{word}")
    return lines


def fish_of(program: Program, commands: List[Program]) -> List[str]:
    name = program.name
    if commands:
        return fish_commands(program, commands)
    if program.has_command:
        words, count = names_of([it for it in program.shown if it.value]), len(program.before_command)
        values = {"VALUED": " ".join(f"nono{it}" for it in words), "WORDS": " ".join(words)}
        lines = filled(FISH_COMMAND, program, COUNT=str(count), SKIPS=str(count + 1), **values)
        return [*lines, *fish_options(program, program.shown, f" -n '{function_of(program)}_takes option'")]
    patterns = re.findall(r"\.\w+|--\w+", program.keys["Operands"])
    front, contains = f"complete -c {name}", f"__fish_contains_opt {patterns[1][2:]}"
    lines = [f"{front} -f", f"{front} -n '{contains}' -k -a '(__fish_complete_suffix {patterns[2]})'",
             f"{front} -n 'not {contains}' -k -a '(__fish_complete_suffix {patterns[0]})'"]
    return [*lines, *fish_options(program, program.shown, "")]


SHELLS = {"bash": bash_of, "zsh": zsh_of, "fish": fish_of}


def completion_of(shell: str, program: Program, commands: List[Program], made: str) -> str:
    """Returns the text of a file."""
    lines = [f"#compdef {program.name}"] if shell == "zsh" else []
    lines += [f"# Completion of {program.name} for {shell}.", f"# {made}", ""]
    return "\n".join([*lines, *SHELLS[shell](program, commands), ""])
