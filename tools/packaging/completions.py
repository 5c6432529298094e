"""Completions of the command line for bash, zsh and fish, from the program's help."""

from __future__ import annotations

from collections.abc import Iterator

from help_text import HELP_COMMAND, Command, Option, Program

NOTE = "# Completions of sched. Made from the program's help by tools/manual."


# What bash reads, but for what the help says. It needs nothing of the package bash-completion.
BASH = '''@NOTE@

_sched_among() {
    # Whether the first word is one of the others.
    [[ " ${*:2} " == *" $1 "* ]]
}

_sched_files() {
    mapfile -t COMPREPLY < <(compgen -f -- "$1")
    compopt -o filenames 2> /dev/null || true
}

_sched() {
    local word=${COMP_WORDS[COMP_CWORD]} before=${COMP_WORDS[COMP_CWORD - 1]}
    local options valued files places place=2
    COMPREPLY=()
    if (( COMP_CWORD == 1 )); then
        mapfile -t COMPREPLY < <(compgen -W '@WORDS@' -- "$word")
        return
    fi
    # bash takes '--option=value' for three words.
    if [[ $word == = ]]; then
        word=
    elif [[ $before == = ]]; then
        before=${COMP_WORDS[COMP_CWORD - 2]}
    fi
    case ${COMP_WORDS[1]} in
@CASES@
    @HELP@)
        (( COMP_CWORD > 2 )) || mapfile -t COMPREPLY < <(compgen -W '@NAMES@' -- "$word")
        return
        ;;
    *)
        return
        ;;
    esac
    if _sched_among "$before" $valued; then
        ! _sched_among "$before" $files || _sched_files "$word"
    elif [[ $word == -* ]]; then
        mapfile -t COMPREPLY < <(compgen -W "$options" -- "$word")
    else
        while (( place < COMP_CWORD )); do
            if _sched_among "${COMP_WORDS[place]}" $valued; then
                [[ ${COMP_WORDS[place + 1]} != = ]] || place=$(( place + 1 ))
                place=$(( place + 1 ))
            elif [[ ${COMP_WORDS[place]} != -?* ]]; then
                places=$(( places - 1 ))
            fi
            place=$(( place + 1 ))
        done
        (( places <= 0 )) || _sched_files "$word"
    fi
}

complete -F _sched sched
'''


# What fish reads in front of the lines that the help makes.
FISH = """@NOTE@

function __sched_has_place --argument-names command places --description 'Whether a further file has a place behind a command'
    set -l words (commandline -opc)
    test "$words[2]" = $command; or return 1
    set -l is_value false
    for word in $words[3..]
        if $is_value
            set is_value false
        else if contains -- $word $argv[3..]
            set is_value true
        else if not string match -q -- '-?*' $word
            set places (math $places - 1)
        end
    end
    test $places -gt 0
end

complete -c sched -f
"""


def names(program: Program) -> list[str]:
    """The names of the commands."""
    return [*(command.name for command in program.commands), HELP_COMMAND]


def flags(options: list[Option]) -> list[str]:
    """The words that begin the options."""
    return [flag for option in options for flag in option.flags]


def valued(command: Command) -> list[str]:
    """The words that begin the options of a command that take a value."""
    return flags([option for option in command.options if option.value])


def places(command: Command) -> int:
    """How many files stand on the command line of a command."""
    return sum(argument.is_file for argument in command.arguments)


def quoted(text: str) -> str:
    """A text as a word of a shell."""
    return "'" + text.replace("'", "'\\''") + "'"


def bash_case(command: Command) -> str:
    """What bash is told of a command: its options, those that take a value, those whose value is a file, and how many files stand
    on its command line."""
    options, files = flags(command.options), flags([option for option in command.options if option.is_file])
    return f'''    {command.name})
        options='{" ".join(options)}' valued='{" ".join(valued(command))}' files='{" ".join(files)}' places={places(command)}
        ;;'''


def bash(program: Program) -> str:
    """For bash."""
    words = {
        "@NOTE@": NOTE, "@HELP@": HELP_COMMAND, "@NAMES@": " ".join(names(program)),
        "@WORDS@": " ".join([*names(program), *flags(program.itself.options)]),
        "@CASES@": "\n".join(map(bash_case, program.commands)),
    }
    text = BASH
    for stand_in, said in words.items():
        text = text.replace(stand_in, said)
    return text


def zsh_said(text: str) -> str:
    """What zsh shows of a word: brackets and colons are signs of its own."""
    return "".join(f"\\{letter}" if letter in "[]:\\" else letter for letter in text)


def zsh_option(option: Option) -> str:
    """An option, as `_arguments` reads it."""
    value = f":{option.value}:{'_files' if option.is_file else ' '}" if option.value else ""
    said = f"[{zsh_said(option.help)}]{value}"
    if option.letter:
        return f"'({' '.join(option.flags)})'{{{','.join(option.flags)}}}{quoted(said)}"
    return quoted(f"{option.flags[0]}{said}" if not option.value else f"{option.flags[0]}={said}")


def zsh_case(command: Command) -> str:
    """What zsh is told of a command."""
    words = [zsh_option(option) for option in command.options]
    words += [quoted(f"{place}:{argument.name}:{'_files' if argument.is_file else ' '}")
              for place, argument in enumerate(command.arguments, 1)]
    return f"        {command.name})\n            _arguments " + " \\\n                ".join(words) + "\n            ;;"


def zsh(program: Program) -> str:
    """For zsh."""
    about = [(command.name, command.about) for command in program.commands] + [(HELP_COMMAND, program.help_about)]
    described = "\n".join("        " + quoted(f"{name}:{zsh_said(said)}") for name, said in about)
    options = " \\\n        ".join(map(zsh_option, program.itself.options))
    cases = "\n".join(map(zsh_case, program.commands))
    return f'''#compdef sched
{NOTE}

_sched_commands() {{
    local -a commands=(
{described}
    )
    _describe -t commands command commands
}}

_sched() {{
    local curcontext=$curcontext state state_descr line
    typeset -A opt_args
    _arguments -C {options} \\
        '1:command:_sched_commands' '*::word:->words'
    [[ $state == words ]] || return
    case $line[1] in
{cases}
        {HELP_COMMAND})
            _arguments '1:command:_sched_commands'
            ;;
    esac
}}

if [[ $funcstack[1] == _sched ]]; then
    _sched "$@"
else
    compdef _sched sched
fi
'''


def fish_option(condition: str, option: Option) -> str:
    """An option where a condition holds."""
    letter = f" -s {option.letter}" if option.letter else ""
    value = (" -r -F" if option.is_file else " -x") if option.value else ""
    return f"complete -c sched -n {quoted(condition)}{letter} -l {option.name}{value} -d {quoted(option.help)}"


def fish_lines(program: Program) -> Iterator[str]:
    """The lines for fish."""
    first = "__fish_use_subcommand"
    for option in program.itself.options:
        yield fish_option(first, option)
    about = [(command.name, command.about) for command in program.commands] + [(HELP_COMMAND, program.help_about)]
    for name, said in about:
        yield f"complete -c sched -n {first} -a {name} -d {quoted(said)}"
    for command in program.commands:
        seen = f"__fish_seen_subcommand_from {command.name}"
        for option in command.options:
            yield fish_option(seen, option)
        if places(command):
            condition = " ".join(["__sched_has_place", command.name, str(places(command)), *valued(command)])
            yield f"complete -c sched -n {quoted(condition)} -F"
    yield f"complete -c sched -n '__fish_seen_subcommand_from {HELP_COMMAND}' -a {quoted(' '.join(names(program)))}"


def fish(program: Program) -> str:
    """For fish."""
    return FISH.replace("@NOTE@", NOTE) + "\n".join([*fish_lines(program), ""])
