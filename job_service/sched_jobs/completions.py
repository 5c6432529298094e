"""What shells complete: the commands and their options, as the command line has them."""

import argparse

from sched_jobs.command_line import parser

FILES = {"--state", "--output", "--metrics", "--directory", "--trace", "--sched"}
OF_FILES = {"reload", "run"}
OF_NAMES = {"cancel", "pause", "resume", "show", "log"}
NAMES = "sched-jobs list 2> /dev/null | sed 1d | cut -d ' ' -f 1"


def options() -> dict[str, dict[str, list[str] | None]]:
    """For each command its options, with the words that may follow one; None where none does."""
    commands = next(action for action in parser()._actions if isinstance(action, argparse._SubParsersAction)).choices
    return {name: {word: None if action.nargs == 0 else list(action.choices or [])
                   for action in command._actions for word in action.option_strings if word.startswith("--")}
            for name, command in commands.items()}


def bash() -> str:
    """The completion for bash."""
    found = options()
    cases = "\n".join(f"        {name}) words='{' '.join(words)}' ;;" for name, words in found.items())
    values = "\n".join(f"        {word}) COMPREPLY=($(compgen -W '{' '.join(choices)}' -- \"$this\")); return ;;"
                       for word, choices in sorted({word: tuple(choices) for words in found.values()
                                                    for word, choices in words.items() if choices}.items()))
    return f"""_sched_jobs() {{
    local this=${{COMP_WORDS[COMP_CWORD]}} before=${{COMP_WORDS[COMP_CWORD - 1]}} words=
    if [ "$COMP_CWORD" -eq 1 ]; then
        COMPREPLY=($(compgen -W '{" ".join(found)}' -- "$this"))
        return
    fi
    case $before in
{values}
        {"|".join(sorted(FILES))}) COMPREPLY=($(compgen -f -- "$this")); return ;;
    esac
    case ${{COMP_WORDS[1]}} in
{cases}
    esac
    case $this in
        -*) COMPREPLY=($(compgen -W "$words" -- "$this")) ;;
        *)
            case ${{COMP_WORDS[1]}} in
                {"|".join(sorted(OF_NAMES))}) COMPREPLY=($(compgen -W "$({NAMES})" -- "$this")) ;;
                *) COMPREPLY=($(compgen -f -- "$this")) ;;
            esac
    esac
}}
complete -o filenames -F _sched_jobs sched-jobs
"""


def zsh() -> str:
    """The completion for zsh."""
    cases = []
    for name, words in options().items():
        specs = " ".join(f"'{word}{value_of(word, choices)}'" for word, choices in words.items())
        names = NAMES.replace("'", '"')
        rest = f"'*:name:{{compadd -- $({names})}}'" if name in OF_NAMES else "'*:file:_files'"
        cases.append(f"    {name}) _arguments {specs} {rest} ;;")
    return f"""#compdef sched-jobs
if (( CURRENT == 2 )); then
    compadd {" ".join(options())}
    return
fi
local command=$words[2]
shift words
(( CURRENT -= 1 ))
case $command in
{chr(10).join(cases)}
esac
"""


def value_of(word: str, choices: list[str] | None) -> str:
    """What zsh is told of the value of an option."""
    if choices is None:
        return ""
    return f":value:({' '.join(choices)})" if choices else ":file:_files" if word in FILES else ":value:"


def fish() -> str:
    """The completion for fish."""
    found = options()
    lines = [f"complete -c sched-jobs -f -n __fish_use_subcommand -a '{' '.join(found)}'"]
    for name, words in found.items():
        when = f"-n '__fish_seen_subcommand_from {name}'"
        for word, choices in words.items():
            value = "" if choices is None else f" -x -a '{' '.join(choices)}'" if choices else " -r -F" if word in FILES else " -x"
            lines.append(f"complete -c sched-jobs {when} -l {word[2:]}{value}")
        if name in OF_NAMES:
            lines.append(f"complete -c sched-jobs -f {when} -a \"({NAMES})\"")
        if name in OF_FILES:
            lines.append(f"complete -c sched-jobs -F {when}")
    return "\n".join(lines) + "\n"
