"""Completions of cdma_replay itself for bash and zsh, made from the table of its arguments.

The program's texts are fixed by its contract: it says only `bad words`. So the Tab key completes commands, options and
short lists of values. If nothing can be completed it says why: what a value may be, or that a command has no such
option.
"""

import shlex

from cdma_tools.scripting.arguments import COMMANDS, Bounds, bounds_text

NAME = "cdma_replay"
MOST_LISTED = 16  # values that are offered one by one
BASH = """# What bash completes for cdma_replay.
_cdma_replay_say() {{
    printf '\\n%s\\n%s' "$1" "${{COMP_LINE}}" >&2
}}
_cdma_replay() {{
    local word=${{COMP_WORDS[COMP_CWORD]}} command=${{COMP_WORDS[1]}} before=${{COMP_WORDS[COMP_CWORD - 1]}}
    local options='' left='' words='' one
    COMPREPLY=()
    case $before in
        '<' | '>' | '>>')
            compopt -o default
            return
            ;;
        =) before=${{COMP_WORDS[COMP_CWORD - 2]}} ;;
    esac
    [ "$word" != = ] || word=''
    if [ "$COMP_CWORD" -eq 1 ]; then
        mapfile -t COMPREPLY < <(compgen -W {names} -- "$word")
        return
    fi
    case $command in
{commands}        *)
            _cdma_replay_say "$command is not a command: "{names}
            return
            ;;
    esac
    for one in "${{COMP_WORDS[@]:2:COMP_CWORD - 2}}"; do
        if [[ $one == --* && " $options " != *" $one "* ]]; then
            _cdma_replay_say "$command has no $one: $options"
            return
        fi
    done
    case $before in
{values}        *)
            for one in $options; do
                [[ " ${{COMP_WORDS[*]:2:COMP_CWORD - 2}} " == *" $one "* ]] || left+=" $one"
            done
            words=$left
            ;;
    esac
    mapfile -t COMPREPLY < <(compgen -W "$words" -- "$word")
}}
complete -F _cdma_replay cdma_replay
"""
VALUE = """        --{name})
            [ -n "$word" ] || _cdma_replay_say {said}
            return
            ;;
"""
ZSH = """#compdef cdma_replay
# What zsh completes for cdma_replay.
local -a options
if (( CURRENT == 2 )); then
    compadd -- {names}
    return
fi
case $words[2] in
{commands}    *)
        compadd -x "$words[2] is not a command: "{listed}
        return
        ;;
esac
local one
for one in ${{(M)words[3,CURRENT-1]:#--*}}; do
    if [[ -z ${{(M)options:#(\\(*\\)|)${{one%%=*}}=*}} ]]; then
        compadd -x "$words[2] has no ${{one%%=*}}"
        return
    fi
done
shift words
(( CURRENT-- ))
_arguments $options
"""


def listed(name: str, bounds: Bounds) -> list[str]:
    """Returns the values of an option if they are few, otherwise none."""
    if isinstance(bounds, str):
        return []
    if name == "bits":
        return [str(bound) for bound in bounds]
    least, most = bounds
    return [str(value) for value in range(least, most + 1)] if most - least < MOST_LISTED else []


def all_options() -> dict[str, Bounds]:
    """Returns the options of all commands; each has the same values in every command that has it."""
    return {name: bounds for options in COMMANDS.values() for name, bounds in options.items()}


def value_case(name: str, bounds: Bounds) -> str:
    """Returns what bash does at the value of an option: offers it, or says what it may be."""
    values = listed(name, bounds)
    if values:
        return f"        --{name}) words={shlex.quote(' '.join(values))} ;;\n"
    said = shlex.quote(f"--{name}: {bounds_text(name, bounds)}")
    return VALUE.format(name=name, said=said)


def bash_completion() -> str:
    """Returns the completion for bash."""
    commands = "".join(
        f"        {command}) options={shlex.quote(' '.join(f'--{name}' for name in options))} ;;\n"
        for command, options in COMMANDS.items()
    )
    values = "".join(value_case(name, bounds) for name, bounds in all_options().items())
    return BASH.format(names=shlex.quote(" ".join(COMMANDS)), commands=commands, values=values)


def zsh_option(name: str, bounds: Bounds) -> str:
    """Returns the specification of an option for zsh's `_arguments`, quoted for the shell."""
    told = bounds_text(name, bounds)
    values = listed(name, bounds)
    action = f"({' '.join(values)})" if values else f"{{compadd -x \"--{name}: {told}\"}}"
    return shlex.quote(f"(--{name})--{name}=[{told}]:{name}:{action}")


def zsh_completion() -> str:
    """Returns the completion for zsh."""
    commands = "".join(
        f"    {command}) options=({' '.join(zsh_option(name, bounds) for name, bounds in options.items())}) ;;\n"
        for command, options in COMMANDS.items()
    )
    return ZSH.format(names=" ".join(COMMANDS), listed=shlex.quote(" ".join(COMMANDS)), commands=commands)
