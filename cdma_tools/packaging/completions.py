"""Completions for bash and zsh, by shtab: options, their choices, the parts of a command, otherwise names of files.

shtab gets each parser in the form that it understands (`prepared`). What version 1.5.5 still gets wrong is replaced in
its text (`mended`), each time by what shtab itself would have to write. A version with another text is refused.
"""

import argparse

import shtab

from cdma_tools.arguments import Within
from cdma_tools.overwriting import OutputFolder
from cdma_tools.packaging.parsers import in_a_line, mended, parser_of

# shtab's script runs in a subshell, so that its variables and functions don't get into the user's shell. The words `=`
# are left out, into which bash splits --option=value. Names of files come from readline, which knows blanks and `~`.
BASH = """# What bash completes for {name}.
{function}() {{
    mapfile -t COMPREPLY < <(
{script}
        [ "${{COMP_WORDS[COMP_CWORD]}}" != = ] || COMP_WORDS[++COMP_CWORD]=
        words=("${{COMP_WORDS[@]:0:COMP_CWORD + 1}}") COMP_WORDS=()
        for word in "${{words[@]}}"; do
            [ "$word" = = ] || COMP_WORDS+=("$word")
        done
        COMP_CWORD=$((${{#COMP_WORDS[@]}} - 1))
        _shtab{function}
        [ ${{#COMPREPLY[@]}} -eq 0 ] || printf '%s\\n' "${{COMPREPLY[@]}}"
    )
}}
complete -o default -F {function} {name}
"""


def parts_of(parser: argparse.ArgumentParser) -> list[argparse.ArgumentParser]:
    """Returns the parsers of a command's parts; none if it has none."""
    actions = (action for action in parser._actions if isinstance(action, argparse._SubParsersAction))
    return [part for action in actions for part in action.choices.values()]


def is_repeated(action: argparse.Action) -> bool:
    """Whether an argument without an option takes several words."""
    return not action.option_strings and action.nargs in ("+", "*", argparse.REMAINDER)


def prepare(action: argparse.Action, shell: str, is_of_part: bool) -> None:
    """Gives an argument, of a command or of a part of one, the form that shtab understands."""
    action.help = in_a_line(action.help or "").replace("%%", "%").partition("; ")[0]
    action.choices = None if action.choices is None else list(action.choices)  # shtab takes a dict for parts
    if shell == "bash" or action.nargs == 0:
        return
    if action.choices is None and not isinstance(action.type, Within):
        is_folder = isinstance(action.type, type) and issubclass(action.type, OutputFolder)
        setattr(action, "complete", shtab.DIRECTORY if is_folder else shtab.FILE)
        # shtab leaves out an argument of the command itself if it has no choices, and writes one of a part twice if it
        # has some.
        action.choices = None if action.option_strings or is_of_part else shtab.Required.FILE
    if is_repeated(action):
        action.nargs = "+"
    # With the sign zsh also completes the value in --option=value.
    action.option_strings = [f"{name}=" if name.startswith("--") else name for name in action.option_strings]


def prepared(parser: argparse.ArgumentParser, shell: str, is_part: bool = False) -> argparse.ArgumentParser:
    """Returns a parser in the form that shtab understands."""
    for action in parser._actions:
        if isinstance(action, argparse._SubParsersAction):
            for choice in action._choices_actions:
                prepared(action.choices[choice.dest], shell, is_part=True).description = choice.help
        else:
            prepare(action, shell, is_part)
    return parser


def completion_of(name: str, module: str) -> str:
    """Returns the completion of a command for bash."""
    script = shtab.complete(prepared(parser_of(name, module), "bash"), "bash")
    # It offers only the first choice: its list needs [@], and is then separated by blanks.
    script = mended(script, r"(?<=_choices)(?=\"\n  current_action_choices=)", "[@]")
    script = mended(script, r"(?<=local IFS=\$')(?=\\n')", " ")
    # It completes the command by itself, with each word taken for the name of a file.
    script = mended(script, rf"complete -o filenames -F \w+ {name}\Z", "")
    return BASH.format(name=name, function="_" + name.replace("-", "_"), script=script)


def zsh_completion_of(name: str, module: str) -> str:
    """Returns the completion of a command for zsh."""
    parser = prepared(parser_of(name, module), "zsh")
    parts = parts_of(parser)
    repeated = sum(is_repeated(action) for one in (parser, *parts) for action in one._actions)
    script = shtab.complete(parser, "zsh")
    # An argument that takes several words takes one, and excludes the others: zsh writes several as *.
    script = mended(script, r'(?<=")\(\*\)(?=:)', "*", repeated)
    # Its lists are variables of the user's shell.
    script = mended(script, r"(?m)^(?=_shtab_\w+_options=)", "local -a ", 1 + len(parts))
    # It takes a part for granted: without any, its place would be that of an argument.
    if not parts:
        script = mended(script, rf" \\\n    ': :\w+_commands' \\\n    '\*::: :->{name}'", "")
    return script + "\n"
