"""A manual page for each command, by argparse-manpage, made of the parser that its --help shows.

argparse-manpage 1.2.2 breaks each line of a text, lets roff take a line that begins with a full stop for a request, and
leaves out bounds, titles of groups, --help, the date and the version.
"""

import argparse
import re
import textwrap

from build_manpages.manpage import Manpage, _ManpageFormatter

from cdma_tools import RELEASED, __version__
from cdma_tools.arguments import STATUS
from cdma_tools.packaging.parsers import in_a_line, mended, parser_of

HEAD = '.\\" Made of the parser of {name}.\n.TH {title} 1 "{date}" "cdma-replay {version}" "User Commands"\n'
EXAMPLES = re.compile(r"    (\S.* )?cdma[-_](?!(?s:.)*\S  )")  # commands; a table has several blanks in a line


def escaped(text: str) -> str:
    """Returns a text in which nothing is a request or an escape of roff."""
    for letter, escape in (("\\", "\\e"), ("-", "\\-"), ("'", "\\(aq"), ("`", "\\(ga"), ("^", "\\(ha"), ("~", "\\(ti")):
        text = text.replace(letter, escape)
    return re.sub(r"(?m)^\.", r"\\&.", text)


def paragraph(text: str) -> str:
    """Returns a paragraph of a text as roff; an indented one stays as it is."""
    is_kept = text.startswith("    ")
    return f".nf\n.RS 4\n{escaped(textwrap.dedent(text))}\n.RE\n.fi" if is_kept else escaped(text)


class Formatter(_ManpageFormatter):  # type: ignore[misc]
    """Writes the texts of a parser as roff."""

    def format_text(self, text: str) -> str:
        """Returns a text in paragraphs."""
        return "\n.PP\n".join(paragraph(block) for block in re.split(r"\n\n+", text.strip("\n")))

    def format_action_group(self, action_group: argparse._ArgumentGroup, prog: str) -> str:
        """Returns the arguments of a group, with its title unless that is argparse's own."""
        title = str(action_group.title)
        head = "" if title in ("positional arguments", "options") else f".SS {escaped(title)}\n"
        return head + str(super().format_action_group(action_group, prog))

    def _get_help_string(self, action: argparse.Action) -> str | None:
        """Returns the help of an argument as --help shows it, with its bounds."""
        return self.of._get_help_string(action)

    def _format_args(self, action: argparse.Action, default_metavar: str) -> str:
        """Returns the values of an option, in italics."""
        return str(self._underline(self.of._format_args(action, action.dest.upper())))


def has_parts(group: argparse._ArgumentGroup) -> bool:
    """Whether a group of arguments has the parts of a command."""
    return any(isinstance(action, argparse._SubParsersAction) for action in group._group_actions)


def usage_of(parser: argparse.ArgumentParser) -> str:
    """Returns the usage of a command in one line."""
    return in_a_line(parser.format_usage().removeprefix("usage: "))


def prepare(parser: argparse.ArgumentParser) -> None:
    """Makes roff of what isn't escaped, gives --help a name that isn't left out, and lets the parts come last."""
    parser.usage = escaped(usage_of(parser)).replace("%", "%%")
    parser.prog = escaped(parser.prog)
    parser._action_groups.sort(key=has_parts)
    for action in parser._actions:
        if isinstance(action, argparse._HelpAction):
            action.option_strings = [", ".join(action.option_strings)]
        elif isinstance(action, argparse._SubParsersAction):
            for choice in action._choices_actions:
                choice.help = escaped(str(choice.help))
                prepare(action.choices[choice.dest])


def manual_of(name: str, module: str) -> str:
    """Returns the manual page of a command."""
    parser = parser_of(name, module)
    described, _, status = str(parser.description).partition(STATUS)
    summary, *blocks = re.split(r"\n\n+", described.strip("\n"))
    examples = [block for block in blocks if EXAMPLES.match(block)]
    parser.description = "\n\n".join(block for block in blocks if block not in examples)
    prepare(parser)
    line = in_a_line(summary).rstrip(".")
    sections = {"EXAMPLES": "\n\n".join(examples), "EXIT STATUS": in_a_line(status)}
    vars(parser)["man_short_description"] = escaped(line[:1].lower() + line[1:])
    vars(parser)["_manpage"] = [{"heading": heading, "content": text} for heading, text in sections.items() if text]
    page = Manpage(parser)
    page.mf = Formatter(name, page.formatter)
    page.synopsis = usage_of(parser).split()  # argparse-manpage takes what follows the last colon
    head = HEAD.format(name=name, title=name.upper(), date=RELEASED, version=__version__)
    text = mended(re.sub(r"\n\n+", "\n", str(page)), r'\A\.TH \S+ "1" Manual\n', head)
    return text + ".SH SEE ALSO\n.BR cdma_replay (1)\n"
