"""Matplotlib without a screen: its settings, titles, and pictures as files."""

import argparse
import os
import warnings
from typing import Any

from cdma_tools.arguments import wrong
from cdma_tools.errors import Refused
from cdma_tools.overwriting import STANDARD, OutputFile
from cdma_tools.writing import write_out

NEEDED = "install the package python3-matplotlib, and run /usr/bin/python3"
FORMS = ("png", "svg")
LONGEST_TITLE = 200


def plotting(**settings: Any) -> Any:
    """Matplotlib's pyplot for files, with settings of matplotlib beyond those that all pictures share."""
    try:
        import matplotlib
    except ImportError as missing:
        raise Refused(f"{missing}: {NEEDED}") from None
    matplotlib.use("Agg")
    matplotlib.rcParams.update({"font.size": 9, "axes.axisbelow": True, **settings})
    from matplotlib import pyplot

    return pyplot


def title_of(text: str) -> str:
    """Returns a title as matplotlib can draw it: the text between dollar signs is mathematics."""
    if len(text) > LONGEST_TITLE or not all(letter.isprintable() for letter in text):
        raise argparse.ArgumentTypeError(f"not a line of at most {LONGEST_TITLE} characters: {text[:LONGEST_TITLE]!r}")
    if "$" in text:
        try:
            from matplotlib.cbook import is_math_text
            from matplotlib.mathtext import MathTextParser

            if is_math_text(text):
                MathTextParser("path").parse(text)
        except ImportError:
            pass  # if it is missing, drawing a picture reports that
        except ValueError:
            raise wrong("matplotlib can't read the mathematics between its dollar signs", text) from None
    return text


def plain(text: str) -> str:
    """A text in which a dollar sign is one, and begins no mathematics."""
    return text.replace("$", r"\$")


def form_of(path: str) -> str:
    """The form of a picture by the end of its name; that on standard output is PNG."""
    return "png" if path == STANDARD else os.path.splitext(path)[1][1:].lower()


def picture_of(text: str) -> OutputFile:
    """The name of a picture to write: .png, .svg, or - for standard output."""
    if form_of(text) not in FORMS:
        raise wrong("it ends neither with .png nor with .svg, and isn't -", text)
    return OutputFile(text)


def save(figure: Any, path: str, **settings: Any) -> None:
    """Writes a figure to a file, completely or not at all, with the same bytes each time."""
    form = form_of(path)
    metadata = {"Software": None} if form == "png" else {"Date": None}
    with write_out(path) as file, warnings.catch_warnings():
        warnings.simplefilter("ignore")  # of letters that the font lacks: they are shown as a box
        figure.savefig(file, format=form, **{"metadata": metadata, **settings})
