"""The page as HTML: the templates of `templates/`, filled in by Jinja.

Any text that a template shows is escaped by `shown`, so nothing that a recording or a program says becomes markup. The
page's policy lets only its two scripts run, by their checksums, and lets nothing be fetched. The page contains Plotly's
script compressed, which the browser unpacks.
"""

import base64
import functools
import gzip
import hashlib
import html
import json
import os
from collections.abc import Sequence
from typing import Any

from jinja2 import Environment, FileSystemLoader, StrictUndefined
from markupsafe import Markup
from plotly.offline import get_plotlyjs

from cdma_tools.report.figures import Plot

HERE = os.path.dirname(os.path.abspath(__file__))


def shown(value: object) -> Markup:
    """Returns a value as a page shows it: nothing in it is markup, and what isn't printable is an escape.

    Markup, which only templates and this module make, stays as it is.
    """
    if isinstance(value, Markup):
        return value
    text = "".join(
        letter if letter.isprintable() else letter.encode("unicode_escape").decode("ascii") for letter in str(value)
    )
    return Markup(html.escape(text))


@functools.cache
def templates() -> Environment:
    """Returns the templates, which escape all that they show; a value that is missing is an error."""
    return Environment(
        loader=FileSystemLoader(os.path.join(HERE, "templates")),
        autoescape=True,
        finalize=shown,
        undefined=StrictUndefined,
        keep_trailing_newline=True,
    )


def script_text(thing: Any) -> str:
    """Returns JSON that can't end the script that contains it."""
    text = json.dumps(thing, separators=(",", ":"), allow_nan=False)
    return text.replace("&", "\\u0026").replace("<", "\\u003c").replace(">", "\\u003e")


def checksum(script: str) -> str:
    """Returns the word by which a policy lets a script run."""
    return "'sha256-" + base64.b64encode(hashlib.sha256(script.encode()).digest()).decode() + "'"


@functools.cache
def packed(script: str) -> str:
    """Returns a script compressed by gzip, in base 64."""
    return base64.b64encode(gzip.compress(script.encode(), mtime=0, compresslevel=6)).decode()


def asset(name: str) -> str:
    """Returns the text of a file next to this one."""
    with open(os.path.join(HERE, name), encoding="utf-8") as file:
        return file.read()


def policy_of(scripts: list[str]) -> str:
    """Returns the page's policy: these scripts may run, and nothing may be fetched."""
    allowed = " ".join(map(checksum, scripts))
    return f"default-src 'none'; script-src {allowed}; style-src 'unsafe-inline'; img-src data: blob:"


def figures_of(plots: Sequence[Plot]) -> dict[str, Any]:
    """Returns the figures of plots by their names, without Plotly's own style."""
    figures: dict[str, Any] = {plot.name: json.loads(plot.figure.to_json()) for plot in plots}
    for figure in figures.values():
        figure["layout"].pop("template", None)
    return figures


def whole_page(page: object, plots: Sequence[Plot]) -> str:
    """Returns the HTML of a page: its contents (`document.Page`), and its plots in the order of its script."""
    plotly, own = get_plotlyjs(), asset("page.js")
    return templates().get_template("page.html").render(
        page=page,
        policy=policy_of([plotly, own]),
        style=Markup(asset("page.css")),
        figures=Markup(script_text(figures_of(plots))),
        plotly=Markup(packed(plotly)),
        script=Markup(own),
    )
