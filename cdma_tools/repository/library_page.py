"""The reference page of the library `cdma`, docs/LIBRARY.md, from the docstrings of its public names.

`python3 -m cdma_tools.repository.library_page` prints the page. With --write it replaces docs/LIBRARY.md.
"""

import argparse
import ast
import importlib
import inspect
import itertools
import os
import re
import sys
from collections.abc import Iterator
from types import ModuleType
from typing import Any

from cdma_tools.places import TOP
from cdma_tools.writing import write_beside

PAGE = os.path.join(TOP, "docs", "LIBRARY.md")
WIDTH = 110  # characters of a signature in one line
GROUPS = {
    "Cells": ("Cell", "read_script", "make"),
    "Chips and bits": ("Chips", "load", "save", "bits", "bit_text"),
    "What a handset hears": ("find", "survey", "follow", "Run", "listen", "Listening"),
    "Events": (
        "Event", "Pilot", "Rank", "Sync", "Page", "Frame", "TrafficMessage", "PilotSets", "RawMessage", "Table",
    ),
    "Radios": (
        "record", "Recording", "lock", "Lock", "RecordedPath", "CellFacts", "import_capture", "Imported",
        "code_domain", "CodeDomain", "Limit",
    ),
    "Frames and margins": ("explain", "Explanation", "margin", "Margin", "Signs"),
    "Plots": ("plot.correlation", "plot.code_domain", "plot.run", "plot.constellation"),
    "The program": ("use_model", "use_program"),
    "Errors": ("Error", "ParameterError", "FileError", "ScriptError", "NoProgramError"),
}  # fmt: skip
# Parts of classes that serve only the tools.
INSIDE = ("kept", "analysis", "checks", "compared", "result", "as_json", "line")
# Classes whose objects a user makes.
MADE = ("Cell",)
# Public names that the page's head describes.
DESCRIBED = ("Bits", "ListenSource", "__version__", "plot")
HEAD = """\
# The library

<!-- Generated from the docstrings of cdma/: python3 -m cdma_tools.repository.library_page --write -->

"""
TYPES = """\
A checkout's top folder, or the place where the package is installed, has to be in Python's path. The library is typed.
These names stand in signatures:

| Name | Values |
|---|---|
| `Source` | chips, or the path of a sample file |
| `Samples` | chips, or an array of whole numbers of shape (n, 2) |
| `Number` | a whole number, also one of numpy |
| `HexNumber` | such a number, or its hex digits |
| `Bits` | bits as N:HEX, or a row of numbers 0 and 1 |
| `CellSource` | a `Source`, or a tuple of it with its level in dB and its delay in chips |
| `RecordingSource` | a `Recording`, an array of complex numbers, or a path |
| `ListenSource` | a path or an address, an open file, or a callable that gives blocks |

In the examples `examples` is the repository's folder of that name, `folder` an empty folder, and `numpy` is imported.
Tests run each of them.
"""


def found(name: str) -> tuple[Any, ModuleType]:
    """Returns a public object by its name in `cdma`, and the module that defines it."""
    value: Any = importlib.import_module("cdma")
    for part in name.split("."):
        value = getattr(value, part)
    return value, importlib.import_module(value.__module__)


def definition(value: Any, module: ModuleType) -> ast.ClassDef | ast.FunctionDef:
    """Returns the statement that defines a function or a class, the last one if a function has several signatures."""
    for node in reversed(ast.parse(inspect.getsource(module)).body):
        if isinstance(node, (ast.ClassDef, ast.FunctionDef)) and node.name == value.__name__:
            return node
    raise LookupError(value.__name__)


class Constants(ast.NodeTransformer):
    """Replaces the constants of a module by their values."""

    def __init__(self, module: ModuleType) -> None:
        """Takes the module."""
        self.module = module

    def visit_Name(self, node: ast.Name) -> ast.expr:
        """Returns the value of a name in capitals."""
        return ast.Constant(getattr(self.module, node.id)) if node.id.isupper() or "_" in node.id else node


def call_text(name: str, node: ast.FunctionDef, module: ModuleType) -> str:
    """Returns how a function is called, one parameter to a line if it is long.

    A default other than None says the type of a parameter by itself.
    """
    for place, default in enumerate(node.args.kw_defaults):
        node.args.kw_defaults[place] = default and Constants(module).visit(default)
    for argument, value in zip(node.args.kwonlyargs, node.args.kw_defaults):
        if isinstance(value, ast.Constant) and value.value not in (None, ...):
            argument.annotation = None
    arguments = ast.unparse(node.args).replace(" | ", "|").removeprefix("self, ").removeprefix("self").removeprefix("cls, ")
    returned = ast.unparse(node.returns).strip("'").replace(" | ", "|") if node.returns else "None"
    result = "" if returned == "None" else f" -> {returned}"
    text = f"{name}({arguments}){result}"
    if len(text) <= WIDTH:
        return text
    parts = re.split(r", (?![^\[(]*[\])])", arguments)
    return f"{name}(\n" + "".join(f"    {part},\n" for part in parts) + f"){result}"


def code(text: str) -> str:
    """Returns a text as a block of code."""
    return "".join(f"    {line}\n" if line else "\n" for line in text.splitlines())


def as_page(text: str) -> str:
    """Returns a docstring as Markdown: its examples become blocks of code."""
    lines: list[str] = []
    is_example = False
    for line in inspect.cleandoc(text).splitlines():
        is_example = line.startswith(">>>") or is_example and bool(line)
        lines.append(f"    {line}" if is_example else line)
    return "\n".join(lines) + "\n"


def field_lines(node: ast.ClassDef) -> Iterator[str]:
    """Yields the fields of a class, those of one type after another in a line."""
    fields = [
        (ast.unparse(one.target), ast.unparse(one.annotation).replace(" | ", "|"))
        for one in node.body
        if isinstance(one, ast.AnnAssign) and "ClassVar" not in ast.unparse(one.annotation)
        and ast.unparse(one.target) not in INSIDE
    ]  # fmt: skip
    for kind, group in itertools.groupby(fields, lambda field: field[1]):
        yield f"{', '.join(name for name, _ in group)}: {kind}"


def members(node: ast.ClassDef, module: ModuleType) -> Iterator[str]:
    """Yields the parts of a class: its fields in a block, and each public method and property."""
    if fields := "\n".join(field_lines(node)):
        yield code(fields)
    for one in node.body:
        if isinstance(one, ast.FunctionDef) and not one.name.startswith("_") and one.name not in INSIDE:
            is_property = any(ast.unparse(it) == "property" for it in one.decorator_list)
            told = f"{one.name}: {ast.unparse(one.returns)}".replace(" | ", "|") if is_property and one.returns else ""
            told = told or call_text(one.name, one, module)
            yield code(f"{node.name}.{told}") + "\n" + as_page(ast.get_docstring(one) or "")


def section(name: str) -> str:
    """Returns the section of a public name."""
    value, module = found(name)
    node = definition(value, module)
    parts = [f"### `cdma.{name}`\n"]
    if isinstance(node, ast.FunctionDef):
        parts.append(code(call_text(f"cdma.{name}", node, module)))
    elif name in MADE:
        begin = next(one for one in node.body if isinstance(one, ast.FunctionDef) and one.name == "__init__")
        parts.append(code(call_text(f"cdma.{name}", begin, module)))
    parts.append(as_page(ast.get_docstring(node) or ""))
    if isinstance(node, ast.ClassDef):
        parts += members(node, module)
    return "\n".join(parts)


def page() -> str:
    """Returns the whole page."""
    library = importlib.import_module("cdma")
    parts = [HEAD + as_page(library.__doc__ or ""), TYPES]
    for title, names in GROUPS.items():
        parts.append(f"## {title}\n")
        parts += [section(name) for name in names]
    return "\n".join([*parts, "## Tests of a receiver\n", plugin_text()])


def plugin_text() -> str:
    """Returns what the plugin of pytest says of itself; it can't be imported without pytest."""
    with open(os.path.join(TOP, "cdma", "pytest_plugin.py"), encoding="utf-8") as file:
        return as_page(ast.get_docstring(ast.parse(file.read())) or "")


def main(arguments: list[str] | None = None) -> int:
    """Prints the page, or writes it into its file."""
    words = argparse.ArgumentParser("library_page", description=__doc__)
    words.add_argument("--write", action="store_true", help="replace docs/LIBRARY.md")
    if words.parse_args(arguments).write:
        with write_beside(PAGE) as file:
            file.write(page().encode())
    else:
        sys.stdout.write(page())
    return 0


if __name__ == "__main__":
    sys.exit(main())
