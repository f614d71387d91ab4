"""The parameters of the library `cdma` are the options of the commands, by their names; exceptions say why."""

import argparse
import ast
import importlib
import inspect
import pkgutil
import unittest
from collections.abc import Callable
from pathlib import Path
from typing import Any

from tools.tests.helping import needs

needs("numpy", "scipy")

import cdma  # noqa: E402
from cdma_tools.scripting import arguments  # noqa: E402

FUNCTIONS: dict[str, tuple[Callable[..., Any], ...]] = {
    "channel": (cdma.record,),
    "import_capture": (cdma.lock, cdma.import_capture),
    "domain": (cdma.code_domain, cdma.lock),
    "explain": (cdma.explain,),
    "listen": (cdma.listen,),
    "margin": (cdma.margin,),
}
PROGRAM: dict[str, tuple[Callable[..., Any], ...]] = {  # by commands of the program
    "find": (cdma.find,),
    "survey": (cdma.survey,),
    "follow": (cdma.follow,),
}
OTHER_PROGRAM = "cdma.use_program chooses it"
ONE_HANDSET = "several channels or cells: a listening of the library follows one handset of the strongest cell"
OUTPUT = "an output: the library returns what the tool writes"
# Options that are no parameters, and why.
NO_PARAMETERS = {
    "channel": {
        "clock": "clock_ppm, as a lock has it",
        "ideal": "a second output",
    },
    "import_capture": {
        "format": "bits, 16 or 8, as cdma.make has it",
        "json": OUTPUT,
        "lock": "cdma.lock does, and cdma.import_capture doesn't",
        "meta": OUTPUT,
        "program": OTHER_PROGRAM,
        "reflag": "Chips(chips, checks=..) does",
    },
    "domain": {
        "all": "the arrays have all rows",
        "json": OUTPUT,
        "junit": OUTPUT,
        "plot": "cdma.plot.code_domain draws",
        "program": OTHER_PROGRAM,
        "tap": OUTPUT,
    },
    "explain": {
        "picture": OUTPUT,
        "sync": "channel names the kind",
        "traffic": "esn and row, and channel names the kind",
    },
    "listen": {
        "append": OUTPUT,
        "cells": ONE_HANDSET,
        "json": OUTPUT,
        "meta": OUTPUT,
        "out": OUTPUT,
        "out_dir": ONE_HANDSET,
        "pcapng": OUTPUT,
        "pn": ONE_HANDSET,
        "program": OTHER_PROGRAM,
        "traffic": ONE_HANDSET,
        "traffic_file": ONE_HANDSET,
    },
    "margin": {"json": OUTPUT},
}
# Parameters that are no options, and why.
NO_OPTIONS = {
    "channel": {"clock_ppm": "--clock", "chips": "files of cells"},
    "import_capture": {"bits": "--format", "recording": "an argument without a name"},
    "domain": {"source": "an argument without a name"},
    "explain": {
        "channel": "--sync, --paging or --traffic",
        "chips": "an argument without a name",
        "esn": "part of --traffic",
        "row": "part of --traffic",
    },
    "listen": {"source": "an argument without a name"},
    "margin": {"cell": "an argument without a name", "rows": "the options of a command of the program"},
}
# Parameters of cdma.lock that aren't the code domain's business.
LOCK = set(inspect.signature(cdma.lock).parameters)


def options_of(command: str) -> set[str]:
    """Returns the names of a command's options."""
    parser: argparse.ArgumentParser = importlib.import_module(f"cdma_tools.commands.{command}").parser()
    longest = [max(action.option_strings, key=len) for action in parser._actions if action.option_strings]
    return {option.removeprefix("--").replace("-", "_") for option in longest} - {"help", "version"}


def parameters_of(functions: tuple[Callable[..., Any], ...]) -> set[str]:
    """Returns the names of the parameters of some functions."""
    return {name for function in functions for name in inspect.signature(function).parameters}


class Options(unittest.TestCase):
    """A command's options against the parameters of the functions that do the same."""

    def test_each_option_is_a_parameter(self) -> None:
        for command, functions in FUNCTIONS.items():
            with self.subTest(command):
                missing = options_of(command) - parameters_of(functions)
                self.assertEqual(missing, set(NO_PARAMETERS[command]))

    def test_each_parameter_is_an_option(self) -> None:
        for command, functions in FUNCTIONS.items():
            with self.subTest(command):
                given = parameters_of(functions) - (LOCK if command == "domain" else set())
                self.assertEqual(given - options_of(command), set(NO_OPTIONS[command]))

    def test_options_of_the_program(self) -> None:
        for command, functions in PROGRAM.items():
            with self.subTest(command):
                self.assertEqual(parameters_of(functions) - {"chips"}, set(arguments.COMMANDS[command]))

    def test_both_ways_from_a_recording_take_the_same(self) -> None:
        """Parameters that two functions share have the same defaults."""
        for functions in FUNCTIONS.values():
            shared = [inspect.signature(function).parameters for function in functions]
            for name in set(shared[0]).intersection(*shared[1:]):
                self.assertEqual(len({str(one[name].default) for one in shared}), 1, name)


class Faces(unittest.TestCase):
    """Commands and library share the package's functions: the library takes only parsers from commands."""

    def test_what_the_library_takes_of_commands(self) -> None:
        for module in pkgutil.iter_modules(cdma.__path__):
            tree = ast.parse(Path(cdma.__path__[0], f"{module.name}.py").read_text())
            with self.subTest(module.name):
                self.assertLessEqual(taken_of_commands(tree), {"parser", "check", "check_words"})


def taken_of_commands(tree: ast.Module) -> set[str]:
    """Returns the names that a module takes of modules of commands."""
    named: set[str] = set()
    modules: set[str] = set()
    for node in ast.walk(tree):
        if isinstance(node, ast.ImportFrom) and (node.module or "").startswith("cdma_tools.commands."):
            named |= {one.name for one in node.names}
        elif isinstance(node, ast.ImportFrom) and node.module == "cdma_tools.commands":
            modules |= {one.asname or one.name for one in node.names}
    used = [node for node in ast.walk(tree) if isinstance(node, ast.Attribute) and isinstance(node.value, ast.Name)]
    return named | {node.attr for node in used if isinstance(node.value, ast.Name) and node.value.id in modules}


if __name__ == "__main__":
    unittest.main()
