"""The code of the tools: each function has types and a docstring, and Debian's checkers report nothing."""

from __future__ import annotations

import ast
import importlib.util
import os
import re
import subprocess
import unittest
from collections.abc import Iterator

from tools.tests.helping import PYTHON, ROOT

PACKAGE = os.path.join(ROOT, "cdma_tools")
Function = ast.FunctionDef | ast.AsyncFunctionDef


def modules(folder: str) -> Iterator[tuple[str, ast.Module]]:
    """Returns the modules below a folder of the checkout, by their paths."""
    for path, folders, names in os.walk(os.path.join(ROOT, folder)):
        folders[:] = [name for name in folders if name != "__pycache__"]
        for name in names:
            if name.endswith(".py"):
                with open(os.path.join(path, name), encoding="utf-8") as file:
                    yield os.path.relpath(os.path.join(path, name), ROOT), ast.parse(file.read())


def definitions(body: list[ast.stmt]) -> Iterator[Function | ast.ClassDef]:
    """Yields the functions and classes of a module or class, those of its classes too, but not those within functions.
    """
    for node in body:
        if isinstance(node, ast.ClassDef):
            yield node
            yield from definitions(node.body)
        elif isinstance(node, (ast.FunctionDef, ast.AsyncFunctionDef)):
            yield node


def untyped(node: Function) -> list[str]:
    """Returns the arguments of a function that have no type, and its result if that has none."""
    arguments = [*node.args.posonlyargs, *node.args.args, *node.args.kwonlyargs]
    found = [one.arg for one in arguments if one.annotation is None and one.arg not in ("self", "cls")]
    return found + ([] if node.returns else ["what it answers"])


def imported(module: ast.Module) -> set[str]:
    """Returns the packages from which a module imports, by the first part of their names."""
    found = [name.name for node in ast.walk(module) if isinstance(node, ast.Import) for name in node.names]
    found += [node.module for node in ast.walk(module) if isinstance(node, ast.ImportFrom) and node.module]
    return {name.partition(".")[0] for name in found}


class Code(unittest.TestCase):
    """What every module of the package must fulfil; functions of the tests need types too."""

    seconds = 60

    def test_each_function_has_types(self) -> None:
        for place, module in [*modules("cdma"), *modules("cdma_tools"), *modules("tools/tests")]:
            for node in ast.walk(module):
                if isinstance(node, (ast.FunctionDef, ast.AsyncFunctionDef)):
                    with self.subTest(f"{place}:{node.lineno} {node.name}"):
                        self.assertEqual(untyped(node), [])

    def test_each_says_what_it_is_for(self) -> None:
        for place, module in [*modules("cdma"), *modules("cdma_tools")]:
            with self.subTest(place):
                self.assertTrue(ast.get_docstring(module))
            for node in definitions(module.body):
                if not re.fullmatch("__.*__", node.name):
                    with self.subTest(f"{place}:{node.lineno} {node.name}"):
                        self.assertTrue(ast.get_docstring(node))

    def test_the_model_shares_no_code_with_the_tools(self) -> None:
        for place, module in modules("cdma_model"):
            self.assertFalse(imported(module) & {"cdma", "cdma_tools", "tools"}, place)

    def test_what_is_installed_imports_no_package_of_only_a_checkout(self) -> None:
        for place, module in [*modules("cdma"), *modules("cdma_model"), *modules("cdma_tools"), *modules("examples")]:
            self.assertFalse(imported(module) & {"model", "tools"}, place)

    def test_no_tool_changes_where_python_looks_for_modules(self) -> None:
        """No module of the package changes the search path, so no class is loaded twice."""
        for place, module in modules("cdma_tools"):
            if place.endswith("launching.py"):
                continue  # a checkout's launcher, which is run and not imported
            for node in ast.walk(module):
                if isinstance(node, ast.Attribute):
                    with self.subTest(f"{place}:{node.lineno}"):
                        self.assertNotEqual(ast.unparse(node), "sys.path")
                        self.assertNotIn("SourceFileLoader", node.attr)

    @unittest.skipUnless(importlib.util.find_spec("mypy"), "no mypy: install the package mypy")
    def test_mypy(self) -> None:
        parts = ["cdma", "cdma_tools", "cdma_model", "model", "tools/tests"]
        words = [PYTHON, "-m", "mypy", "--cache-dir", os.devnull, *parts]  # strict, by pyproject.toml; nothing is kept
        ran = subprocess.run(words, capture_output=True, text=True, cwd=ROOT, timeout=600)
        self.assertEqual(ran.returncode, 0, ran.stdout[-4_000:])

    @unittest.skipUnless(importlib.util.find_spec("pyflakes"), "no pyflakes: install the package python3-pyflakes")
    def test_pyflakes(self) -> None:
        words = [PYTHON, "-m", "pyflakes", "cdma", "cdma_tools", "cdma_model", "model", "tools/tests"]
        ran = subprocess.run(words, capture_output=True, text=True, cwd=ROOT, timeout=600)
        self.assertEqual((ran.returncode, ran.stdout), (0, ""))


if __name__ == "__main__":
    unittest.main()
