"""The lesson as a notebook, docs/lesson.ipynb: the texts of docs/LESSON.md, and its commands as calls of the library.

`python3 -m cdma_tools.repository.lesson_notebook` prints the notebook. With --write it replaces docs/lesson.ipynb.
"""

import argparse
import json
import os
import re
import sys
from typing import Any

from cdma_tools.places import TOP
from cdma_tools.writing import write_beside

LESSON = os.path.join(TOP, "docs", "LESSON.md")
NOTEBOOK = os.path.join(TOP, "docs", "lesson.ipynb")
INTRODUCTION = """\
# From a chip to a message

The ten steps of [LESSON.md](LESSON.md) with the library `cdma` ([LIBRARY.md](LIBRARY.md)), from one chip of a base
station to a message that a handset reads. You need Debian's `python3-numpy`, `python3-scipy` and
`python3-matplotlib`. The notebook stands in `docs/` of a checkout."""
BEGINNING = """\
import sys

sys.path.insert(0, "..")  # the checkout, in which the library is; not needed if it is installed
import numpy
import cdma

cdma.use_model()  # leave this line out if the program cdma_replay is built"""
# The code of each step.
CODE = {
    1: """\
from cdma_model.codes import I_LAGS, Q_LAGS, pilot_chips

for lags in (I_LAGS, Q_LAGS):
    print(lags, *pilot_chips(lags)[:16])""",
    2: """\
cell = cdma.read_script("../examples/lesson.script")
print(cell, end="")
chips = cdma.make(cell)
print(chips[:4].tolist())
cell""",
    3: """\
print(cdma.find(chips))
axes = cdma.plot.correlation(chips)""",
    4: """\
from cdma_model.codes import WALSH

print(WALSH[10] @ WALSH[10], WALSH[10] @ WALSH[1], WALSH[10] @ WALSH[32], WALSH[10] @ WALSH[0])""",
    5: """\
steps = cdma.explain(chips, channel="sync")
print("\\n".join(str(steps).splitlines()[:7]))
axes = cdma.plot.constellation(chips)""",
    6: """\
from cdma_model.coding import code_symbols

print("as sent:       ", *(int(soft < 0) for soft in steps.soft_values[:40]), sep="")
print("encoder's order:", *(int(soft < 0) for soft in steps.code_symbols[:40]), sep="")
print(*code_symbols(0, [1, 0, 0, 0, 0, 0, 0, 0, 0]), sep="")""",
    7: """\
print("\\n".join(str(steps).splitlines()[-6:]))""",
    8: """\
for event in cdma.follow(chips, messages=1):
    print(event)""",
    9: """\
page = cdma.explain(chips, channel="paging")
print(cdma.bit_text(page.scrambling))
print(*page.verdict, sep="\\n")
run = cdma.follow(chips)
axes = cdma.plot.run(run)
run.table("paging")""",
    10: """\
frame = cdma.explain(chips, channel="traffic", esn="0000abcd", row=10)
print("\\n".join(str(frame).splitlines()[-13:]))
print(numpy.packbits(frame.bits[:80]).tobytes().decode())

noise = numpy.random.default_rng(1).normal(0, 2_000, chips.shape)
noisy = cdma.Chips(numpy.rint(chips + noise).astype(int))
print(cdma.explain(noisy, channel="traffic", esn="0000abcd", row=10).verdict[-1])""",
}


def steps_of(text: str) -> list[tuple[str, list[str]]]:
    """Returns the title and the paragraphs of each step of the lesson, without its commands."""
    found = []
    for part in re.split(r"^## ", text, flags=re.MULTILINE)[1:]:
        title, _, body = part.partition("\n")
        paragraphs = [block.strip("\n") for block in body.split("\n\n") if block.strip()]
        found.append((title, [block for block in paragraphs if not block.startswith("    ")]))
    return found


def cells() -> list[dict[str, Any]]:
    """Returns the cells of the notebook."""
    with open(LESSON, encoding="utf-8") as file:
        steps = steps_of(file.read())
    made = [markdown("begin-text", INTRODUCTION), code("begin", BEGINNING)]
    for number, (title, paragraphs) in enumerate(steps, 1):
        last = f"step-{number}-question"
        made.append(markdown(f"step-{number}-text", f"## {title}\n\n{paragraphs[0]}"))
        made.append(code(f"step-{number}", CODE[number]))
        # In the last step the question is about a picture of the lesson.
        kept = [block for block in paragraphs if block.startswith("*Question.*") or number == 10 and block[0] == "!"]
        made.append(markdown(last, "\n\n".join(kept)))
    return made


def markdown(name: str, text: str) -> dict[str, Any]:
    """Returns a cell of text."""
    return {"cell_type": "markdown", "id": name, "metadata": {}, "source": text.splitlines(keepends=True)}


def code(name: str, text: str) -> dict[str, Any]:
    """Returns a cell of code that hasn't run."""
    return {
        "cell_type": "code", "execution_count": None, "id": name, "metadata": {}, "outputs": [],
        "source": text.splitlines(keepends=True),
    }  # fmt: skip


def notebook() -> str:
    """Returns the notebook, in format 4.5."""
    kernel = {"display_name": "Python 3", "language": "python", "name": "python3"}
    metadata = {"kernelspec": kernel, "language_info": {"name": "python"}}
    found = {"cells": cells(), "metadata": metadata, "nbformat": 4, "nbformat_minor": 5}
    return json.dumps(found, indent=1, ensure_ascii=False) + "\n"


def main(arguments: list[str] | None = None) -> int:
    """Prints the notebook, or writes it into its file."""
    words = argparse.ArgumentParser("lesson_notebook", description=__doc__)
    words.add_argument("--write", action="store_true", help="replace docs/lesson.ipynb")
    if words.parse_args(arguments).write:
        with write_beside(NOTEBOOK) as file:
            file.write(notebook().encode())
    else:
        sys.stdout.write(notebook())
    return 0


if __name__ == "__main__":
    sys.exit(main())
