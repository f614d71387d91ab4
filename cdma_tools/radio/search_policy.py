"""Where a pilot is searched: one policy for every tool that looks for one in a recording or in a stream.

| Step | Hz from the middle | Spectra |
|---|---|---|
| near | 0 to 21,000: 25 millionths of 850 MHz | as it is and inverted |
| further off | 21,000 to 88,000: 100 millionths of 880 MHz | as it is and inverted |

The second step is taken only if the first finds no pilot. `--search HZ` replaces both by one step of that span, and
`--conjugate` fixes the spectrum. The middle is that of the recording, or `--shift`.
"""

import argparse
from dataclasses import dataclass
from typing import NamedTuple

from cdma_tools.arguments import number_above

# Hz to each side of the near step, some 25 millionths at 850 MHz and 11 at 1,900 MHz, and of the one further off.
SPAN, WIDE_SPAN = 21_000.0, 88_000.0
# The widest span of one step, in Hz: half of a channel.
MOST_SEARCH = 614_400.0
# Parts of a recording at which it is looked for a pilot in turn: any one may lie in a fade, or before a switch-on. The
# further carriers, which take longer, are tried at some of them.
PLACES = (0.0, 0.05, 0.13, 0.29, 0.41, 0.57, 0.71, 0.87)
WIDE_PLACES = PLACES[::2]
# What each of an option's three choices lets be tried: the recording, its conjugate, or both in turn.
TRIES = {"yes": (True,), "no": (False,), "try": (False, True)}
# Bands of the further carriers, each of which takes about as long as the near step.
BANDS = 3
# The names of the options that change the policy.
SEARCH_OPTIONS = ("search", "conjugate")
# How a refusal names the spectra that were searched.
SPECTRA = {(False,): "the spectrum as it is", (True,): "the inverted spectrum", (False, True): "both spectra"}


class Step(NamedTuple):
    """A part of a search: carriers up to `span` Hz and more than `beyond` Hz from the middle, in these spectra."""

    span: float
    beyond: float
    spectra: tuple[bool, ...]  # True for the inverted one

    @property
    def is_near(self) -> bool:
        """Whether the search begins with this step."""
        return not self.beyond

    @property
    def places(self) -> tuple[float, ...]:
        """The parts of a recording at which a lock takes this step."""
        return PLACES if self.is_near else WIDE_PLACES


@dataclass(frozen=True)
class SearchPolicy:
    """The policy with what the arguments fix of it."""

    search: float | None = None  # Hz to each side; None for the near step and the one further off
    conjugate: str = "try"  # yes, no, try

    @property
    def span(self) -> float:
        """The Hz to each side that are searched in the end."""
        return WIDE_SPAN if self.search is None else self.search

    @property
    def spectra(self) -> tuple[bool, ...]:
        """The spectra that are searched."""
        return TRIES[self.conjugate]

    def steps(self) -> list[Step]:
        """The steps in their order; each is taken only if no pilot was found before."""
        if self.search is not None:
            return [Step(self.search, 0.0, self.spectra)]
        return [Step(SPAN, 0.0, self.spectra), Step(WIDE_SPAN, SPAN, self.spectra)]

    def steps_apart(self) -> list[Step]:
        """The same steps for many centres of one recording, the near one in each spectrum by itself.

        All carriers of a recording have one spectrum, so the inverted one costs nothing if a pilot was found before.
        """
        near, *further = self.steps()
        return [near._replace(spectra=(spectrum,)) for spectrum in near.spectra] + further

    def steps_in_bands(self) -> list[Step]:
        """The same carriers in steps that take about as long as the near one."""
        near, *further = self.steps()
        return [near] + [band for step in further for band in bands(step)]

    def searched(self, shift: float = 0.0) -> str:
        """Names the span around the middle, or around a carrier `shift` Hz above it, and the spectra, for a refusal."""
        middle = f"{shift:,.0f} Hz" if shift else "the middle"
        return self.searched_round(middle)

    def searched_round(self, middle: str) -> str:
        """Names the same around a carrier of this name."""
        return f"within {self.span:,.0f} Hz of {middle} in {SPECTRA[self.spectra]}"

    @property
    def advice(self) -> str:
        """Names the options that widen the search; nothing if it can't be wider."""
        told = ["--search HZ for a wider span"] if self.span < MOST_SEARCH else []
        told += ["--conjugate try for the other spectrum too"] if len(self.spectra) == 1 else []
        return f"; give {', '.join(told)}" if told else ""


def bands(step: Step) -> list[Step]:
    """A step in bands of equal width, the nearest first."""
    width = (step.span - step.beyond) / BANDS
    edges = [step.beyond + width * number for number in range(BANDS)] + [step.span]
    return [Step(end, begin, step.spectra) for begin, end in zip(edges, edges[1:])]


def add_search_options(words: argparse._ActionsContainer) -> None:
    """Adds --search and --conjugate, which mean the same in every tool; None leaves the policy as it is."""
    words.add_argument(
        "--search",
        type=number_above(0, MOST_SEARCH),
        metavar="HZ",
        help=f"search this many Hz to each side of the middle; default {SPAN:,.0f}, then {WIDE_SPAN:,.0f} if no pilot"
        f" is found: {MOST_SEARCH:,.0f} takes a processor some minutes",
    )
    words.add_argument(
        "--conjugate", choices=TRIES, help="whether the spectrum is inverted: yes, no, or try (the default) for both"
    )


def policy_of(options: argparse.Namespace) -> SearchPolicy:
    """The policy that parsed arguments ask for."""
    return SearchPolicy(options.search, options.conjugate or "try")
