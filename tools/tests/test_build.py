"""tools/build: which crates it checks, when and by which commands, over stand-ins for `rattle` that record their
arguments."""

from __future__ import annotations

import contextlib
import fcntl
import os
import signal
import subprocess
import time
import unittest

from cdma_tools.repository.building import VERDICT, Room, free_memory, jobs_for
from cdma_tools.repository.plan import Crate, work_ahead
from tools.tests.helping import PYTHON, ROOT, temporary_folder

SECONDS = 120  # the longest time of a run on a busy machine; on an idle one it takes less than one
# `short` is little work, but `long`, which depends on it, is much; so `short` comes before `wide`.
CRATES = """core: thiserror
wide: core
short: core
long: short
top: wide long
apart: core
"""
LINES = {"core": 10, "wide": 300, "short": 10, "long": 400, "top": 5, "apart": 7}
PROVED = "logic=proved functions=3 axioms=0 native=nat,char,string logic-built=trusted"
PROVED += " libraries-built=trusted statements=trusted"
# It records its folder, its process and its arguments; waits if the test says so; makes what its last word names; and
# records its end. Those named by MEET wait for one another, which they could not do if they ran one after the other.
STAND_IN_FOR_RATTLE = """#!/bin/sh
name=${PWD##*/}
echo "begun $name $PWD $$ $*" >> "$EVENTS"
case " $MEET " in *" $name "*)
    for other in $MEET; do
        tries=0
        until grep -q "^begun $other " "$EVENTS"; do
            tries=$((tries + 1))
            [ "$tries" -lt 1000 ] || exit 9
            sleep 0.1
        done
    done ;;
esac
case " $WAITS " in *" $name "*) sleep 100 ;; esac
for number in 1 2 3 4 5 6 7 8 9 10 11 12 13; do echo "line $number of $name"; done
case " $FAILS " in *" $name "*) exit 3 ;; esac
case " $CHANGES " in *" $name "*) echo >> src/lib.rt ;; esac
case " $DOUBTS " in *" $name "*) echo "$VERDICT pinned=no" ;; *) echo "$VERDICT" ;; esac
for made; do :; done
echo "made of $name" > "$made"
echo "ended $name" >> "$EVENTS"
"""
STAND_IN_FOR_THE_LINKER = """#!/bin/sh
echo "linked $*" >> "$EVENTS"
[ "$LINKS" != no ] || { echo "no link"; exit 4; }
while [ "$1" != -o ]; do shift; done
echo "linked of ${PWD##*/}" > "$2"
chmod +x "$2"
"""


class Begun:
    """A run of the stand-in: its crate, its folder, its process and its arguments."""

    def __init__(self, line: str) -> None:
        _, self.name, self.folder, process, *self.words = line.split()
        self.process = int(process)
        self.jobs = int(self.words[self.words.index("--jobs") + 1])


class Checkout(unittest.TestCase):
    """A checkout of six crates, one of which depends on nothing that the others need, and a kit next to it."""

    def setUp(self) -> None:
        self.folder = os.path.realpath(temporary_folder(self.addCleanup))
        self.root, self.kit, self.path = (os.path.join(self.folder, name) for name in ("it", "kit", "path"))
        self.events = os.path.join(self.folder, "events")
        self.write("it/crates.txt", CRATES)
        for name, lines in LINES.items():
            self.write(f"it/crates/{name}/src/{'main' if name == 'top' else 'lib'}.rt", "\n" * lines)
        self.write("kit/WHAT", "a kit\n")
        for name, text in (
            ("rattle", STAND_IN_FOR_RATTLE), ("rattle-link", STAND_IN_FOR_THE_LINKER), ("rt", "#!/bin/sh\nexit 9\n"),
        ):  # fmt: skip
            os.chmod(self.write(f"kit/bin/{name}", text), 0o700)
        os.makedirs(self.path)
        os.symlink(os.path.join(self.kit, "bin", "rt"), os.path.join(self.path, "rt"))

    def write(self, place: str, text: str) -> str:
        """Makes a file."""
        path = os.path.join(self.folder, place)
        os.makedirs(os.path.dirname(path), exist_ok=True)
        with open(path, "w", encoding="utf-8") as file:
            file.write(text)
        return path

    def environment(self, **more: str) -> dict[str, str]:
        """Returns the environment of a run: the path to the stand-ins, and what they must do."""
        told = {"PATH": f"{self.path}:/usr/bin:/bin", "EVENTS": self.events, "VERDICT": PROVED}
        return {**told, **dict.fromkeys(("MEET", "WAITS", "FAILS", "CHANGES", "DOUBTS", "LINKS"), ""), **more}

    def command(self, *words: str) -> list[str]:
        """Returns the command line of a run over the checkout."""
        return [PYTHON, "-B", os.path.join(ROOT, "tools", "build"), "--root", self.root, *words]

    def built(self, *words: str, status: int = 0, **more: str) -> tuple[str, str]:
        """Returns what a run writes on standard output and standard error."""
        ran = subprocess.run(
            self.command(*words), env=self.environment(**more), capture_output=True, text=True, timeout=SECONDS
        )
        self.assertEqual(ran.returncode, status, ran.stdout + ran.stderr)
        return ran.stdout, ran.stderr

    def built_anew(self, name: str, **more: str) -> list[str]:
        """Builds a crate, one job at a time, and returns the crates that were checked for it, in order."""
        with contextlib.suppress(FileNotFoundError):
            os.unlink(self.events)
        self.built(name, "--jobs", "1", status=0, **more)
        return [run.name for run in self.begun()]

    def lines(self) -> list[str]:
        """Returns what the stand-ins have recorded so far."""
        with contextlib.suppress(FileNotFoundError), open(self.events, encoding="utf-8") as file:
            return file.read().splitlines()
        return []

    def begun(self) -> list[Begun]:
        """Returns the runs of the stand-in for `rattle`, in order."""
        return [Begun(line) for line in self.lines() if line.startswith("begun ")]

    def in_crate(self, name: str, *path: str) -> str:
        """Returns the path of a file in a crate's folder."""
        return os.path.join(self.root, "crates", name, *path)

    def text_in(self, name: str, *path: str) -> str:
        """Returns the text of a file in a crate's folder."""
        with open(self.in_crate(name, *path), encoding="utf-8") as file:
            return file.read()

    def assert_gone(self, process: int) -> None:
        """Asserts that a process has ended, or ends within some seconds."""
        until = time.monotonic() + 30
        while time.monotonic() < until:
            try:
                os.kill(process, 0)
            except ProcessLookupError:
                return
            time.sleep(0.05)
        self.fail(f"process {process} is left")


class Builds(Checkout):
    """Which checks begin, when, and by which commands."""

    def test_all_that_a_program_needs(self) -> None:
        wrote, said = self.built("top", "--jobs", "3", "--memory", "100", MEET="wide short")
        self.assertEqual(said, "")
        runs = {run.name: run for run in self.begun()}
        self.assertEqual(len(runs), len(self.begun()), "a crate was begun twice")
        self.assertEqual((set(runs), list(runs)[0], list(runs)[-1]), (set(LINES) - {"apart"}, "core", "top"))
        told = self.lines()
        for name, below in (("wide", "core"), ("short", "core"), ("long", "short"), ("top", "wide"), ("top", "long")):
            at = next(place for place, line in enumerate(told) if line.startswith(f"begun {name} "))
            self.assertIn(f"ended {below}", told[:at])
        self.assertEqual([runs[name].jobs for name in ("core", "top")], [3, 3])
        self.assertEqual({name: run.folder for name, run in runs.items()}, {it: self.in_crate(it) for it in runs})
        self.assertEqual(self.text_in("top", "out", "top"), "linked of top\n")
        self.assertTrue(os.access(self.in_crate("top", "out", "top"), os.X_OK))
        self.assertRegex(wrote, r"(?m)^0:00:\d\d core begun, 3 jobs\n0:00:\d\d core built in 0:00:\d\d$")
        self.assertRegex(wrote, r"\n5 crates are built, in 0:00:\d\d: crates/top/out/top\n\Z")

    def rest(self) -> list[str]:
        """Returns the words that each check has: the kit's logic, and one job."""
        logic = ["--antt-project", f"{self.kit}/rattle/logic/antt-project.json", "--logic-built"]
        return [*logic, f"{self.kit}/logic_built", "--jobs", "1"]

    def test_the_words_of_a_library(self) -> None:
        """It stands over the libraries of the kit that it names, and over the statements of the crates below."""
        self.built("long", "--jobs", "1")
        rlibs = f"{self.kit}/rlibs"
        core, short = (self.in_crate(name, "out", "statements") for name in ("core", "short"))
        self.assertEqual([run.words for run in self.begun()], [
            ["build", "--crate-name", "core", "src/lib.rt", "--extern", f"std={rlibs}/std.rlib", "--extern",
             f"thiserror={rlibs}/thiserror.rlib", "-L", f"dependency={rlibs}", *self.rest(), "--links", "core=",
             "--statements", "-o", f"{core}/core.rlib"],
            ["build", "--crate-name", "short", "src/lib.rt", "--extern", f"std={rlibs}/std.rlib", "--extern",
             f"core={core}/core.rlib", "-L", f"dependency={rlibs}", "-L", f"dependency={core}", *self.rest(), "--links",
             "short=", "--statements", "-o", f"{short}/short.rlib"],
            ["build", "--crate-name", "long", "src/lib.rt", "--extern", f"std={rlibs}/std.rlib", "--extern",
             f"short={short}/short.rlib", "-L", f"dependency={rlibs}", "-L", f"dependency={core}", "-L",
             f"dependency={short}", *self.rest(), "--links", "long=", "--statements", "-o",
             self.in_crate("long", "out", "statements", "long.rlib")],
        ])  # fmt: skip

    def test_the_words_of_a_program(self) -> None:
        """A program is compiled over the statements of the crates below, and linked with the kit's C library."""
        self.built("top", "--jobs", "1")
        words, made = self.begun()[-1].words, self.in_crate("top", "out", "top")
        toolchain = ["--toolchain", f"{self.kit}/toolchain"]
        self.assertEqual(words[:4], ["build", "--crate-name", "top", "src/main.rt"])
        self.assertEqual(words[-8:], ["--links", "top=", *toolchain, "--backend", "llvm", "-o", f"{made}.o"])
        below = [self.in_crate(name, "out", "statements") for name in ("core", "long", "short", "wide")]
        self.assertEqual(
            [words[at + 1] for at, word in enumerate(words) if word == "-L"],
            [f"dependency={it}" for it in (f"{self.kit}/rlibs", *below)],
        )
        told = ["linked --target x86_64-unknown-linux-gnu", *toolchain, f"-o {made}.new {made}.o"]
        told += [f"{self.kit}/c/libos_c.a", f"{self.kit}/c/liblibc_c.a"]
        self.assertEqual(self.lines()[-1], " ".join(told))

    def test_a_library_and_what_is_below_it(self) -> None:
        wrote, _ = self.built("apart", "--jobs", "2")
        self.assertEqual([run.name for run in self.begun()], ["core", "apart"])
        self.assertIn(": crates/apart/out/statements/apart.rlib\n", wrote)
        self.assertEqual(self.text_in("apart", "out", "statements", "apart.rlib"), "made of apart\n")

    def test_one_at_a_time(self) -> None:
        """The longest chain of work comes first."""
        self.assertEqual(self.built_anew("top"), ["core", "short", "long", "wide", "top"])
        self.assertEqual({run.jobs for run in self.begun()}, {1})

    def test_again_what_changed_and_what_is_above_it(self) -> None:
        self.built_anew("top")
        wrote, _ = self.built("top")
        self.assertRegex(wrote, r"\A5 crates are built, 5 of them before, in 0:00:\d\d: crates/top/out/top\n\Z")
        self.assertEqual(self.built_anew("top"), [])
        self.write("it/crates/long/proofs/of/One.antt", "other\n")
        self.assertEqual(self.built_anew("top"), ["long", "top"])
        self.write("it/crates/long/must-fail/one.edit", "an edit\n")
        self.assertEqual(self.built_anew("top"), [])
        os.unlink(self.in_crate("short", "out", "statements", "short.rlib"))
        self.assertEqual(self.built_anew("short"), ["short"])
        self.assertEqual(self.built_anew("top"), ["long", "top"])
        self.write("it/crates.txt", CRATES.replace("wide: core", "wide: core clap"))
        self.assertEqual(self.built_anew("top"), ["wide", "top"])
        self.write("kit/WHAT", "another kit\n")
        self.assertEqual(self.built_anew("top"), ["core", "short", "long", "wide", "top"])

    def test_a_program_that_rt_has_replaced(self) -> None:
        """`rt run` may have built it from other files, which then were changed back."""
        self.built_anew("top")
        self.write("it/crates/top/out/top", "of rt\n")
        self.assertEqual(self.built_anew("top"), ["top"])
        self.assertEqual(self.text_in("top", "out", "top"), "linked of top\n")

    def test_no_stamp_of_rt_on_a_program_of_this_tool(self) -> None:
        """By its stamp `rt run` knows a program that it has built; it must not take another for it."""
        stamp = self.write("it/crates/top/out/top.stamp", "of rt\n")
        self.built("top")
        self.assertFalse(os.path.exists(stamp))

    def most_at_once(self, weight: dict[str, float] | None = None) -> float:
        """Returns the most jobs at once; with the crates' weights, the greatest sum of these, 0.6 more for each
        further job."""
        now: dict[str, float] = {}
        most = 0.0
        for line in self.lines():
            if line.startswith("begun "):
                run = Begun(line)
                now[run.name] = run.jobs if weight is None else weight[run.name] * (1 + 0.6 * (run.jobs - 1))
            elif line.startswith("ended "):
                del now[line.split()[1]]
            most = max(most, sum(now.values()))
        return most

    def spread(self) -> list[str]:
        """Makes six crates depend on nothing, and one on these."""
        names = [f"one{number}" for number in range(6)]
        for name in names:
            self.write(f"it/crates/{name}/src/lib.rt", "\n" * 100)
        self.write("it/crates.txt", "".join(f"{name}:\n" for name in names) + f"apart: {' '.join(names)}\n")
        return names

    def test_never_more_than_there_are_processors(self) -> None:
        self.spread()
        self.built("apart", "--jobs", "3", "--memory", "100")
        self.assertEqual(len(self.begun()), 7)
        self.assertEqual(self.most_at_once(), 3)

    def test_never_more_than_there_is_memory_for(self) -> None:
        """Each is planned with 1.1 GB: two fit. Of the one above them, with 1.055 GB, one fits with three jobs."""
        names = self.spread()
        self.built("apart", "--jobs", "4", "--memory", "2.5")
        plans = {name: 1.1 for name in names} | {"apart": 1.0 + 0.007 + 0.08 * 0.6}
        most = self.most_at_once(plans)
        self.assertTrue(2.2 - 1e-9 <= most <= 2.5, most)
        self.assertEqual(self.begun()[-1].jobs, 3)

    def test_what_has_no_room_is_built_alone(self) -> None:
        self.spread()
        self.built("apart", "--jobs", "4", "--memory", "0.5")
        self.assertEqual(self.most_at_once(), 1)


class Ends(Checkout):
    """Builds that do not end normally."""

    def log_of(self, name: str) -> str:
        """Returns the path of a crate's log."""
        return self.in_crate(name, "out", "build.log")

    def test_a_crate_that_fails(self) -> None:
        wrote, said = self.built(
            "top", "--jobs", "2", "--memory", "100", MEET="wide short", FAILS="short", WAITS="wide", status=1
        )
        runs = {run.name: run for run in self.begun()}
        self.assertEqual(sorted(runs), ["core", "short", "wide"])
        self.assert_gone(runs["wide"].process)
        self.assertEqual(said, f"build: short wasn't built; its log is {self.log_of('short')}\n")
        self.assertRegex(wrote, r"(?m)^0:00:\d\d short failed after 0:00:\d\d, status 3; the end of its log:$")
        shown = "".join(f"    line {number} of short\n" for number in range(2, 14))
        self.assertIn(f"its log:\n{shown}0:00:", wrote)
        self.assertTrue(wrote.endswith(" broken off: wide\n"), wrote)
        self.assertEqual(self.text_in("short", "out", "build.log").count("\n"), 13)
        self.assertEqual(self.built_anew("top"), ["short", "long", "wide", "top"])

    def failed(self, name: str, why: str, **more: str) -> None:
        """Asserts that a build fails at a crate for this reason, and that the next one checks the crate again."""
        wrote, said = self.built("top", "--jobs", "1", status=1, **more)
        self.assertRegex(wrote, rf"(?m)^0:00:\d\d {name} failed after 0:00:\d\d, {why}; the end of its log:$")
        self.assertEqual(said, f"build: {name} wasn't built; its log is {self.log_of(name)}\n")
        self.assertIn(name, self.built_anew("top"))

    def test_a_verdict_that_leaves_something_out(self) -> None:
        self.failed("short", "its log has no verdict that all is proved", DOUBTS="short")

    def test_a_file_that_changes_meanwhile(self) -> None:
        self.failed("wide", "its files changed meanwhile", CHANGES="wide")

    def test_a_program_that_is_not_linked(self) -> None:
        """The older program stays until the newer one is whole."""
        made = self.write("it/crates/top/out/top", "an older one\n")
        wrote, _ = self.built("top", "--jobs", "1", LINKS="no", status=1)
        self.assertRegex(wrote, r"top failed after 0:00:\d\d, status 4 of the linker; the end of its log:\n")
        self.assertTrue(wrote.endswith("\n    no link\n"), wrote)
        with open(made, encoding="utf-8") as file:
            self.assertEqual(file.read(), "an older one\n")
        self.assertEqual(self.built_anew("top"), ["top"])

    def test_another_build_in_the_checkout(self) -> None:
        with open(os.path.join(self.root, "crates.txt"), "rb") as file:
            fcntl.flock(file, fcntl.LOCK_EX)
            _, said = self.built("top", status=1)
        self.assertEqual((said, self.begun()), (f"build: another build works in {self.root}\n", []))
        self.assertEqual(len(self.built_anew("top")), 5)

    def test_an_interrupt(self) -> None:
        for number in (signal.SIGINT, signal.SIGTERM):
            with self.subTest(number):
                self.setUp()
                child = subprocess.Popen(
                    self.command("top", "--jobs", "2", "--memory", "100"), env=self.environment(WAITS="wide short"),
                    stdout=subprocess.DEVNULL, stderr=subprocess.PIPE, preexec_fn=hear, start_new_session=True,
                )  # fmt: skip
                self.addCleanup(child.kill)
                until = time.monotonic() + SECONDS
                while len(self.begun()) < 3 and child.poll() is None and time.monotonic() < until:
                    time.sleep(0.05)
                os.killpg(child.pid, number)
                _, said = child.communicate(timeout=SECONDS)
                self.assertEqual((child.returncode, said), (130, b"build: broken off\n"))
                self.assertEqual(len(self.begun()), 3)
                for run in self.begun():
                    self.assert_gone(run.process)

    def test_a_reader_that_has_gone(self) -> None:
        reader, writer = os.pipe()
        os.close(reader)
        ran = subprocess.run(
            self.command("top", "--jobs", "2"),
            env=self.environment(),
            stdout=writer,
            stderr=subprocess.PIPE,
            timeout=SECONDS,
        )
        os.close(writer)
        self.assertEqual((ran.returncode, ran.stderr), (1, b""))
        for run in self.begun():
            self.assert_gone(run.process)

    def refused(self, why: str, *words: str, **more: str) -> None:
        """Asserts that a run ends with status 2 and one line, and starts nothing."""
        wrote, said = self.built(*words, status=2, **more)
        self.assertEqual((wrote, said.count("\n"), self.begun()), ("", 1, []))
        self.assertRegex(said, why)

    def test_refusals(self) -> None:
        self.refused("build: crates.txt has no crate none", "none")
        self.refused("build: rt is not on the path", "top", PATH="/usr/bin:/bin")
        self.refused("is not a checkout with crates: .*crates.txt: No such file", "--root", self.path)
        self.refused("--jobs: not 1 to 64: '0'", "--jobs", "0")
        self.refused("--memory: not above 0", "--memory", "0")
        self.refused("unrecognized arguments", "top", "core")
        self.write("it/crates.txt", "core: top\ntop: core\n")
        self.refused("has a cycle: core top core", "top")
        self.write("it/crates.txt", CRATES + "new:\n")
        self.refused("no folder .*crates/new", "top")
        self.write("it/crates.txt", CRATES)
        os.unlink(os.path.join(self.kit, "WHAT"))
        self.refused("lies in no folder of Rattle's kit: .*/kit has no WHAT", "top")


class Verdicts(unittest.TestCase):
    """The last lines of a check that are taken as its proof."""

    def test_forms(self) -> None:
        for line, is_taken in (
            (PROVED, True),
            (PROVED.replace(" axioms=0", " axioms=0 target=x86-64-v2 cpu=none threads=0 main=Ends sum=77"), True),
            (f"earlier lines\n{PROVED}\n", True),
            (f"{PROVED} pinned=no", False),
            (f"{PROVED} incremental=trusted", False),
            (PROVED.replace("proved", "open"), False),
            (PROVED.replace(" axioms=0", " hides=2"), False),
            (PROVED.replace(" axioms=0", " bugs=1"), False),
            (PROVED.replace(" statements=trusted", ""), False),
            (f"fn one: {PROVED}", False),
            ("", False),
        ):
            self.assertEqual(bool(VERDICT.search(line)), is_taken, line)


class Planning(unittest.TestCase):
    """Jobs and chains of work, worked out by hand."""

    def test_jobs(self) -> None:
        """For a crate of 1,000 MB another job takes 600 more, and each other crate that waits keeps a processor."""
        for memory, processors, others, jobs in (
            (1_000, 4, 0, 1), (1_599, 4, 0, 1), (1_600, 4, 0, 2), (2_800, 4, 0, 4), (9_000, 4, 0, 4), (9_000, 4, 1, 3),
            (9_000, 4, 2, 2), (9_000, 4, 9, 1), (90_000, 64, 0, 8), (500, 4, 0, 1),
        ):  # fmt: skip
            self.assertEqual(jobs_for(1_000, Room(processors, memory), others), jobs, (memory, processors, others))

    def test_work_ahead(self) -> None:
        crates = {
            "core": Crate("core", [], 50), "wide": Crate("wide", ["core"], 300),
            "short": Crate("short", ["core"], 10), "long": Crate("long", ["short"], 0, 10_000),
            "top": Crate("top", ["wide", "long"], 5), "apart": Crate("apart", ["core"], 9_999),
        }  # fmt: skip
        self.assertEqual(
            work_ahead(crates, {"core", "wide", "short", "long", "top"}),
            {"top": 55.0, "wide": 405.0, "long": 505.0, "short": 565.0, "core": 665.0},
        )

    def test_free_memory(self) -> None:
        """At most what the machine has, and more than this test takes."""
        pages = os.sysconf("SC_PHYS_PAGES") * os.sysconf("SC_PAGE_SIZE") / 1e6
        self.assertTrue(10 < free_memory() <= pages)


def hear() -> None:
    """Makes a process receive interrupts, even if the tests run under a shell that ignores them."""
    signal.signal(signal.SIGINT, signal.SIG_DFL)


if __name__ == "__main__":
    unittest.main()
