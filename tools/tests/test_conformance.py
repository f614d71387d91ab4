"""conformance/run: its cases are complete, and it reports what differs. Shell scripts act as makers and receivers."""

from __future__ import annotations

import contextlib
import hashlib
import io
import os
import re
import unittest
from typing import Any

from cdma_tools.commands import status_of
from cdma_tools.conformance import cases
from tools.tests.helping import sample_file, temporary_folder

SEARCH = {"span", "workers"}
PATHS = SEARCH | {"fingers"}
TRAFFIC = PATHS | {"esn", "row", "offset"}
WORDS = {
    "find": SEARCH,
    "follow": TRAFFIC | {"paging", "pilots", "messages", "frames", "raw"},
    "rate2": TRAFFIC,
    "list": TRAFFIC | {"k"},
    "idle": PATHS | {"paging", "key", "cycle"},
    "survey": SEARCH | {"base", "width", "top"},
    "make": {"bits"},
    "trial": {"number", "workers"},
}
# The lines of docs/FORMATS.md on standard error.
ERRORS = {
    0: "^$",
    1: "^no sync message$",
    2: "^bad words$",
    3: "^bad file: (magic at 0|version at 4|flags at 6|count at 8|too few at 8|(short|extra) at (0|[1-9][0-9]*))$",
    4: "^read fault$",
    5: "^write fault$",
    8: "^bad script: (too big|(line|walsh|gain|too loud|too long) (0|[1-9][0-9]*))$",
}
SCRIPT = ("script:", "  cell pn=1")
SAMPLES = [(1, -1), (300, 2), (-3, 77)]


class TheCases(unittest.TestCase):
    def test_there_are_enough_and_each_is_whole(self) -> None:
        names = cases.names_of_cases()
        self.assertGreaterEqual(len(names), 40)
        purposes: dict[str, str] = {}
        for name in names:
            with self.subTest(name):
                case = cases.Case(name)
                self.assertIsNone(purposes.get(case.purpose))
                purposes[case.purpose] = name
                self.check_case(case)

    def check_case(self, case: Any) -> None:
        """Checks that a case can be passed, and that its arguments are among the receiver's."""
        self.assertTrue(all(len(line) < 1_024 for line in case.text or []))
        if case.input == "samples" and case.scripts:
            self.assertRegex(case.fields["sha256"], "^[0-9a-f]{64}$")
            self.assertTrue(all(s[0].startswith("cell pn=") and s[1].startswith("link re=") for s in case.scripts))
        if case.status != 2:
            for words in case.runs:
                self.check_words(words)
        if case.error is not None:
            self.assertRegex(case.error, ERRORS[case.status])
        if case.status in (2, 4, 8):
            self.assertEqual((case.text, case.written), ([], None))

    def check_words(self, words: list[str]) -> None:
        """Returns whether a command has only its own options, each with a value."""
        options = [part for word in words[1:] for part in word.split("=", 1)]
        self.assertLessEqual({option[2:] for option in options[::2]}, WORDS[words[0]])
        self.assertEqual(len(options) % 2, 0)

    def test_what_they_cover(self) -> None:
        whole = [cases.Case(name) for name in cases.names_of_cases()]
        words = [" ".join(case.words) + " " for case in whole]
        lines = "\n".join(line for case in whole for line in case.text or [])
        scripts = "\n".join(line for case in whole for script in case.scripts for line in script)
        for number in range(1, 8):
            self.assertTrue(any(f"--paging {number} " in text for text in words), number)
        for kind in ("system", "neighbors", "channels", "other"):
            self.assertRegex(lines, rf"(?m)^paging at=\d+ {kind} ")
        for kind in ("system", "neighbors", "handoff", "other"):
            self.assertRegex(lines, rf"(?m)^traffic at=\d+ .* {kind} ")
        for rate in (9600, 4800, 2400, 1200):
            self.assertRegex(lines, rf"(?m)^frame at=\d+ rate={rate} good=1 ")
        for rate in (14400, 7200, 3600, 1800):
            self.assertRegex(lines, rf"(?m)^frame2 at=\d+ rate={rate} good=1 ")
        self.assertRegex(lines, r"(?m)^slot at=\d+ time=\d+ messages=[1-9]")
        for text in ("page half", "page next", "prat=0", "prat=1", "prat=2", "prat=3", "checks=0", "checks=3"):
            self.assertIn(text, scripts)
        self.assertTrue(any(case.bits == 8 for case in whole) and any(case.noise for case in whole))
        made = "\n".join(line for case in whole if case.status == 0 for script in case.scripts for line in script)
        self.assertGreater(max(int(n) for n in re.findall(r"samples=(\d+)", made)), 3_000_000)

    def test_each_end_is_asked_for(self) -> None:
        """Each status except out of memory, each fault of a file and of a script, a closed and a full output."""
        whole = [cases.Case(name) for name in cases.names_of_cases()]
        errors = {case.error for case in whole}
        self.assertEqual({case.status for case in whole}, {0, 1, 2, 3, 4, 5, 8})
        self.assertEqual({case.sink for case in whole}, {None, "closed", "full"})
        for kind in ("magic at 0", "version at 4", "flags at 6", "count at 8", "short at 0", "extra at 8208", "too few at 8"):
            self.assertIn(f"bad file: {kind}", errors)
        for fault in ("too big", "line 1", "walsh 1", "gain 1", "too loud 6226300", "too long 33554433"):
            self.assertIn(f"bad script: {fault}", errors)
        self.assertLessEqual({"", "no sync message", "bad words", "read fault", "write fault"}, errors)
        self.assertTrue(all(case.most_read == 0 or case.input == "dropped" for case in whole if case.status == 2))
        taps = [line.split(" ")[0] for line in cases.Case("all_taps").text or ()]
        self.assertEqual(set(taps), {"pilot", "sync", "paging", "frame", "traffic", "sets", "raw"})


class Asks(unittest.TestCase):
    """Receivers and makers that are shell scripts, over cases in a separate folder."""

    def setUp(self) -> None:
        self.folder = temporary_folder(self.addCleanup)
        self.addCleanup(setattr, cases, "CASES", cases.CASES)
        cases.CASES = self.folder
        self.keep("made.is95", sample_file(SAMPLES, flags=2))
        self.maker = self.program("maker", 'cat > "$0.script"; cat ' + self.at("made.is95"))

    def at(self, name: str) -> str:
        return os.path.join(self.folder, name)

    def keep(self, name: str, data: bytes) -> None:
        with open(self.at(name), "wb") as file:
            file.write(data)

    def kept(self, name: str) -> bytes:
        with open(self.at(name), "rb") as file:
            return file.read()

    def program(self, name: str, text: str) -> str:
        self.keep(name, f"#!/bin/sh\n{text}\n".encode())
        os.chmod(self.at(name), 0o700)
        return self.at(name)

    def write(self, *lines: str, name: str = "first") -> None:
        """Writes a case of these lines."""
        self.keep(name + ".case", "".join(line + "\n" for line in lines).encode())

    def case(self, samples: bytes, more: tuple[str, ...] = (), status: int = 0, words: str = "find --span 64") -> None:
        """Writes a case over samples that are made, with a text of two lines."""
        sha = f"sha256: {hashlib.sha256(samples).hexdigest()}"
        script = ["script:", "  cell pn=1", "  pilot gain=3"] * (2 if any(line.startswith("places") for line in more) else 1)
        head = ["purpose: a first one", f"words: {words}", f"status: {status}", "bits: 16", *more, sha]
        self.write(*head, *script, "text:", "  pilot phase=1", "  last")

    def given(self, *more: str, status: int = 0, text: tuple[str, ...] = ("text:", "  said")) -> None:
        """Writes a case over three bytes, whose text is `said`."""
        self.write("purpose: bytes", "words: find", f"status: {status}", *more, "file:", "  0a 0b0C", *text)

    def asked(self, receiver: str, *words: str) -> tuple[int, str]:
        """Returns the status and the verdict on a receiver that runs this text; another program makes the samples."""
        return self.run_with(["--maker", self.maker, *words], receiver)

    def run_with(self, words: list[str], receiver: str) -> tuple[int, str]:
        said, faults = io.StringIO(), io.StringIO()
        with contextlib.redirect_stdout(said), contextlib.redirect_stderr(faults):
            try:
                status = status_of("conformance", [*words, self.program("receiver", receiver)])
            except SystemExit as end:
                status = int(end.code or 0)
        return status, said.getvalue() + faults.getvalue()

    def refuses(self, receiver: str, *wanted: str) -> None:
        """Asserts that a receiver differs, and that all of this is reported."""
        status, said = self.asked(receiver)
        self.assertEqual(status, 1, said)
        for line in wanted:
            self.assertIn(f"    {line}\n", said)

    def accepts(self, receiver: str) -> None:
        self.assertEqual(self.asked(receiver), (0, "1 cases, 0 differ\n"))


class AsksOfSamples(Asks):
    """Cases over samples that are made from scripts."""

    def setUp(self) -> None:
        super().setUp()
        self.case(sample_file(SAMPLES, flags=2))

    def test_nothing_differs(self) -> None:
        self.accepts(f'cat > {self.at("heard.is95")}; echo "$@" > {self.at("words")}; printf "pilot phase=1\\nlast\\n"')
        self.assertEqual(self.kept("heard.is95"), sample_file(SAMPLES, flags=2))
        self.assertEqual(self.kept("words"), b"find --span 64\n")
        self.assertEqual(self.kept("maker.script"), b"cell pn=1\npilot gain=3\n")

    def test_what_differs(self) -> None:
        status, said = self.asked('printf "pilot phase=2\\nlast\\n"; exit 1')
        self.assertEqual(status, 1)
        self.assertEqual(
            said,
            "first: a first one: find --span 64\n    status 1, wanted 0\n    line 1 wanted: pilot phase=1\n"
            "    line 1 written: pilot phase=2\n1 cases, 1 differ\n",
        )
        self.refuses('printf "a\\nb\\nc\\nlast\\nd\\n"', "line 2 written: b", "line 5 written: d", ".. and 1 more")
        self.refuses('printf "pilot phase=1\\nlast"', "the last line has no line feed")
        self.refuses("exit 0", "line 1 wanted: pilot phase=1")
        self.refuses("kill -9 $$", "ended by SIGKILL, wanted 0")

    def test_a_wanted_status(self) -> None:
        self.case(sample_file(SAMPLES, flags=2), status=1)
        self.accepts('printf "pilot phase=1\\nlast\\n"; exit 1')

    def test_samples_that_are_others(self) -> None:
        self.case(sample_file(SAMPLES))
        self.refuses("exit 0", f"the samples that {self.maker} makes don't have the case's checksum")

    def test_sums_and_noise(self) -> None:
        """The second script's samples count from the first sample on; noise by hand."""
        state, noise = 7, []
        for _ in range(6):
            state = (1_664_525 * state + 1_013_904_223) % 2**32
            noise.append((state >> 16) * 21 // 65_536 - 10)
        sums = [(2 * i + noise[2 * t], 2 * q + noise[2 * t + 1]) for t, (i, q) in enumerate(SAMPLES)]
        self.case(sample_file(sums, flags=2), ("places: 0", "noise: 7 10"))
        self.accepts('printf "pilot phase=1\\nlast\\n"')
        self.assertTrue(any(noise))

    def test_noise_against_a_channel(self) -> None:
        """The part that one more unit of the sync channel's gain adds has the channel's sign; the noise has the
        opposite one."""
        louder = [(2, -1), (299, 2), (-3, 79)]
        self.keep("louder.is95", sample_file(louder, flags=2))
        self.maker = self.program(
            "maker", f'if grep -q "sync gain=31 "; then cat {self.at("louder.is95")}; else cat {self.at("made.is95")}; fi'
        )
        sums = [(1 - 40, -1), (300 + 40, 2), (-3, 77 - 40)]
        head = ["purpose: a first one", "words: find", "status: 0", "bits: 16", "against: 32 40"]
        sha = f"sha256: {hashlib.sha256(sample_file(sums, flags=2)).hexdigest()}"
        script = ["script:", "  cell pn=1", "  pilot gain=30 ", "  sync gain=30 prev=3"]
        self.write(*head, sha, *script, "text:", "  pilot phase=1", "  last")
        self.accepts('printf "pilot phase=1\\nlast\\n"')
        self.write(*head[:-1], "against: 10 40", sha, *script, "text:", "  last")
        status, said = self.asked("exit 0")
        self.assertEqual((status, said), (2, "conformance/run: the script sends no channel on row 10\n"))

    def test_samples_that_are_divided(self) -> None:
        """Values of 16 bits are divided by 4, halves rounded up, into samples of 8 bits."""
        self.keep("made.is95", sample_file([(1, -1), (301, 2), (-3, 77), (-2, -6)], flags=2))
        divided = sample_file([(0, 0), (75, 1), (-1, 19), (0, -1)], version=2, flags=2)
        sha = f"sha256: {hashlib.sha256(divided).hexdigest()}"
        self.write("purpose: over", "words: find", "status: 0", "bits: 8", "divide: 4", sha, "script:", "  a", "text:", "  last")
        self.accepts("printf 'last\\n'")

    def test_what_noise_within_the_margins_leaves(self) -> None:
        """The pilot's energy and the pilot sets are not compared; what differs names the law that guarantees it."""
        sha = f"sha256: {hashlib.sha256(sample_file(SAMPLES, flags=2)).hexdigest()}"
        script = ["script:", "  cell pn=1"]
        self.write("purpose: near", "words: follow", "status: 0", "bits: 16", "near: 7", sha, *script, "text:", "  sync at=9")
        self.accepts('printf "pilot phase=1 energy=5\\nsync at=9\\nsets at=10\\n"')
        law = "each part of each sample is within 7 of what the cell sends, and each channel that is heard bears as much: "
        law += "so what was sent comes back (docs/LINK.md, A link with noise)"
        self.refuses('printf "pilot phase=1 energy=5\\n"', law, "line 1 wanted: sync at=9")

    def test_samples_that_are_changed_cut_and_added_to(self) -> None:
        whole = sample_file(SAMPLES, flags=2)
        self.case(b"\x01" + whole[1:-3] + b"\xff\xff", ("change: 0 01", "cut: -3", "add: 2 * ff"))
        self.accepts(f'cat > {self.at("heard.is95")}; printf "pilot phase=1\\nlast\\n"')
        self.assertEqual(self.kept("heard.is95"), b"\x01" + whole[1:-3] + b"\xff\xff")

    def test_what_is_kept(self) -> None:
        os.mkdir(self.at("kept"))
        self.asked("exit 0", "--keep", self.at("kept"))
        self.assertEqual(self.kept("kept/first.is95"), sample_file(SAMPLES, flags=2))
        # With these a receiver is compared by a shell: it gets the words and the file, and writes the lines.
        self.assertEqual(self.kept("kept/first.words"), b"find --span 64\n")
        self.assertEqual(self.kept("kept/first.lines"), b"pilot phase=1\nlast\n")
        self.assertEqual(self.kept("kept/first.status"), b"0\n")

    def test_a_receiver_that_makes_no_samples(self) -> None:
        """If another program makes the samples, cases of `make` and `trial` are left out unless they are named."""
        self.write("purpose: two", "words: make", "input: script", "status: 0", "script:", "  cell", "text:", name="second")
        self.write("purpose: three", "words: trial --number 0", "input: nothing", "status: 0", "text:", name="third")
        answers = 'printf "pilot phase=1\\nlast\\n"'
        self.assertEqual(self.asked(answers), (0, "1 cases, 0 differ; 2 of make and trial are left out\n"))
        self.assertEqual(self.asked(answers, "--only", "second")[0], 1)
        self.assertIn("3 cases, 3 differ\n", self.run_with([], f'cat {self.at("made.is95")}')[1])

    def test_cases_by_a_pattern_and_the_first_that_differs(self) -> None:
        words = ("words: find", "status: 0", "file:", "  0a", "text:", "  said")
        for name in ("first", "first_of_two", "second"):
            self.write(f"purpose: {name}", *words, name=name)
        status, said = self.asked("exit 0", "--only", "first*")
        self.assertEqual((status, said.splitlines()[-1]), (1, "2 cases, 2 differ"))
        self.assertNotIn("second: ", said)
        status, said = self.asked("exit 0", "--exitfirst")
        self.assertEqual((status, said.splitlines()[-1]), (1, "1 cases, 1 differ; 2 were not asked"))
        status, said = self.asked("exit 0", "--exitfirst", "--tap")
        self.assertEqual((status, said.splitlines()[-1]), (1, "Bail out! --exitfirst: a case differs"))

    def test_the_standard_error_of_a_receiver_that_differs_is_shown(self) -> None:
        self.write("purpose: a first one", "words: find", "status: 0", "file:", "  0a", "text:", "  said")
        _, said = self.asked("echo one >&2; echo two >&2; exit 1")
        self.assertIn("    standard error: one\n    standard error: two\n", said)
        _, said = self.asked("seq 9 >&2; exit 1")
        self.assertIn("    standard error (the last of 9 lines): 5\n", said)
        self.assertNotIn("): 4\n", said)
        self.assertNotIn("standard error", self.asked("echo fine >&2; echo said")[1])

    def test_refusals(self) -> None:
        for words, why in (
            (["--only", "none"], "no case none"),
            (["--only", "none_*"], "no case none_*"),
            (["--keep", self.at("none")], "no folder"),
            (["--minutes", "0"], "1 to 1,440"),
        ):
            status, said = self.asked("exit 0", *words)
            self.assertEqual(status, 2)
            self.assertIn(why, said)
        for maker, why in (
            ("echo bad script >&2; exit 8", "ended with 8: bad script"),
            ("printf IS95", "wrote no sample file"),
            ("printf IS95567890123456789", "ends within a sample"),
        ):
            self.program("maker", maker)
            status, said = self.asked("exit 0")
            self.assertEqual(status, 2)
            self.assertIn(why, said)


class AsksOfBytes(Asks):
    """Cases over given bytes, over scripts and over no input; and the ends of runs."""

    def test_bytes(self) -> None:
        self.write("purpose: bytes", "words: find", "status: 0", "file:", "  0a 0b0C", "  3 * 01 02", "text:", "  said")
        self.accepts(f'cat > {self.at("heard")}; echo said')
        self.assertEqual(self.kept("heard"), bytes.fromhex("0a0b0c010201020102"))

    def test_changed_cut_and_added_to(self) -> None:
        self.given("change: 1 ff", "cut: 2", "add: 07")
        self.accepts(f'cat > {self.at("heard")}; echo said')
        self.assertEqual(self.kept("heard"), bytes.fromhex("0aff07"))

    def test_a_script_as_it_is(self) -> None:
        self.write("purpose: a script", "words: make", "input: script", "status: 8", "cut: -1", *SCRIPT, "text:")
        self.assertEqual(self.asked(f'cat > {self.at("heard")}; exit 8', "--only", "first")[0], 0)
        self.assertEqual(self.kept("heard"), b"cell pn=1")

    def test_no_input(self) -> None:
        self.write("purpose: nothing", "words: find", "input: nothing", "status: 3", "text:")
        self.accepts('[ "$(wc -c)" -eq 0 ] && exit 3')
        self.write("purpose: a directory", "words: find", "input: directory", "status: 4", "text:")
        self.accepts("cat 2> /dev/null || exit 4")
        self.refuses("exit 0", "status 0, wanted 4")
        self.write("purpose: a connection", "words: find", "input: dropped", "status: 4", "text:")
        self.accepts("cat 2> /dev/null || exit 4")
        self.refuses("cat 2> /dev/null || cat && exit 3", "status 3, wanted 4")

    def test_several_runs(self) -> None:
        """Each run must give the same output, also the one without arguments."""
        self.write("purpose: two", "words: find", "words:", "words: find ''", "status: 0", "file:", "  00", "text:", "  said")
        self.accepts("echo said")
        status, said = self.asked('[ $# -eq 1 ] && echo said')
        self.assertEqual(status, 1)
        self.assertIn("first: two: \n    status 1, wanted 0\n", said)
        self.assertIn("first: two: find ''\n", said)
        self.assertNotIn("two: find\n", said)
        self.assertIn("1 cases, 1 differ", said)

    def test_several_cases_at_once(self) -> None:
        """Three receivers wait for each other; the reports are in the cases' order, as from one at a time."""
        for name, byte, said in (("a", "31", "1"), ("b", "32", "9"), ("c", "33", "3")):
            self.write("purpose: a byte", "words: find", "status: 0", "file:", f"  {byte}", "text:", f"  {said}", name=name)
        told = self.run_with([], "cat; echo")
        self.assertEqual(told[0], 1)
        self.assertTrue(told[1].startswith("b: a byte: find\n") and told[1].endswith("3 cases, 1 differ\n"), told)
        met = self.at("met")
        wait = f"while [ $(ls {met}* | wc -l) -lt 3 ]; do sleep 0.05; done"
        self.assertEqual(self.run_with(["--jobs", "3", "--minutes", "1"], f"n=$(cat); touch {met}$n; {wait}; echo $n"), told)

    def test_the_line_on_standard_error(self) -> None:
        self.given("error: bad words", status=2)
        self.accepts("echo said; echo bad words >&2; exit 2")
        told = "standard error wanted: bad words"
        self.refuses("echo said; exit 2", told, "standard error written: nothing")
        self.refuses("echo said; echo worse words >&2; exit 2", told, "standard error written: worse words")
        self.refuses("echo said; printf 'bad words' >&2; exit 2", told, "standard error written: 'bad words'")
        self.refuses("echo said; printf 'bad words\\nmore\\n' >&2; exit 2", told, "standard error written: 'bad words\\nmore\\n'")
        self.refuses("echo said; echo bad words >&2; exit 1", "status 1, wanted 2")
        self.given("error:")
        self.accepts("echo said")
        self.refuses("echo said; echo done >&2", "standard error wanted: nothing", "standard error written: done")
        self.given()
        self.accepts("echo said; echo done >&2")

    def test_what_is_taken(self) -> None:
        self.given("read: 0")
        self.accepts("echo said")
        self.refuses("cat > /dev/null; echo said", "3 bytes of the input were taken, wanted at most 0")
        self.given("read: 2")
        self.accepts("dd bs=1 count=2 > /dev/null 2> /dev/null; echo said")

    def test_a_checksum_of_what_is_written(self) -> None:
        checksum = hashlib.sha256(b"said\n").hexdigest()
        self.write("purpose: bytes", "words: make", "input: script", "status: 0", f"output: 5 {checksum}", "script:", "  cell")
        self.assertEqual(self.asked("echo said", "--only", "first")[0], 0)
        for receiver, length, first in (("echo soid", 5, "736f69640a"), ("printf said", 4, "73616964"), ("exit 0", 0, "")):
            status, said = self.asked(receiver, "--only", "first")
            self.assertEqual(status, 1)
            self.assertIn(f"5 bytes with another checksum wanted, {length} written, the first: {first}", said)

    def test_a_lost_output(self) -> None:
        for sink in ("closed", "full"):
            self.write("purpose: lost", "words: find", "status: 5", "error: write fault", f"output: {sink}", "file:", "  00")
            self.accepts("(echo said) 2> /dev/null || { echo write fault >&2; exit 5; }")
            self.refuses("(echo said) 2> /dev/null; exit 0", "status 0, wanted 5", "standard error wanted: write fault")

    def test_cases_that_are_none(self) -> None:
        """Each invalid case is refused in a line that names it, and nothing runs."""
        head = ("purpose: p", "words: find", "status: 0")
        made = (*head, "bits: 16", "sha256: 00")
        end = ("file:", "  00", "text:")
        for lines, why in (
            (("purpose: no words",), "has no bits, sha256, status, words"),
            ((*head, *end[:2]), "must have exactly one of text: and output:"),
            ((*head, "text:"), "has no bits, sha256"),
            ((*head, "input: nothing", *end), "has input: nothing, which takes no script or file"),
            ((*head, "input: script", *end), "has input: script, but not exactly one script"),
            ((*head, "input: air", "text:"), "has input: air, which is not one of samples, script, nothing, direct"),
            ((*made, "text:"), "has no script"),
            ((*head, "bits: 12", "sha256: 00", "script:", "text:"), "has bits: 12, which is neither 8 nor 16"),
            ((*made, "script:", "script:", "text:"), "has 2 scripts, but 0 places"),
            ((*made, "places: 1 2", "script:", "script:", "text:"), "has places: 1 2, which isn't 1 numbers"),
            ((*made, "noise: 1", "script:", "text:"), "has noise: 1, which isn't 2 numbers"),
            ((*made, "against: 0 5", "script:", "text:"), "has against: 0 5, whose first number isn't a row from 1 to 63"),
            ((*made, "divide: -1", "script:", "text:"), "has divide: -1, which isn't 1 numbers"),
            ((*made, "near: 3", "script:", "output: closed"), "has near: without a script or without a text"),
            ((*made, "script:", *end), "has both scripts and a file"),
            ((head[0], head[1], "status: 9", *end), "has status: 9, which isn't 1 numbers from 0 to 8"),
            ((head[0], head[1], "status: x", *end), "has status: x, which isn't"),
            ((*head, "read: -1", *end), "has read: -1, which isn't"),
            ((*head, "status: 0", *end), "has two lines status:"),
            ((*head, *end, "text:"), "has two blocks text:"),
            ((*head, "output: closed", *end), "must have exactly one of text: and output:"),
            ((*head, "output: 5", "file:", "  00"), "has output: 5, which is not closed or full, or a length"),
            ((*head, "change: x 00", *end), "has invalid bytes, or an invalid place"),
            ((*head, "cut: x", *end), "has invalid bytes, or an invalid place"),
            ((*head, "add: 0", *end), "has invalid bytes, or an invalid place"),
            ((*head, "add: 300000000 * 00", *end), "has invalid bytes, or an invalid place: more than 268435456 bytes"),
            ((*head, "file:", "  0g", "text:"), "has invalid bytes, or an invalid place"),
            ((head[0], "words: 'find", head[2], *end), "has invalid arguments"),
            ((*head, "colour: red", *end), "has an invalid line: 'colour: red'"),
            ((*head, "bits:", *end), "has an invalid line: 'bits:'"),
            ((*head, "text:x", *end), "has an invalid line: 'text:x'"),
            ((*head, "a line", *end), "has an invalid line: 'a line'"),
            ((*head, "\u00e9", *end), "isn't ASCII text"),
        ):
            with self.subTest(why, lines=lines):
                self.write(*lines)
                status, said = self.asked(f'touch {self.at("ran")}')
                self.assertEqual(status, 2)
                self.assertIn(f"conformance/run: the case first {why}", said)
                self.assertFalse(os.path.exists(self.at("ran")))


if __name__ == "__main__":
    unittest.main()
