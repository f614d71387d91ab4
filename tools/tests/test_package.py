"""tools/package, tools/install and pip: each is installed into an empty root, tried as a user would, and removed
again."""

from __future__ import annotations

import importlib.util
import os
import re
import shutil
import subprocess
import unittest
import unittest.mock

from tools.tests.helping import NO_PROGRAM, PROGRAM, PYTHON, ROOT, needs, run_inside, run_tool, temporary_folder

needs("numpy", "scipy")

import cdma_tools  # noqa: E402
from cdma_tools.errors import Refused  # noqa: E402
from cdma_tools.packaging import archive, debian, gate_log, tree  # noqa: E402
from cdma_tools.places import data_folder  # noqa: E402
from cdma_tools.program import NAME  # noqa: E402
from cdma_tools.starting import INSTALLED  # noqa: E402

SECONDS = 300
# Cases of several commands; all of them are asked where WHOLE_CONFORMANCE is set, which takes some minutes.
CASES = ("all_taps", "survey_narrow")
IS_WHOLE = bool(os.environ.get("WHOLE_CONFORMANCE"))
STANDS_FOR = "#!/bin/sh\necho bad words >&2\nexit 2\n"


def files_below(folder: str) -> list[str]:
    """Returns the files below a folder."""
    return sorted(
        os.path.relpath(os.path.join(path, name), folder) for path, _, names in os.walk(folder) for name in names
    )


class Installed(unittest.TestCase):
    """What a user does with an installation."""

    def setUp(self) -> None:
        self.folder = temporary_folder(self.addCleanup)
        self.work = os.path.join(self.folder, "work")
        os.mkdir(self.work)

    def ran(self, prefix: str, *words: str, source: str | None = None) -> subprocess.CompletedProcess[bytes]:
        """Runs an installed command outside the checkout; it finds the others on the path."""
        environment = {
            "PATH": f"{prefix}/bin:/usr/bin:/bin",
            "HOME": self.work,
            "OMP_NUM_THREADS": "1",
            "OPENBLAS_NUM_THREADS": "1",
        }
        with open(source or os.devnull, "rb") as file:
            return subprocess.run(
                [os.path.join(prefix, "bin", words[0]), *words[1:]],
                stdin=file, capture_output=True, cwd=self.work, env=environment, timeout=SECONDS,
            )  # fmt: skip

    def done(self, prefix: str, *words: str, source: str | None = None, into: str | None = None) -> bytes:
        """Returns the output of a successful run, and keeps it in a file if one is named."""
        ended = self.ran(prefix, *words, source=source)
        self.assertEqual(ended.returncode, 0, ended.stderr.decode())
        if into:
            with open(os.path.join(self.work, into), "wb") as file:
                file.write(ended.stdout)
        return ended.stdout

    def try_out(self, prefix: str) -> None:
        """Makes a second of paging, sends it through a channel, imports, follows and reports it; and runs cases."""
        for name in tree.commands():
            told = self.done(prefix, name, "--version").decode()
            self.assertEqual(told, f"{name} {cdma_tools.__version__}\n")
        script = os.path.join(prefix, "share", "cdma-replay", "examples", "second_of_paging.script")
        self.done(prefix, "cdma_replay", "make", source=script, into="second.is95")
        self.done(
            prefix,
            "cdma-channel",
            "--type",
            "cu8",
            "--carrier",
            "-2000",
            "--ec-io",
            "-9",
            "second.is95",
            "radio.sigmf-meta",
        )
        self.done(prefix, "cdma-import", "--lock", "radio.sigmf-meta", "radio.is95")
        heard = self.done(
            prefix, "cdma_replay", "follow", source=os.path.join(self.work, "radio.is95"), into="heard.txt"
        )
        self.assertRegex(heard.decode(), r"(?m)^paging at=\d+ channels pn=511 ")
        self.assertEqual(self.done(prefix, "cdma-lines", "heard.txt").count(b"\n"), heard.count(b"\n"))
        self.done(prefix, "cdma-explain", "second.is95", "--sync")
        if importlib.util.find_spec("plotly"):
            self.done(prefix, "cdma-report", "radio.is95", "--out", "page.html")
        words = () if IS_WHOLE else tuple(word for name in CASES for word in ("--only", name))
        self.assertRegex(self.done(prefix, "cdma-conformance", *words).decode(), r"^\d+ cases, 0 differ\n\Z")

    def check_pages_and_completions(self, prefix: str) -> None:
        """Checks that man accepts the manual pages and that bash can read the completions."""
        for name in tree.commands():
            page = os.path.join(prefix, "share", "man", "man1", f"{name}.1")
            if shutil.which("mandoc"):
                ran = subprocess.run(
                    ["mandoc", "-T", "lint", "-W", "warning", page], capture_output=True, text=True, timeout=60
                )
                self.assertEqual((ran.returncode, ran.stdout), (0, ""))
            file = os.path.join(prefix, "share", "bash-completion", "completions", name)
            function = "_" + name.replace("-", "_")
            asked = f'source {file}; COMP_WORDS=({name} --ver); COMP_CWORD=1; {function}; echo "${{COMPREPLY[@]}}"'
            ran = subprocess.run(["bash", "-c", asked], capture_output=True, text=True, timeout=60)
            self.assertIn("--version", ran.stdout.split(), ran.stderr)
            self.assertTrue(os.path.isfile(os.path.join(prefix, tree.ZSH, f"_{name}")))
        for place in (os.path.join(tree.BASH, NAME), os.path.join(tree.ZSH, f"_{NAME}")):
            self.assertTrue(os.path.isfile(os.path.join(prefix, place)))


def missing_packages() -> str:
    """Returns which packages are missing that debian/control asks for, empty if none is."""
    if not shutil.which("dpkg-checkbuilddeps") or not shutil.which("dpkg-buildpackage"):
        return "no dpkg-buildpackage: install the package dpkg-dev"
    control = os.path.join(ROOT, "debian", "control")
    return subprocess.run(["dpkg-checkbuilddeps", control], capture_output=True, text=True, timeout=60).stderr.strip()


MISSING = missing_packages()
PLUGINS = "usr/lib/x86_64-linux-gnu/wireshark/plugins"  # where Wireshark looks for dissectors of packages
# Files of the package that an installation below a prefix doesn't have.
OF_DEBIAN = {
    f"{PLUGINS}/is95.lua",
    "usr/share/doc/cdma-replay/changelog.gz",
    "usr/share/doc/cdma-replay/copyright",
    "usr/share/lintian/overrides/cdma-replay",
}
# What Python packages say of themselves, which each installer of Python packages writes.
METADATA = re.compile(r"usr/lib/python3/dist-packages/cdma_tools-[\d.]+\.dist-info/\w+(\.txt)?")


def as_in_the_package(place: str) -> str:
    """Returns the place in the package of a file that tools/install puts below a prefix."""
    place = re.sub("^share/cdma-replay/(?=cdma(_model|_tools)?/)", f"{debian.MODULES}/", place)
    place = re.sub(r"(?<=^share/man/man1/)(.*)$", r"\1.gz", place)
    return "usr/" + place.replace(tree.ZSH, debian.VENDOR_ZSH)


@unittest.skipUnless(PROGRAM, NO_PROGRAM)
@unittest.skipIf(MISSING, MISSING)
class ThePackage(Installed):
    """The package of Debian's kind."""

    seconds = 120
    package, root = "", ""  # the package's file, and the folder into which it is unpacked

    @classmethod
    def setUpClass(cls) -> None:
        folder = temporary_folder(cls.addClassCleanup)
        cls.package, cls.root = os.path.join(folder, "one.deb"), os.path.join(folder, "root")
        debian.build(str(PROGRAM), cls.package)
        subprocess.run(["dpkg-deb", "-x", cls.package, cls.root], check=True, timeout=60)

    def test_the_same_files_make_the_same_package(self) -> None:
        again = os.path.join(self.folder, "two.deb")
        with unittest.mock.patch.dict(os.environ, {"SOURCE_DATE_EPOCH": "1", "TZ": "Pacific/Chatham", "LC_ALL": "C"}):
            debian.build(str(PROGRAM), again)
        with open(self.package, "rb") as one, open(again, "rb") as two:
            self.assertEqual(one.read(), two.read())

    def test_it_has_the_files_of_an_installation(self) -> None:
        found = {place for place in files_below(self.root) if not METADATA.fullmatch(place)}
        wanted = {as_in_the_package(entry.place) for entry in tree.entries(str(PROGRAM))}
        self.assertEqual(found, wanted | OF_DEBIAN)
        with open(os.path.join(self.root, "usr", "bin", "cdma_replay"), "rb") as packed:
            self.assertEqual(packed.read(), tree.read(str(PROGRAM)))

    def test_what_a_user_does(self) -> None:
        self.try_out(os.path.join(self.root, "usr"))

    def test_the_story_of_an_analyser(self) -> None:
        """The test of debian/tests, in an empty folder, by the package's files."""
        environment = {"AUTOPKGTEST_TMP": self.work, "PATH": f"{self.root}/usr/bin:/usr/bin:/bin", "HOME": self.work}
        script = os.path.join(ROOT, "debian", "tests", "analyser")
        ran = subprocess.run([script], capture_output=True, text=True, env=environment, timeout=SECONDS)
        self.assertEqual((ran.returncode, ran.stdout), (0, ""), ran.stderr)

    @unittest.skipUnless(shutil.which("tshark"), "no tshark: install the package tshark")
    def test_the_dissector_is_where_wireshark_looks(self) -> None:
        ran = subprocess.run(["tshark", "-G", "folders"], capture_output=True, text=True, timeout=60)
        self.assertRegex(ran.stdout, rf"(?m)^Global Lua Plugins:\s+/{re.escape(PLUGINS)}$")

    @unittest.skipUnless(shutil.which("lintian"), "no lintian: install the package lintian")
    def test_lintian_finds_nothing(self) -> None:
        words = ["lintian", "--allow-root", "--fail-on", "error,warning", self.package]
        ran = subprocess.run(words, capture_output=True, text=True, timeout=SECONDS)
        self.assertEqual((ran.returncode, ran.stdout), (0, ""))

    def test_removal(self) -> None:
        """dpkg removes everything that it installed below a root."""
        root, tools = os.path.join(self.folder, "below"), os.path.join(self.folder, "tools")
        base = os.path.join(root, "var", "lib", "dpkg")
        for folder in (tools, *(os.path.join(base, name) for name in ("info", "updates", "triggers"))):
            os.makedirs(folder)
        for name in ("status", "available"):
            with open(os.path.join(base, name), "w"):
                pass
        # The package's scripts run outside the root: none of their programs but these may be found.
        for name in ("dpkg-deb", "dpkg-split", "ldconfig", "rm", "sh", "start-stop-daemon", "tar"):
            os.symlink(str(shutil.which(name, path="/usr/sbin:/usr/bin:/sbin:/bin")), os.path.join(tools, name))
        for name in ("py3clean", "py3compile"):
            os.symlink("/bin/true", os.path.join(tools, name))
        dpkg = [str(shutil.which("dpkg")), f"--root={root}", f"--log={self.folder}/log"]
        dpkg += [f"--force-{name}" for name in ("not-root", "depends", "bad-path", "script-chrootless")]
        for more in (["--install", self.package], ["--purge", tree.NAME]):
            ran = subprocess.run([*dpkg, *more], capture_output=True, text=True, env={"PATH": tools}, timeout=SECONDS)
            self.assertEqual(ran.returncode, 0, ran.stderr)
            self.assertEqual(os.path.exists(os.path.join(root, "usr", "bin", "cdma-scan")), more[0] == "--install")
        self.assertFalse(os.path.exists(os.path.join(root, "usr")))


@unittest.skipUnless(PROGRAM, NO_PROGRAM)
class OfTheProgram(Installed):
    """An installation of the built program below a prefix."""

    def test_a_prefix(self) -> None:
        needs("shtab", "build_manpages")
        prefix = os.path.join(self.folder, "prefix")
        status, wrote, said = run_tool("install", "--program", str(PROGRAM), prefix)
        self.assertEqual((status, said), (0, ""))
        places = files_below(prefix)
        self.assertEqual(sorted(wrote.decode().split("\n")[:-1]), [os.path.join(prefix, place) for place in places])
        self.try_out(prefix)
        self.check_pages_and_completions(prefix)
        self.assertEqual(files_below(prefix), places)
        self.assertEqual(run_tool("install", "--remove", prefix)[0], 0)
        self.assertFalse(os.path.exists(prefix) and os.listdir(prefix))


class Parts(Installed):
    """What needs no built program."""

    def test_only_what_was_built_is_packed(self) -> None:
        """Without a program in its place in the checkout there is no package, whatever the environment names."""
        program = os.path.join(self.folder, "cdma_replay")
        with open(program, "w", encoding="ascii") as file:
            file.write(STANDS_FOR)
        os.chmod(program, 0o755)
        with unittest.mock.patch.dict(os.environ, {"CDMA_REPLAY": program}):
            with unittest.mock.patch("cdma_tools.commands.package.BUILT", os.path.join(self.folder, "none")):
                with self.assertRaisesRegex(Refused, "no program at .*none: build it first"):
                    importlib.import_module("cdma_tools.commands.package").main([self.folder])
        self.assertEqual(run_tool("package", "--program", program)[0], 2)
        self.assertEqual(run_tool("package", os.path.join(self.folder, "none"))[0], 2)

    def stand_in(self) -> str:
        """Returns the path of a script that stands for the program."""
        program = os.path.join(self.folder, "program")
        with open(program, "w", encoding="ascii") as file:
            file.write(STANDS_FOR)
        os.chmod(program, 0o755)
        return program

    def kept_log(self, text: str) -> tuple[int, str, list[str]]:
        """Makes an archive with a log; returns the status, what is said, and the files of the folder."""
        log = os.path.join(self.folder, "gate.log")
        with open(log, "w", encoding="utf-8") as file:
            file.write(text)
        folder = temporary_folder(self.addCleanup)
        with unittest.mock.patch("cdma_tools.commands.package.BUILT", self.stand_in()):
            status, _, said = run_inside("package", "--tarball", "--log", log, folder)
        if status == 0:
            words = ["sha256sum", "--check", "--quiet", archive.CHECKSUM]
            self.assertEqual(subprocess.run(words, cwd=folder, capture_output=True, timeout=60).stdout, b"")
            with open(os.path.join(folder, archive.LOG), encoding="utf-8") as kept:
                self.assertEqual(kept.read(), text)
            with open(os.path.join(folder, archive.CHECKSUM), encoding="ascii") as sums:
                self.assertEqual([line.split()[1] for line in sums], [archive.FILE, archive.LOG])
        return status, said, files_below(folder)

    def test_the_log_of_a_gate_that_passed(self) -> None:
        ours = gate_log.this_commit()
        logs = ["41 passed, 0 failed\n", "rt: ok\n41 passed, 0 failed", "Dec 01 03:00:59 41 passed, 0 failed\n\n"]
        if ours:
            logs += [f"{at}commit {ours}\nrt: ok\n{at}1 passed, 0 failed\n" for at in ("", "2026-12-01T03:00:59 ")]
        for text in logs:
            with self.subTest(text):
                self.assertEqual(self.kept_log(text), (0, "", sorted([archive.FILE, archive.LOG, archive.CHECKSUM])))

    def test_no_other_log_is_kept(self) -> None:
        for text, why in (
            ("", "the log's last line is not that of a whole gate"),
            ("rt: ok\n", "not that of a whole gate, 'N passed, 0 failed': 'rt: ok'"),
            ("41 passed, 0 failed\nmore\n", "not that of a whole gate, 'N passed, 0 failed': 'more'"),
            ("40 passed, 1 failed\n", "a gate that did not pass"),
            ("0 passed, 0 failed\n", "a gate that did not pass"),
            ("1 passed, 0 failed (walsh and the crates below alone: not the gate)\n", "not of the whole gate"),
            (f"commit {'0' * 40}\n41 passed, 0 failed\n", "the log is of commit 0000000"),
            ("commit 0000000 (HEAD -> main)\n41 passed, 0 failed\n", "is of commit 0000000, and this checkout"),
            ("\0" * 1_000, "not that of a whole gate"),
        ):
            with self.subTest(text):
                status, said, files = self.kept_log(text)
                self.assertEqual((status, said.count("\n"), files), (1, 1, []))
                self.assertIn(why, said)
        for words, wanted in ((("--log", os.devnull), 2), (("--tarball", "--log", self.folder), 1)):
            self.assertEqual(run_inside("package", *words, self.work)[0], wanted)

    def test_a_tarball(self) -> None:
        """The archive has the program byte by byte, passes its checksum, and is the same each time."""
        program = self.stand_in()
        made = []
        for name in ("one", "two"):
            folder = os.path.join(self.folder, name)
            os.mkdir(folder)
            with unittest.mock.patch("cdma_tools.commands.package.BUILT", program):
                self.assertEqual(run_inside("package", "--tarball", folder)[0], 0)
            self.assertEqual(files_below(folder), [archive.FILE, archive.CHECKSUM])
            with open(os.path.join(folder, archive.FILE), "rb") as packed:
                made.append(packed.read())
        self.assertEqual(*made)
        ran = subprocess.run(["sha256sum", "--check", archive.CHECKSUM], cwd=folder, capture_output=True, timeout=60)
        self.assertEqual((ran.returncode, ran.stdout.decode()), (0, f"{archive.FILE}: OK\n"))
        subprocess.run(["tar", "-xf", archive.FILE], cwd=folder, check=True, timeout=60)
        unpacked = os.path.join(folder, archive.TITLE)
        self.assertIn("share/man/man1/cdma_replay.1", files_below(unpacked))
        ran = subprocess.run([os.path.join(unpacked, "bin", "cdma_replay")], capture_output=True, timeout=60)
        self.assertEqual((ran.returncode, ran.stderr), (2, b"bad words\n"))

    def test_the_copyright_file_says_that_no_licence_is_chosen(self) -> None:
        with open(os.path.join(ROOT, "debian", "copyright"), encoding="utf-8") as file:
            self.assertIn("No licence has been chosen yet.", file.read())

    def test_a_build_that_fails(self) -> None:
        """The reason is one line: the packages that are missing, the first error, or the last line."""
        for told, why in (
            (f"a; {debian.UNMET}debhelper-compat (= 13) dh-python", "control asks for: debhelper-compat .*python$"),
            ("dh_install: error: missing files; make: Error 2", "^sh ended with 3: dh_install: error: missing files$"),
            ("first; last", "^sh ended with 3: last$"),
        ):
            with self.subTest(told), self.assertRaisesRegex(Refused, why):
                debian.run(["sh", "-c", f"echo '{told}' | sed 's/; /\\n/g' >&2; exit 3"], self.folder)
        with self.assertRaisesRegex(Refused, "^none: No such file or directory: install the packages dpkg-dev"):
            debian.run(["none"], self.folder)

    def test_each_command_of_the_checkout_is_installed(self) -> None:
        modules = {
            name for name in INSTALLED if os.path.exists(os.path.join(ROOT, "cdma_tools", "commands", f"{name}.py"))
        }
        self.assertEqual(set(tree.commands().values()), modules)
        self.assertLessEqual(
            {"import_capture", "channel", "scan", "report", "lines", "draw", "explain", "curve", "conformance"}, modules
        )

    def test_data_is_found_beside_a_package_or_below_its_prefix(self) -> None:
        package = os.path.join(self.folder, "lib", "python3", "dist-packages", "cdma_tools")
        shared = os.path.join(self.folder, "share", "cdma-replay", "examples")
        for folder in (package, shared):
            os.makedirs(folder)
        self.assertEqual(data_folder("examples", package), shared)
        beside = os.path.join(os.path.dirname(package), "examples")
        self.assertEqual(data_folder("conformance", package), os.path.join(os.path.dirname(package), "conformance"))
        os.mkdir(beside)
        self.assertEqual(data_folder("examples", package), beside)

    def test_pip(self) -> None:
        """pip installs the tools from a checkout without a network, using only Debian's packages."""
        for module, package in (
            ("pip", "python3-pip"),
            ("setuptools", "python3-setuptools"),
            ("wheel", "python3-wheel"),
        ):
            if subprocess.run([PYTHON, "-c", f"import {module}"], capture_output=True).returncode:
                self.skipTest(f"no {module}: install the package {package}")
        source, prefix = os.path.join(self.folder, "source"), os.path.join(self.folder, "prefix")
        left = shutil.ignore_patterns("crates", ".git", "__pycache__", "build", "*.egg-info")
        shutil.copytree(ROOT, source, ignore=left)
        words = ["--no-index", "--no-build-isolation", "--no-deps", "--no-cache-dir", "--no-warn-script-location"]
        environment = {**os.environ, "PIP_DISABLE_PIP_VERSION_CHECK": "1", "PIP_ROOT_USER_ACTION": "ignore"}
        command = [PYTHON, "-m", "pip", "install", *words, "--prefix", prefix, source]
        ran = subprocess.run(command, capture_output=True, text=True, env=environment, timeout=SECONDS)
        self.assertEqual(ran.returncode, 0, ran.stderr)
        scripts = [
            path for path in files_below(prefix) if os.path.basename(path).startswith("cdma-") and "/bin/" in f"/{path}"
        ]
        self.assertEqual(sorted(os.path.basename(path) for path in scripts), sorted(INSTALLED.values()))
        where = next(path for path, folders, _ in os.walk(prefix) if "cdma_tools" in folders)
        run = {**os.environ, "PYTHONPATH": where, "PYTHONDONTWRITEBYTECODE": "1"}
        for name in tree.commands():
            script = os.path.join(prefix, next(path for path in scripts if path.endswith(f"/{name}")))
            told = subprocess.run(
                [script, "--version"], capture_output=True, text=True, env=run, cwd=self.work, timeout=60
            )
            self.assertEqual((told.returncode, told.stdout), (0, f"{name} {cdma_tools.__version__}\n"), told.stderr)
        code = "import cdma, sys; cdma.use_model(); print(cdma.find(sys.argv[1]).phase, cdma.__file__)"
        words = [PYTHON, "-c", code, os.path.join(ROOT, "examples", "pilot_in_noise.is95")]
        told = subprocess.run(words, capture_output=True, text=True, env=run, cwd=self.work, timeout=60)
        self.assertEqual(told.stdout, f"12345 {os.path.join(where, 'cdma', '__init__.py')}\n", told.stderr)
        for name in ("cdma", "cdma_model", "cdma_tools"):  # so that a user's script has the types of all
            self.assertTrue(os.path.exists(os.path.join(where, name, "py.typed")), name)
        self.assertEqual({name for name in os.listdir(where) if "." not in name}, {"cdma", "cdma_model", "cdma_tools"})
        for place in (place for name in ("cdma", "cdma_model", "cdma_tools") for place in tree.files_below(name)):
            self.assertTrue(os.path.exists(os.path.join(where, place)), place)
        script = os.path.join(prefix, next(path for path in scripts if path.endswith("/cdma-conformance")))
        told = subprocess.run([script, "--list"], capture_output=True, text=True, env=run, cwd=self.work, timeout=60)
        self.assertGreater(told.stdout.count("\n"), 300, told.stderr)


if __name__ == "__main__":
    unittest.main()
