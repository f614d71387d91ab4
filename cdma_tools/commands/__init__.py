"""The commands: a module for each, whose `main` takes the arguments and returns the exit status.

`starting.start(NAME)` runs one in a process, which ends as a shell expects: a fault is one line, a closed pipe ends it
quietly, and Ctrl-C or SIGTERM ends it with one line and status 130. `tools/NAME` and `conformance/NAME` in a checkout,
installed commands (`entries`) and `python3 -m cdma_tools NAME` all start that way.
"""

import importlib
import io
import os
import sys
from collections.abc import Callable

from cdma_tools.arguments import WRONG
from cdma_tools.errors import Refused, WrongArguments, said, text_of
from cdma_tools.places import TOP
from cdma_tools.starting import called

FAILED = 1
# The statuses of commands in which 1 has another meaning.
FAILED_AS = {
    "report": 9,
    "adapt": 9,
    "agree": 2,
    "conformance": 2,
    "conformance_check": 2,
    "conformance_recordings": 2,
    "gate_times": 2,
}
# Debian's packages of modules, as far as they have other names than python3-MODULE.
PACKAGES = {"build_manpages": "python3-argparse-manpage"}


def package_of(module: str) -> str:
    """Returns the package of Debian that has a module."""
    name = module.split(".")[0]
    return PACKAGES.get(name, f"python3-{name}")


def run(name: str, ready: Callable[[], None]) -> int:
    """Runs a command with the arguments of this process, and returns its exit status; see `status_of` for `ready`."""
    open_streams()
    try:
        status = status_of(name, ready=ready)
        sys.stdout.flush()
        return status
    except BrokenPipeError:
        return close_quietly()
    except OSError as why:
        said(called(name), f"standard output: {why.strerror}")
        close_quietly()
        return FAILED
    except KeyboardInterrupt:
        close_quietly()
        raise


def status_of(name: str, arguments: list[str] | None = None, ready: Callable[[], None] | None = None) -> int:
    """Returns the exit status of a command, whose faults are written in one line; the default arguments are the
    process's.

    `ready` is called when the command is imported, before it runs.
    """
    try:
        command = importlib.import_module(f"cdma_tools.commands.{name}")
        if ready:
            ready()
        return int(command.main(arguments))
    except SystemExit as end:
        return end.code if isinstance(end.code, int) else WRONG if end.code else 0
    except WrongArguments as why:
        said(called(name), str(why))
        return WRONG
    except Refused as why:
        said(called(name), str(why))
    except ModuleNotFoundError as missing:
        if missing.name == f"cdma_tools.commands.{name}":
            said(called(name), "this version has no such command")
        else:
            package = package_of(missing.name or "")
            said(called(name), f"{missing}: install the package {package}, and run /usr/bin/python3")
    except MemoryError:
        said(called(name), "out of memory")
    except BrokenPipeError:
        raise
    except OSError as why:
        said(called(name), text_of(why))
    return FAILED_AS.get(name, FAILED)


def open_streams() -> None:
    """Opens standard streams that were closed, as nothing; a name that isn't text is written with escapes."""
    for number, name in enumerate(("stdin", "stdout", "stderr")):
        if getattr(sys, name) is None:
            setattr(sys, name, open(os.devnull, "w" if number else "r"))
    for stream in (sys.stdout, sys.stderr):
        if isinstance(stream, io.TextIOWrapper):
            stream.reconfigure(errors="backslashreplace")


def close_quietly() -> int:
    """Discards what standard output still holds, and returns the status of an output that wasn't taken."""
    nothing = os.open(os.devnull, os.O_WRONLY)
    os.dup2(nothing, sys.stdout.fileno())
    os.close(nothing)
    return FAILED


def process_arguments(name: str) -> list[str]:
    """Returns the first arguments with which another process runs a command, by the same Python and package."""
    setting = (
        f"import sys; sys.path.insert(0, {TOP!r}); from cdma_tools.starting import start; sys.exit(start({name!r}))"
    )
    return [sys.executable, "-B", "-P", "-c", setting]
