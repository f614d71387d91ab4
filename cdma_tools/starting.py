"""The one way into every command: an interrupt, Ctrl-C or SIGTERM, ends it with one line from its first moment on.

The packages that a command imports take a while to load, and an interrupt that Python raises during an import would end
as a traceback, or as the fault of a package that has none. So this module imports only what each Python has loaded
before it reads a script. Until the command is imported an interrupt ends the process at once, since nothing is begun
yet that would have to be undone. After that it is KeyboardInterrupt, and the command undoes what it has begun.

Some places, which a command may reach at any time, are not fit for an exception: it would be lost, or leave something
half done that nothing undoes. An interrupt that comes there waits until the place is left (`is_unfit`).
"""

import os
import sys

TYPE_CHECKING = False  # which is true for a type checker
if TYPE_CHECKING:
    from collections.abc import Callable
    from types import FrameType

INTERRUPTED = 130  # the status of a command that an interrupt ended
HEARD: "list[int]" = []  # the interrupts that broke something off, or are to come again
AGAIN = 0.005  # seconds after which an interrupt comes again that came in an unfit place
# Files whose functions are unfit, by how their names begin or end: an import that breaks off leaves part of a package,
# and a package in C may hide the exception; a temporary file or folder that is just made or removed would stay.
UNFIT_BEGIN, UNFIT_END = "<frozen importlib", "/tempfile.py"
# Methods that Python or a package in C calls, and whose exceptions it drops or replaces.
CALLED_BACK = ("__del__", "__instancecheck__", "__subclasscheck__")
# The beginning of a pool's work: a thread that its pool doesn't know yet would never end.
POOLS, BEGUN = "/concurrent/futures/", "submit"
# Where a process begins that was forked, perhaps in an unfit place of the process that forked it.
FORKED = "_bootstrap"
# The ends of a `with` statement: a lock that was just taken, or is about to be released, would be kept.
ENDS_OF_WITH = ("__enter__", "__exit__")
# All commands: the module in cdma_tools/commands, the launcher in a checkout, and the name where it is installed.
COMMANDS = (
    ("import_capture", "tools/import_capture", "cdma-import"),
    ("channel", "tools/channel", "cdma-channel"),
    ("scan", "tools/scan", "cdma-scan"),
    ("report", "tools/report", "cdma-report"),
    ("lines", "tools/lines", "cdma-lines"),
    ("draw", "tools/draw", "cdma-draw"),
    ("explain", "tools/explain", "cdma-explain"),
    ("curve", "tools/curve", "cdma-curve"),
    ("conformance", "conformance/run", "cdma-conformance"),
    ("margin", "tools/margin", "cdma-margin"),
    ("listen", "tools/listen", "cdma-listen"),
    ("view", "tools/view", "cdma-view"),
    ("domain", "tools/domain", "cdma-domain"),
    ("adapt", "tools/adapt", "cdma-adapt"),
    ("script", "tools/script", "cdma-script"),
    ("model", "tools/model", "cdma-model"),
    ("agree", "tools/agree", ""),
    ("bench", "tools/bench", ""),
    ("build", "tools/build", ""),
    ("conformance_check", "conformance/check", ""),
    ("conformance_recordings", "conformance/run_recordings", ""),
    ("conformance_write", "conformance/write", ""),
    ("gate_times", "tools/gate_times", ""),
    ("hostile", "tools/hostile", ""),
    ("house", "tools/house", ""),
    ("install", "tools/install", ""),
    ("make_capture", "tools/make_capture", ""),
    ("package", "tools/package", ""),
    ("radio_bench", "tools/radio_bench", ""),
    ("starve", "tools/starve", ""),
)
IN_CHECKOUT = {module: launcher.removeprefix("tools/") for module, launcher, _ in COMMANDS}
INSTALLED = {module: name for module, _, name in COMMANDS if name}


def is_installed() -> bool:
    """Whether this process was started as an installed command, `cdma-NAME`."""
    return os.path.basename(sys.argv[0] if sys.argv else "").startswith("cdma-")


def called(tool: str) -> str:
    """Returns the name of a tool: `scan` in a checkout, `cdma-scan` if it is installed."""
    return INSTALLED.get(tool, tool) if is_installed() else IN_CHECKOUT.get(tool, tool)


def named_by(path: str) -> str:
    """Returns the command of the launcher at a path: the path names it, or a link on the way to the launcher does."""
    while True:
        folder, name = os.path.split(path)
        place = os.path.basename(os.path.realpath(folder or ".")) + "/" + name
        for module, launcher, _ in COMMANDS:
            if launcher == place:
                return module
        if not os.path.islink(path):
            raise SystemExit(f"{name}: not the launcher of a command")
        path = os.path.join(folder, os.readlink(path))


def start(name: str) -> int:
    """Runs a command with the arguments of this process, and returns its exit status."""
    interrupts = Interrupts(name)
    try:
        interrupts.hear()
        let_interrupts_in()
        find_packages()
        from cdma_tools import commands

        status = commands.run(name, interrupts.begin)
        pass_over_interrupts()
        return status
    except KeyboardInterrupt as why:
        pass_over_interrupts()
        return broken_off(name, str(why))
    except Exception:
        # A package in C may have made another exception of the interrupt.
        if not HEARD:
            raise
        pass_over_interrupts()
        return broken_off(name)


class Interrupts:
    """What an interrupt does to a command."""

    def __init__(self, name: str) -> None:
        """The command isn't imported yet."""
        self.name, self.is_running = name, False

    def hear(self) -> None:
        """Lets an interrupt end this process at once, up to `begin`."""
        hear_interrupts(self.take)

    def begin(self) -> None:
        """From here on an interrupt breaks off the command, which undoes what it has begun."""
        sys.unraisablehook = take_lost
        self.is_running = True

    def take(self, number: int, frame: "FrameType | None") -> None:
        """Takes an interrupt: a handler of signals."""
        if not self.is_running:
            os._exit(broken_off(self.name))
        break_off(number, frame)


def break_off(number: int, frame: "FrameType | None") -> None:
    """Breaks off what a process does, as an interrupt does with a command: a handler of signals."""
    HEARD.append(number)
    if is_unfit(frame):
        send_again(number)
    else:
        raise KeyboardInterrupt


def take_lost(lost: "sys.UnraisableHookArgs") -> None:
    """Sends an interrupt again that Python has dropped, and reports any other exception that it has dropped.

    After an interrupt others come from objects that it left half made, and aren't reported.
    """
    if not HEARD:
        sys.__unraisablehook__(lost)
    elif issubclass(lost.exc_type, KeyboardInterrupt):
        send_again(HEARD[-1])


def is_unfit(frame: "FrameType | None") -> bool:
    """Whether an exception that is raised in a frame may be lost, or leave something half done."""
    if frame is not None and frame.f_code.co_name in ENDS_OF_WITH:
        return True
    while frame is not None:
        name, file = frame.f_code.co_name, frame.f_code.co_filename
        if name == FORKED and file.endswith("/multiprocessing/process.py"):
            return False
        if file.startswith(UNFIT_BEGIN) or file.endswith(UNFIT_END):
            return True
        if name in CALLED_BACK or name == BEGUN and POOLS in file:
            return True
        frame = frame.f_back
    return False


def send_again(number: int) -> None:
    """Sends a signal to this process again in a moment."""
    import signal

    signal.signal(signal.SIGALRM, lambda *_: signal.raise_signal(number))
    signal.setitimer(signal.ITIMER_REAL, AGAIN)


def hear_interrupts(take: "Callable[[int, FrameType | None], None]") -> None:
    """Lets a handler take each interrupt.

    A signal that is ignored, as Ctrl-C is in the background of a shell, stays so.
    """
    import signal

    for number in (signal.SIGINT, signal.SIGTERM):
        if signal.getsignal(number) is not signal.SIG_IGN:
            signal.signal(number, take)


def let_interrupts_in() -> None:
    """Lets those interrupts in that a launcher has held back from its first line on."""
    import signal

    signal.pthread_sigmask(signal.SIG_UNBLOCK, (signal.SIGINT, signal.SIGTERM))


def pass_over_interrupts() -> None:
    """Ignores interrupts in a process that is about to end."""
    import signal

    for number in (signal.SIGINT, signal.SIGTERM, signal.SIGALRM):
        signal.signal(number, signal.SIG_IGN)


def find_packages() -> None:
    """Lets a Python that was started without `site`, which takes its time, find the packages of its machine."""
    if sys.flags.no_site:
        import site

        site.main()


def broken_off(name: str, more: str = "") -> int:
    """Writes to standard error in one line that a command was broken off, and returns its status."""
    try:
        os.write(2, f"{called(name)}: broken off{more}\n".encode())
    except OSError:
        pass  # nobody takes it
    return INTERRUPTED
