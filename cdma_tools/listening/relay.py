"""Successive runs of `follow`, fed with a stream of chips, so that each event is reported once.

Run j begins at chip B(j), and its line with at=A was known at chip B(j) + A. It is passed on if that lies after T(j)
and not after T(j + 1), where T(j) is the seam at which run j took over (`seams`). Lines of run j + 1 are passed on when
run j has ended.
"""

from collections import deque
from collections.abc import Iterable

from cdma_tools.listening.beginning import START, Beginning, is_there
from cdma_tools.listening.events import Event, Listener, Remark
from cdma_tools.listening.follow_run import FollowRun, Handset, RunEnded, Sets
from cdma_tools.listening.pieces import Chips
from cdma_tools.listening.rate_two_run import RateTwoRun
from cdma_tools.listening.seams import AFTER, FRAME, GRID, LEAST_OVERLAP, OVERLAP, KeptChips, end_of, off_grid
from cdma_tools.listening.system_time import SystemTime, time_told
from cdma_tools.program import NAME
from cdma_tools.radio.air import CHIP_RATE, PERIOD

Run = FollowRun | RateTwoRun
# Chips that are kept besides the overlap, so that a run can still be restarted once its seam has passed.
MORE_KEPT = 16 * PERIOD
# Zeros after the stream's end, which flush the last frames. Lines of these kinds then count if they were known up to a
# frame after the end, since they wait for the next frame.
TAIL = 3 * PERIOD
LATE = {"sync": PERIOD, "paging": FRAME, "raw": PERIOD}
# Zeros that are fed at once, where chips were lost.
ZEROS = 1 << 16
# Chips that the code of a run's pilot may lie from its first chip's number: a finger adds as many at most, and the
# pilots of two cells are 64 apart.
ASTRAY = 32
# Seconds without a line after which a run has presumably received nothing yet.
PATIENCE = 5.0
# Runs that may be killed one after the other before one writes a line.
MOST_KILLED = 3
# Seams that are remembered.
SEAMS_KEPT = 64


class Relay:
    """The runs of one stretch of chips after the other."""

    def __init__(
        self, handset: Handset, listener: Listener, origin: int, overlap: int = OVERLAP, wanted: Iterable[int] = ()
    ) -> None:
        """Nothing runs yet; remarks count seconds from chip `origin`, and seams shall lie at the chips `wanted`."""
        self.handset, self.listener, self.origin = handset, listener, origin
        self.overlap, self.wanted = max(overlap, LEAST_OVERLAP), deque(sorted(wanted))
        self.kept = KeptChips(self.overlap + MORE_KEPT)
        self.end = 0  # the chip after the last one
        self.beginning: Beginning | None = None  # of the run that has to begin
        self.current: Run | None = None
        self.next: Run | None = None
        self.taken: int | None = None  # the seam at which the current run took over, None for the stretch's first
        self.seam = 0  # the seam at which it gives over
        self.time: SystemTime | None = None
        self.has_moved = False  # whether the time has moved against the chips
        self.row = handset.row  # that of the traffic channel, as last reported
        self.seams: deque[int] = deque(maxlen=SEAMS_KEPT)
        self.told: int | None = None  # the chip of the last line passed on
        self.killed = 0  # runs that were killed since a line was passed on

    # What comes in

    def feed(self, chips: Chips) -> None:
        """Takes the next chips, and passes on the events in them."""
        if self.current is None and self.beginning is None:
            self.beginning = Beginning(chips.first)
        self.end = chips.end
        self.kept.add(chips)
        self.give(chips)
        if self.current is None:
            self.current = self.begun(self.row)
            if self.current is None:
                return
            self.plan()
        if self.next is None and self.end >= self.seam - self.overlap + START:
            self.beginning = self.beginning or Beginning(max(self.seam - self.overlap, self.kept.first))
            self.next = self.begun(self.row_at(self.current, self.end))
        self.poll()
        if self.current is not None and self.end >= self.seam + AFTER:
            self.change(self.current, self.next)

    def give(self, chips: Chips) -> None:
        """Gives chips to the runs; another one takes the place of one that was killed."""
        if self.next is not None:
            try:
                self.next.feed(chips)
            except RunEnded as ended:
                self.drop_next(self.next, ended)
        if self.current is not None:
            try:
                self.current.feed(chips)
            except RunEnded as ended:
                self.replace(self.current, ended)

    def feed_zeros(self, count: int) -> None:
        """Notes that `count` chips were lost."""
        for first in range(0, count, ZEROS):
            self.feed(Chips(self.end, bytes(4 * min(ZEROS, count - first))))

    def poll(self) -> None:
        """Passes on the lines that have arrived since."""
        if self.current is None:
            return
        self.current.poll()
        self.tell(self.current)
        if self.next is not None:
            self.next.poll()
            self.check_phase(self.next)
        if self.has_moved:
            self.say(f"the system time jumped: a multiple of {PERIOD} chips was lost; a new run begins")
            self.break_off()

    def break_off(self) -> None:
        """Ends what is under way here; what comes is unrelated to it."""
        self.finish()
        self.kept.clear()
        self.beginning, self.taken, self.told = None, None, None
        self.time, self.has_moved = None, False

    def finish(self) -> None:
        """Passes on what is left, since no more chips come."""
        if self.next is not None:
            self.next.kill()
            self.next = None
        while self.current is not None:
            run, end = self.current, self.end
            try:
                run.feed(Chips(run.end, bytes(4 * TAIL)))
                run.close()
            except RunEnded as ended:
                self.replace(run, ended)
                self.current = self.begun(self.row)
                continue
            self.seam = end + TAIL
            run.told = [event for event in run.told if event.chip - LATE.get(event.kind, 0) <= end]
            self.tell(run)
            self.current = None

    def kill(self) -> None:
        """Ends everything that is running, without reading more of it."""
        for run in (self.current, self.next):
            if run is not None:
                run.kill()
        self.current = self.next = None

    # Runs that are killed

    def drop_next(self, run: Run, ended: RunEnded) -> None:
        """The run that is to take over was killed: another one begins as soon as it can."""
        run.kill()
        self.next, self.beginning = None, None
        self.check_killed(ended)

    def replace(self, run: Run, ended: RunEnded) -> None:
        """Passes on the lines of a current run that was killed, and continues with another run.

        That is the run that should take over, if it has received enough for that, or one that begins with the oldest
        chips that are kept: it gets them, and so the sync channel's message and what comes after it.
        """
        run.take_rest()
        self.tell(run)
        self.row = self.row_at(run, self.end)
        run.kill()
        self.taken = self.taken if self.told is None else self.told
        after, self.next = self.next, None
        if after is not None and self.end - after.begin < LEAST_OVERLAP:
            after.kill()
            after = None
        self.current = after
        self.check_killed(ended)
        if self.current is None:
            self.beginning = Beginning(self.kept.first)
        else:
            self.plan()
            self.tell(self.current)

    def check_killed(self, ended: RunEnded) -> None:
        """Says that a run was killed; refuses one that ended otherwise, and more of them than seems an accident."""
        self.killed += 1
        if not ended.is_killed or self.killed > MOST_KILLED:
            raise ended
        self.say(f"a run of {NAME} follow was {ended.how}: another one replaces it")

    # Runs

    def begun(self, row: int | None) -> Run | None:
        """Returns the run that must begin, once it finds a pilot; None if more chips must come first."""
        beginning = self.beginning
        assert beginning is not None
        while (begin := beginning.next(self.kept, self.end)) is not None:
            try:
                run = self.start(begin, row)
            except RunEnded as ended:
                self.check_killed(ended)
                continue
            run.wait_pilot(PATIENCE)
            if self.hears_pilot(run):
                if begin - beginning.wanted >= START and not self.is_astray(run):
                    late = (begin - beginning.wanted) / CHIP_RATE
                    self.say(f"the pilot was in a fade when a run was due: it begins {late:.1f} s late")
                self.beginning = None
                return run
            run.kill()
            if not beginning.is_again:
                self.say("a run locked to noise instead of the pilot, and is restarted")
            beginning.again(begin)
        return None

    def start(self, begin: int, row: int | None) -> Run:
        """Returns a run from a chip on, fed with the chips that have come."""
        handset = self.handset.on_row(row)
        run: Run = RateTwoRun(handset, begin) if handset.rate_set == 2 else FollowRun(handset, begin)
        try:
            for chips in self.kept.pieces:
                run.feed(chips)
        except RunEnded:
            run.kill()
            raise
        return run

    def hears_pilot(self, run: Run) -> bool:
        """Whether a run finds the pilot of the lock, or another one that is present in the chips around its first."""
        if run.phase is None or not self.is_astray(run):
            return True
        first = max(run.begin - START, self.kept.first)
        return is_there(self.kept.samples(first, 2 * START), run.phase - run.begin + first)

    def plan(self) -> None:
        """Chooses the seam at which the current run gives over."""
        assert self.current is not None
        self.seam = end_of(self.current.begin)
        # The seam before lies up to two steps of the grid before the chip that was wanted.
        passed = self.current.begin if self.taken is None else self.taken
        while self.wanted and self.wanted[0] < passed + 2 * GRID:
            self.wanted.popleft()
        if self.wanted:
            self.seam = min(self.seam, self.wanted[0])
        self.seam = off_grid(self.seam, self.time.offset if self.time else 0)

    def change(self, before: Run, after: Run | None) -> None:
        """Ends the run before at the seam, and passes on the lines of the one after it from there on."""
        try:
            before.close()
        except RunEnded as ended:
            self.replace(before, ended)
            return
        self.tell(before)
        self.row = self.row_at(before, self.seam)
        if after is None:
            self.say("the pilot is in a fade: no run has begun that could take over from the one that ends here")
        else:
            after = self.carried(before, after)
        self.seams.append(self.seam)
        self.taken, self.current, self.next = self.seam, after, None
        if after is not None:
            self.plan()
            self.tell(after)

    def carried(self, before: Run, after: Run) -> Run:
        """Returns the run after the seam, on the row of the one before; reports what isn't carried over."""
        if self.row is not None:
            # Frames end every 20 ms once there is a mark: then all lines up to the seam have come.
            after.wait_past(self.seam, PATIENCE)
        if self.row_at(after, self.seam) != self.row:
            self.say(
                f"a handoff direction came before the mark of the next run, which is restarted on row {self.row}"
            )
            after.kill()
            return self.start(after.begin, self.row)
        self.compare(before.sets_at(self.seam), after.sets_at(self.seam))
        return after

    def compare(self, before: Sets | None, after: Sets | None) -> None:
        """Says what of the pilot sets isn't carried over a seam."""
        if before is None or (after or Sets((), ())) == before:
            return
        if len(before.active) > 1 and (after is None or after.active != before.active):
            pilots = ",".join(str(pn) for pn, _ in before.active)
            self.say(f"of the active pilots {pilots}, only the reference is kept at a seam")
        elif before.candidates and (after is None or after.candidates != before.candidates):
            self.say("the candidate pilots and their timers are reset at a seam")

    def row_at(self, run: Run, chip: int) -> int | None:
        """Returns the row on which the reference sends the traffic channel at a chip, by the run's lines or its start.
        """
        sets = run.sets_at(chip)
        offset = self.time.offset if self.time else None
        rows = [row for pn, row in sets.active if pn == offset] if sets else []
        return rows[0] if rows else run.handset.row

    # Lines that are passed on

    def tell(self, run: Run) -> None:
        """Passes on the current run's lines up to its seam; those after it are the next run's."""
        self.check_phase(run)
        events, run.told = run.told, []
        for event in events:
            if self.taken is not None and event.chip <= self.taken:
                continue
            self.learn(event)
            if event.chip <= self.seam:
                self.listener.event(event)
                self.told, self.killed = event.chip, 0
            else:
                run.told.append(event)

    def check_phase(self, run: Run) -> None:
        """Reports a run that finds another pilot than the one of the lock, by the code at its first chip."""
        if self.is_astray(run):
            self.say(f"a run follows a pilot whose code is {astray_of(run)} chips from the lock's: another cell's")
        run.phase = None

    def is_astray(self, run: Run) -> bool:
        """Whether a run has reported another pilot than the one of the lock."""
        return abs(astray_of(run)) > ASTRAY

    def learn(self, event: Event) -> None:
        """Notes the system time in a line."""
        time = time_told(event)
        if time is None or event.chip > self.seam:
            return
        if self.time is None:
            self.seam = off_grid(self.seam, time.offset)
        elif self.time.base != time.base:
            self.has_moved = True
        self.time = time

    def say(self, text: str) -> None:
        """Makes a remark about the last chips."""
        name = f"{self.handset.name}: " if self.handset.name else ""
        self.listener.remark(Remark((self.end - self.origin) / CHIP_RATE, name + text))


def astray_of(run: Run) -> int:
    """Returns the chips by which the code of a run's pilot is ahead of its first chip's number, 0 without a pilot."""
    if run.phase is None:
        return 0
    return (run.phase - run.begin + PERIOD // 2) % PERIOD - PERIOD // 2
