"""The dispatcher by instants: one core, one copy engine, rules R1 to R6.

Steps a to g of document 01's instant list are one method each, in that order. Who goes first is decided
by `standing`, and who gives way or blocks by `is_higher`, which looks at priorities alone.
"""

from copy import deepcopy
from dataclasses import dataclass, field, replace
from typing import Any, NamedTuple, Optional

from sim import notes
from sim.entries import Refused
from sim.table import Task, read_table

LAST_RELEASE_TIME = 1_000_000_000

# A ticket is counted modulo this many (9/13).
TICKETS = 2**64

# The work of the processor in an interval.
IDLE, EXECUTE, COPY_IN_AND_EXECUTE = 0, 1, 2

# The fate of an interval's copy-in.
NO_COPY_IN, COPY_IN_DONE, COPY_IN_CANCELLED, COPY_IN_THROWN_OUT = 0, 1, 2, 3

# What becomes of a chosen copy-in that gives way: one under way, which has no fate yet, and one that is done.
GIVES_WAY = {NO_COPY_IN: COPY_IN_CANCELLED, COPY_IN_DONE: COPY_IN_THROWN_OUT}

# The phases of a job.
COPY_IN, EXECUTION, COPY_OUT = "copy-in", "execution", "copy-out"


@dataclass(eq=False)
class Job:
    """One release that was taken."""
    task: Task  # as it was at the taking: a job is marked if its task was then
    release: int  # the original time, also of a release that waited
    taken: int
    start: Optional[int] = None  # execution start
    blocked: int = 0


@dataclass(eq=False)
class Phase:
    """A phase under way on one of the two units."""
    name: str
    job: Job
    end: int


@dataclass(eq=False)
class Interval:
    number: int  # from 1, in the order in which they begin
    begin: int
    half: int
    executed: Optional[Job] = None
    work: int = IDLE
    copied_out: Optional[Job] = None
    choice_made: bool = False
    chosen: Optional[Job] = None
    fate: int = NO_COPY_IN
    processor: Optional[Phase] = None  # None: finished or idle
    engine: Optional[Phase] = None     # None: free


class JobDone(NamedTuple):
    task: int
    release: int
    start: int
    completion: int
    blocked: int


class IntervalClosed(NamedTuple):
    begin: int
    end: int
    half: int
    executed: Optional[int]
    work: int
    copied_out: Optional[int]
    chosen: Optional[int]
    fate: int
    promoted: Optional[int]


@dataclass
class Answer:
    """What occurred at a served instant."""
    job_done: Optional[JobDone] = None
    interval: Optional[IntervalClosed] = None
    closed_at: Optional[str] = None  # the step at which the interval ended, 'b' or 'f'
    skipped: int = 0
    due: Optional[int] = None


class Enquiry(NamedTuple):
    """What an instant would do: what would occur, the dispatcher as it would be after it, and the ticket with which it can be committed."""
    answer: Answer
    after: Any
    ticket: int


def standing(job):
    """By what the highest of several jobs is found, the smallest first: the priority; among equals the original time of the release, and then
    the task number (6/13)."""
    return job.task.priority, job.release, job.task.number


def highest(jobs, order=standing):
    """The highest of some jobs, or None."""
    return min(jobs, key=order, default=None)


def equals_behind(job, jobs):
    """Those of some jobs that have the same priority as the highest of them and come behind it."""
    return sorted((other for other in jobs if other is not job and other.task.priority == job.task.priority), key=standing) if job is not None else []


def is_higher(job, other):
    """Whether the other one is of strictly lower priority: only then it is cancelled, thrown out, or counted as blocking."""
    return job.task.priority < other.task.priority


def members(mask):
    """The task numbers in a set, rising."""
    return [number for number in range(mask.bit_length()) if mask >> number & 1]


def number_of(job):
    return None if job is None else job.task.number


@dataclass(eq=False)
class Dispatcher:
    table: dict
    last: Optional[int] = None  # the last instant served
    pending: dict = field(default_factory=dict)  # task number -> job
    waiting: dict = field(default_factory=dict)  # task number -> time of the release that waits for the pending job to complete
    passed: dict = field(default_factory=dict)  # task number -> time of its last release that was taken or set waiting, and not skipped
    ready: set = field(default_factory=set)
    arrivals: set = field(default_factory=set)  # jobs taken in the open interval, or in the one about to begin
    interval: Optional[Interval] = None
    half: int = 1  # the processor's half in the interval before: the first swap gives 0

    # What the interval before hands to the next one.
    loaded: Optional[Job] = None
    promoted: Optional[Job] = None
    executed: Optional[Job] = None  # to be copied out

    ticket: int = 0  # how many commits and mark calls were served, modulo TICKETS
    begun: int = 0  # how many intervals
    notes: Optional[list] = None  # where there is a list, what each step decided is noted in it (sim/notes.py); nothing goes by it

    # By what the engine chooses and an interval promotes, and to whom a copy-in gives way and by whom a job is blocked. Other kinds of dispatcher
    # have others (sim/other_orders.py).
    _chosen_by = staticmethod(standing)
    _promoted_by = staticmethod(standing)
    _gives_way_to = staticmethod(is_higher)
    _blocked_by = staticmethod(is_higher)

    @classmethod
    def open(cls, data):
        """Open from task entries and spacings alone."""
        return cls(read_table(data))

    # Calls. All checks come before the first change, so that a refusal leaves no trace.

    def enquire(self, now, released):
        """What an instant with the set of tasks released at it would do, or its refusal; nothing changes (9/13)."""
        after = deepcopy(self, {id(self.notes): None})  # what does not happen is not noted
        return Enquiry(after.instant(now, released), after, self.ticket)

    def commit(self, ticket, now, released):
        """Do it, with the ticket of an enquiry since which no commit and no mark call was served (9/13)."""
        self._check_ticket(ticket)
        return self.instant(now, released)

    def instant(self, now, released):
        """Serve an instant with the set of tasks released at it: an enquiry and its commit in one."""
        self._check_instant(now, released)
        self._count_ticket()
        self.last = now
        answer = Answer()
        self._step_a(now, answer)
        self._step_b(now, answer)
        taken = self._step_c(now, released, answer)
        self._step_d(taken)
        self._step_e(now)
        self._step_f(now, answer)
        self._step_g(now)
        answer.due = self.due()
        return answer

    def mark(self, number, mark):
        """Change one task's mark while it has no pending job and no release that waits."""
        self._change_marks([number], mark)

    def mark_all(self, tasks, mark):
        """Change the marks of a set of tasks at once, while none of them has a pending job or a release that waits (10/13)."""
        self._change_marks(members(tasks), mark)

    def due(self):
        """The next due time: the first end of a phase under way, or None."""
        if self.interval is None:
            return None
        units = (self.interval.processor, self.interval.engine)
        return min((phase.end for phase in units if phase is not None), default=None)

    # Refusals, in document 01's order; of a commit its ticket comes first.

    def _check_ticket(self, ticket):
        if ticket != self.ticket:
            raise Refused(20)

    def _check_instant(self, now, released):
        if any(number not in self.table for number in members(released)):
            raise Refused(16)
        if released and now > LAST_RELEASE_TIME:
            raise Refused(10)
        if self.last is not None and now <= self.last:
            raise Refused(14)
        due = self.due()
        if due is not None and now > due:
            raise Refused(15)

    def _check_marks(self, numbers, mark):
        if any(number not in self.table for number in numbers):
            raise Refused(16)
        if mark > 1:
            raise Refused(6)
        if any(number in self.pending or number in self.waiting for number in numbers):
            raise Refused(17)

    # The instant list.

    def _step_a(self, now, answer):
        """a. Phases that end now end. A copy-out's end completes its job."""
        interval = self.interval
        if interval is None:
            return
        if interval.engine is not None and interval.engine.end == now:
            ended, interval.engine = interval.engine, None
            if ended.name == COPY_OUT:
                answer.job_done = self._complete(ended.job, now)
            else:
                interval.fate = COPY_IN_DONE
                self._note(notes.CopiedIn(now, ended.job))
        if interval.processor is not None and interval.processor.end == now:
            ended, interval.processor = interval.processor, None
            if ended.name == COPY_IN:
                self._begin_execution(ended.job, now)
            else:
                self._note(notes.Stopped(now, ended.job))

    def _step_b(self, now, answer):
        """b. The open interval ends if both units are through with it (R6)."""
        if self._interval_is_over():
            answer.interval = self._end_interval(now)
            answer.closed_at = "b"

    def _step_c(self, now, released, answer):
        """c. The completed job's waiting release is taken; then this instant's own are taken, wait or are skipped.

        One that comes sooner than its task's spacing is skipped before anything else is asked of it (8/13). What is taken belongs to the open
        interval, else to the next.
        """
        taken = []
        completed = answer.job_done.task if answer.job_done is not None else None
        if completed in self.waiting:
            taken.append(self._take(completed, self.waiting.pop(completed)))
        for number in members(released):
            if self._too_soon(number, now):
                answer.skipped |= 1 << number
                self._note(notes.TooSoon(now, number, self.passed[number], self.table[number].spacing))
            elif number not in self.pending:
                taken.append(self._take(number, now))
                self.passed[number] = now
            elif number not in self.waiting:
                self.waiting[number] = now
                self.passed[number] = now
                self._note(notes.Waits(now, number, self.pending[number]))
            else:
                answer.skipped |= 1 << number
                self._note(notes.Skipped(now, number, self.waiting[number]))
        return taken

    def _step_d(self, taken):
        """d. A marked release cancels the open interval's copy-in of strictly lower priority (R3), or throws out a finished one."""
        interval = self.interval
        if interval is None or interval.chosen is None or interval.fate not in GIVES_WAY:
            return
        victim = interval.chosen
        winner = highest(job for job in taken if job.task.mark and self._gives_way_to(job, victim))
        if winner is not None:
            interval.engine = None
            interval.fate = GIVES_WAY[interval.fate]
            self.ready.add(victim)
            self._note(notes.GaveWay(self.last, victim, winner, interval.fate))

    def _step_e(self, now):
        """e. A free engine's choice that has not been made in the open interval is made (R2)."""
        interval = self.interval
        if interval is not None and interval.engine is None and not interval.choice_made:
            self._choose(now)

    def _step_f(self, now, answer):
        """f. The test of step b again."""
        if self._interval_is_over():
            answer.interval = self._end_interval(now)
            answer.closed_at = "f"

    def _step_g(self, now):
        """g. If no interval is open and there is work, an interval begins; the halves swap (R1)."""
        work = self.loaded or self.promoted or self.ready or self.executed
        if self.interval is not None or not work:
            return
        self.half = 1 - self.half
        self.begun += 1
        self.interval = Interval(self.begun, begin=now, half=self.half)
        self._note(notes.Began(now, self.interval))
        self._begin_engine(now)
        self._begin_processor(now)

    def _change_marks(self, numbers, mark):
        """All of them or none; also of none it counts once."""
        self._check_marks(numbers, mark)
        self._count_ticket()
        for number in numbers:
            self.table[number] = replace(self.table[number], mark=mark)

    def _count_ticket(self):
        """A commit or a mark call is served."""
        self.ticket = (self.ticket + 1) % TICKETS

    # The parts of the steps.

    def _complete(self, job, now):
        del self.pending[job.task.number]
        self._note(notes.Done(now, job))
        return JobDone(job.task.number, job.release, job.start, now, job.blocked)

    def _too_soon(self, number, now):
        """Whether a release comes sooner than its task's spacing after the last one that was taken or set waiting, both by original time."""
        spacing, last = self.table[number].spacing, self.passed.get(number)
        return spacing is not None and last is not None and now < last + spacing

    def _begin_execution(self, job, now):
        job.start = now
        self._note(notes.Started(now, job))
        self.interval.processor = Phase(EXECUTION, job, now + job.task.execution)

    def _take(self, number, release):
        job = Job(self.table[number], release, self.last)
        self._note(notes.Taken(self.last, job, self.interval))
        self.pending[number] = job
        self.ready.add(job)
        self.arrivals.add(job)
        return job

    def _choose(self, now):
        """The highest of the ready jobs begins copy-in, or none does; once an interval (R2)."""
        interval = self.interval
        interval.choice_made = True
        job = highest(self.ready, self._chosen_by)
        self._note(notes.Chose(now, job, interval, equals_behind(job, self.ready)))
        if job is not None:
            self.ready.remove(job)
            interval.chosen = job
            interval.engine = Phase(COPY_IN, job, now + job.task.copy_in)

    def _begin_engine(self, now):
        """The engine copies out the job executed in the interval before; without one it chooses now."""
        job, self.executed = self.executed, None
        if job is None:
            self._choose(now)
        else:
            self.interval.copied_out = job
            self.interval.engine = Phase(COPY_OUT, job, now + job.task.copy_out)

    def _begin_processor(self, now):
        """The promoted job is copied in and executed; else the loaded one is executed; else idle (R5)."""
        promoted, self.promoted = self.promoted, None
        loaded, self.loaded = self.loaded, None
        interval = self.interval
        if promoted is not None:
            interval.executed, interval.work = promoted, COPY_IN_AND_EXECUTE
            interval.processor = Phase(COPY_IN, promoted, now + promoted.task.copy_in)
        elif loaded is not None:
            interval.executed, interval.work = loaded, EXECUTE
            self._begin_execution(loaded, now)

    def _interval_is_over(self):
        interval = self.interval
        return (interval is not None and interval.processor is None
                and interval.choice_made and interval.engine is None)

    def _end_interval(self, now):
        """Close the open interval and keep what the next one needs of it."""
        interval, self.interval = self.interval, None
        self._count_blocked(interval)
        self.executed = interval.executed
        marked = [job for job in self.arrivals & self.ready if job.task.mark]
        if interval.fate == COPY_IN_DONE:
            self.loaded = interval.chosen
        else:
            self.promoted = self._promote(marked)
        self.arrivals = set()
        self._note(notes.Ended(now, interval, self.promoted, equals_behind(self.promoted, marked)))
        return IntervalClosed(interval.begin, now, interval.half, number_of(interval.executed), interval.work,
                              number_of(interval.copied_out), number_of(interval.chosen), interval.fate,
                              number_of(self.promoted))

    def _promote(self, marked):
        """The highest of the marked jobs taken in the interval and still ready, if any (R4)."""
        job = highest(marked, self._promoted_by)
        self.ready.discard(job)
        return job

    def _count_blocked(self, interval):
        """A job not yet executed is blocked in an interval that executes one of strictly lower priority.

        Every pending job was taken in this interval or before, and whole intervals count: the lower
        job may have ended before the taking. A job that has executed is never counted again.
        """
        if interval.executed is None:
            return
        for job in self.pending.values():
            if job.start is None and self._blocked_by(job, interval.executed):
                job.blocked += 1

    def _note(self, note):
        if self.notes is not None:
            self.notes.append(note)
