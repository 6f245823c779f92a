"""What can be said of a whole run from outside: demand 3, the figure of 7/13 and R1 to R6 over the answers alone.

Nothing here looks into a dispatcher. A history is made of the calls that were served and their answers,
and must end with nothing due.
"""

from dataclasses import dataclass, replace
from typing import Optional

from sim.dispatcher import IntervalClosed, JobDone, members
from sim.table import Task
from sim.tests import figure


@dataclass
class Taken:
    """A release that was taken, and what became of it."""
    task: Task  # with its mark at the taking
    release: int  # its original time
    taking: int
    first: int  # the index of the interval its taking belongs to, by step c
    done: Optional[JobDone] = None


class History:
    def __init__(self, table):
        self.table = dict(table)
        self.jobs = []       # Taken
        self.skips = []      # (task number, time)
        self.set_waiting = []  # (task number, time), of each release that waited
        self.intervals = []  # IntervalClosed
        self.closings = []   # the step at which each of them ended, 'b' or 'f'
        self.tallies = []    # after each instant: the intervals begun by then, the open one included, and the releases taken
        self.pending = {}    # task number -> its Taken not yet done
        self.waiting = {}    # task number -> the time of its release that waits

    def mark(self, number, mark):
        self.table[number] = replace(self.table[number], mark=mark)

    def instant(self, time, released, answer):
        """Add a served instant, in the order of the instant list."""
        completed = None
        if answer.job_done is not None:
            completed = answer.job_done.task
            self.pending.pop(completed).done = answer.job_done
        if answer.closed_at == "b":
            self._close(answer)
        if completed in self.waiting:
            self._take(completed, self.waiting.pop(completed), time)
        for number in members(released):
            self._release(number, time, answer)
        if answer.closed_at == "f":
            self._close(answer)
        is_open = answer.due is not None  # an open interval has a phase under way, and nothing else has one
        self.tallies.append((len(self.intervals) + is_open, len(self.jobs)))

    def _release(self, number, time, answer):
        """A release that is told as skipped is; else it is taken if no job of its task is pending, and waits if one is."""
        if answer.skipped >> number & 1:
            self.skips.append((number, time))
        elif number not in self.pending:
            self._take(number, time, time)
        else:
            self.set_waiting.append((number, time))
            self.waiting[number] = time

    def _take(self, number, release, taking):
        self.pending[number] = Taken(self.table[number], release, taking, len(self.intervals))
        self.jobs.append(self.pending[number])

    def _close(self, answer):
        self.intervals.append(answer.interval)
        self.closings.append(answer.closed_at)


def check(test, history):
    """Assert everything below of a history that ends with nothing due."""
    test.assertEqual(history.pending, {}, "nothing is pending at the end, so all N are completed")
    test.assertEqual(history.waiting, {}, "nothing waits at the end")
    for intervals, taken in history.tallies:
        test.assertLessEqual(intervals, 3 * taken)
    _check_halves_and_times(test, history)
    _check_waiting(test, history)
    _check_skips(test, history)
    executing = _executing_intervals(test, history)
    for index, interval in enumerate(history.intervals):
        _check_units(test, history, index, interval)
        _check_choice(test, history, index, executing)
        _check_end(test, history, index, executing.get(index))
        _check_promotion(test, history, index)
    for index, job in executing.items():
        _check_copy_out(test, history, index, job)
        check_order(test, history, index, job)
    figure.check(test, history)


def _check_halves_and_times(test, history):
    """R1, and intervals that neither overlap nor are empty."""
    now = 0
    for index, interval in enumerate(history.intervals):
        test.assertEqual(interval.half, index % 2)
        test.assertGreaterEqual(interval.begin, now)
        test.assertGreater(interval.end, interval.begin)
        now = interval.end


def _check_waiting(test, history):
    """Every release that waited was taken, once, at the completion of the job before it; its interval chooses at that instant.

    So a waiting release cancels nothing and throws nothing out at its taking: the engine has just ended a copy-out. And it is not promoted: what
    is chosen is not lower than it, and gives way only to something strictly higher.
    """
    waited = [job for job in history.jobs if job.release != job.taking]
    test.assertEqual(sorted((job.task.number, job.release) for job in waited), sorted(history.set_waiting))
    completions = {(job.task.number, job.done.completion) for job in history.jobs}
    for job in waited:
        test.assertLess(job.release, job.taking)
        test.assertIn((job.task.number, job.taking), completions)
        interval = history.intervals[job.first]
        test.assertEqual(interval.copied_out, job.task.number)
        test.assertEqual(_choice_time(history, interval), job.taking)
        test.assertIsNotNone(interval.chosen)
        test.assertNotEqual(interval.promoted, job.task.number)


def _check_skips(test, history):
    """A release is skipped if and only if it comes sooner than its task's spacing after the last one that was not, or one of its task waits: then it
    came strictly between that one's release and its taking.

    Of two jobs of a task the second is taken at the first one's completion or later, and only what came before it has waited.
    """
    own = {}
    for job in history.jobs:
        own.setdefault(job.task.number, []).append(job)
    for number, time in history.skips:
        test.assertTrue(is_too_soon(history, number, time) or any(job.release < time < job.taking for job in own[number]))
    for number, jobs in own.items():
        for before, job in zip(jobs, jobs[1:]):
            test.assertLess(before.release, job.release)
            test.assertFalse(is_too_soon(history, number, job.release))
            test.assertLessEqual(before.taking, job.release)
            test.assertEqual(job.taking, max(job.release, before.done.completion))


def is_too_soon(history, number, time):
    """Whether a release comes sooner than its task's spacing after the last one before it that became a job, both by original time (8/13)."""
    spacing = history.table[number].spacing
    if spacing is None:
        return False
    return any(time - spacing < job.release < time for job in history.jobs if job.task.number == number)


def _executing_intervals(test, history):
    """Each job's executing interval: index -> job. No interval executes two, and none without a job."""
    executing = {}
    for job in history.jobs:
        start = job.done.start
        [index] = [at for at, each in enumerate(history.intervals) if each.begin <= start < each.end]
        test.assertNotIn(index, executing)
        test.assertEqual(history.intervals[index].executed, job.task.number)
        test.assertEqual(job.done.release, job.release)
        executing[index] = job
    for index, interval in enumerate(history.intervals):
        test.assertEqual(interval.executed is not None, index in executing)
        test.assertEqual(interval.executed is None, interval.work == 0)
    return executing


def _check_units(test, history, index, interval):
    """R2 and R5: what the interval before loaded or promoted is executed; what it executed is copied out."""
    nothing = IntervalClosed(0, 0, 0, None, 0, None, None, 0, None)
    before = history.intervals[index - 1] if index else nothing
    loaded = before.chosen if before.fate == 1 else None
    test.assertFalse(loaded is not None and before.promoted is not None)
    expected = (before.promoted, 2) if before.promoted is not None else (loaded, 1 if loaded is not None else 0)
    test.assertEqual((interval.executed, interval.work), expected)
    test.assertEqual(interval.copied_out, before.executed)
    test.assertEqual(interval.fate == 0, interval.chosen is None)
    if expected[1] or before.executed is not None:
        test.assertEqual(interval.begin, before.end)


def _choice_time(history, interval):
    """The engine chooses when the copy-out ends, or at once without one."""
    if interval.copied_out is None:
        return interval.begin
    return interval.begin + history.table[interval.copied_out].copy_out


def _first_of(jobs):
    """The task of the highest job; among equals the one released first by original time, and among those the lowest number (6/13)."""
    if not jobs:
        return None
    top = min(job.task.priority for job in jobs)
    equals = [job for job in jobs if job.task.priority == top]
    earliest = min(job.release for job in equals)
    return min(job.task.number for job in equals if job.release == earliest)


def _check_choice(test, history, index, executing):
    """R2: the highest of the jobs that have come by then and neither this interval nor an earlier one executes."""
    interval = history.intervals[index]
    time = _choice_time(history, interval)
    test.assertEqual(interval.chosen, _first_of([job for at, job in executing.items() if at > index and job.taking <= time]))


def _marked_here(history, index):
    return [job for job in history.jobs if job.first == index and job.task.mark]


def _check_end(test, history, index, job):
    """R6 and R3: an interval ends at the later of its units' ends; a cancelled copy at its cancelling.

    A copy-in gives way to the first marked release of strictly higher priority that comes behind its choice and belongs to its interval:
    under way it is cancelled, and one that has ended, on that very tick or before, is thrown out.
    """
    interval = history.intervals[index]
    processor = interval.begin
    if job is not None:
        start = interval.begin + (job.task.copy_in if interval.work == 2 else 0)
        test.assertEqual(job.done.start, start)
        processor = start + job.task.execution
    choice = engine = _choice_time(history, interval)
    if interval.chosen is not None:
        chosen = history.table[interval.chosen]
        engine = choice + chosen.copy_in
        gives_way = min((each.taking for each in _marked_here(history, index)
                         if choice < each.taking and each.task.priority < chosen.priority), default=None)
        test.assertEqual(interval.fate, 1 if gives_way is None else 2 if gives_way < engine else 3)
        engine = gives_way if interval.fate == 2 else engine
    test.assertEqual(interval.end, max(processor, engine))
    # Only a choice or a cancelling of this very instant leaves the end to step f.
    late = interval.end == engine and (choice == engine or interval.fate == 2)
    test.assertEqual(history.closings[index], "f" if late else "b")


def _check_promotion(test, history, index):
    """R4: with no copy-in done that stayed, the highest marked job taken in the interval, since all of them are ready."""
    interval = history.intervals[index]
    test.assertEqual(interval.promoted, _first_of(_marked_here(history, index)) if interval.fate != 1 else None)


def _check_copy_out(test, history, index, job):
    """The copy-out begins on the tick on which the job's interval ends, and completes it U ticks later."""
    test.assertEqual(history.intervals[index + 1].begin, history.intervals[index].end)
    test.assertEqual(job.done.completion, history.intervals[index].end + job.task.copy_out)


def check_order(test, history, index, job):
    """From a job's third interval on, and a marked one's second, the processor executes, and nobody of strictly lower priority."""
    test.assertLess(job.first, index)
    firm = 1 if job.task.mark else 2
    lower = []
    for at in range(job.first, index):
        executed = history.intervals[at].executed
        is_lower = executed is not None and history.table[executed].priority > job.task.priority
        lower.append(is_lower)
        if at - job.first >= firm:
            test.assertIsNotNone(executed)
            test.assertFalse(is_lower)
    test.assertEqual(job.done.blocked, sum(lower))
    test.assertLessEqual(job.done.blocked, firm)
