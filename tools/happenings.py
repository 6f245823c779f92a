"""What occurs in a run of the simulator, event by event, as crates/guarantees/specs/History names the events."""

from sim.dispatcher import COPY_IN, COPY_OUT, EXECUTION, Dispatcher, members, number_of
from sim.entries import Refused
from tools.claims import Partial, listed, unlisted


def maybe(number):
    return ("None",) if number is None else ("Some", number)


class Watched(Dispatcher):
    """A dispatcher that notes what occurs at an instant."""

    def instant(self, now, released):
        self.events = []
        return super().instant(now, released)

    def _step_a(self, now, answer):
        self.events.append(("Comes", now))
        units = (self.interval.processor, self.interval.engine) if self.interval is not None else (None, None)
        super()._step_a(now, answer)
        for phase, names in zip(units, ({COPY_IN: "Starts", EXECUTION: "Stops"}, {COPY_IN: "Finishes", COPY_OUT: "Completes"})):
            if phase is not None and phase.end == now:
                event = (names[phase.name], phase.job.task.number)
                self.events.append(event if event[0] == "Finishes" else event + (now,))

    def _ending(self, step, now, answer):
        was_open = self.interval is not None
        step(now, answer)
        if was_open and self.interval is None:
            self.events.append(("Ends", now))

    def _step_b(self, now, answer):
        self._ending(super()._step_b, now, answer)

    def _step_c(self, now, released, answer):
        taken = super()._step_c(now, released, answer)
        for job in sorted(taken, key=number_of):
            self.events.append(("Takes", number_of(job), now, bool(job.task.mark)))
        for number in members(released):
            if self.waiting.get(number) == now:
                self.events.append(("Defers", number, now))
        return taken

    def _step_d(self, taken):
        fate = self.interval.fate if self.interval is not None else None
        super()._step_d(taken)
        if self.interval is not None and self.interval.fate != fate:
            self.events.append(("GivesWay", number_of(self.interval.chosen)))

    def _step_f(self, now, answer):
        self._ending(super()._step_f, now, answer)

    def _step_g(self, now):
        was_open = self.interval is not None
        super()._step_g(now)
        if not was_open and self.interval is not None:
            interval = self.interval
            self.events.append(("Begins", now, maybe(number_of(interval.executed)), maybe(number_of(interval.copied_out))))
            if interval.processor is not None and interval.processor.name == EXECUTION:
                self.events.append(("Starts", number_of(interval.executed), now))


def occurred(answer):
    """An answer, as the rules have it."""
    job, interval = answer.job_done, answer.interval
    done = ("None",) if job is None else ("Some", dict(job._asdict()))
    if interval is None:
        closed = ("Unclosed",)
    else:
        begin, end, half, task, work, out, chosen, fate, promoted = interval
        closed = ("BeforeReleases" if answer.closed_at == "b" else "AfterReleases", {
            "begin": begin, "end": end, "half": half, "task": maybe(task), "work": work, "copiedout": maybe(out),
            "chosen": maybe(chosen), "fate": fate, "promoted": maybe(promoted)})
    return {"done": done, "closed": closed, "skipped": answer.skipped, "due": ("None",) if answer.due is None else ("Some", answer.due)}


class Point(dict):
    """The state of a run behind some of its calls, as far as statements look into it."""

    def __init__(self, run, at, dispatcher):
        self.run, self.at, self.passed = run, at, dict(dispatcher.passed)
        blocked = [dispatcher.pending[n].blocked if n in dispatcher.pending else 0 for n in range(32)]
        super().__init__(
            table=run.table, jobs={"pending": sum(1 << n for n in dispatcher.pending), "blocked": blocked},
            waiting={"tasks": sum(1 << n for n in dispatcher.waiting), "before": sum(1 << n for n in dispatcher.passed)},
            marked=sum(1 << n for n, task in dispatcher.table.items() if task.mark))

    def empty_sets(self):
        """The calls that hand in empty sets until none is due: the run's own, behind its list."""
        return [listed(self.run.calls[self.at:])] if self.at == self.run.listed else []


class Run:
    """A list of calls and the empty sets after it, and what the simulator makes of them."""

    def __init__(self, opening, calls):
        self.opening = opening
        dispatcher = Watched.open(opening)
        tasks = dispatcher.table
        columns = [getattr(tasks[n], name) if n in tasks else 0 for name in ("copy_in", "execution", "copy_out") for n in range(32)]
        columns += [tasks[n].spacing or 0 if n in tasks else 0 for n in range(32)]
        priority = [tasks[n].priority if n in tasks else 0 for n in range(32)]
        spaced = sum(1 << n for n, task in tasks.items() if task.spacing)
        self.table = {"present": sum(1 << n for n in tasks), "spaced": spaced, "columns": columns, "priority": priority}
        self.tasks = sorted(tasks)
        self.calls, self.answers, self.events = [], [], []
        self.points = [Point(self, 0, dispatcher)]
        for call in calls:
            self.make(dispatcher, call)
        self.listed = len(self.calls)
        while dispatcher.due() is not None:
            self.make(dispatcher, ("Instant", dispatcher.due(), 0))

    def make(self, dispatcher, call):
        """One call, served or refused."""
        events, answer = [], None
        try:
            if call[0] == "Instant":
                answer = ("Ok", occurred(dispatcher.instant(*call[1:])))
                events = dispatcher.events
            elif call[0] == "Mark":
                dispatcher.mark(*call[1:])
            else:
                dispatcher.mark_all(*call[1:])
        except Refused as refused:
            answer = ("Err", refused.number)
        self.calls.append(call)
        self.answers.append(answer)
        self.events.append(events)
        self.points.append(Point(self, len(self.calls), dispatcher))


def length(calls):
    count = 0
    while calls != ("[]",):
        count, calls = count + 1, calls[2]
    return count


def refusal(d):
    """The number by which the next call is refused, or 0."""
    answer = d.run.answers[d.at]
    return answer[1] if answer is not None and answer[0] == "Err" else 0


class Opened(dict):
    """A dispatcher that is opened and has no calls yet."""

    def __init__(self, data):
        self.data = data
        super().__init__(Run(data, []).points[0])


def at(d, calls):
    """The point from which a state's calls go on, in a run that has them."""
    calls = unlisted(calls)
    if isinstance(d, Opened):
        return Run(d.data, calls).points[0]
    return d if d.run.calls[d.at:d.at + len(calls)] == calls else Run(d.run.opening, d.run.calls[:d.at] + calls).points[d.at]


def history(d, calls):
    d = at(d, calls)
    return listed([event for events in d.run.events[d.at:d.at + length(calls)] for event in events])


def after_calls(d, calls):
    d = at(d, calls)
    return d.run.points[d.at + length(calls)]


def row(call):
    """What is asked of a call (rules/specs/Calls), but for the state that it leaves."""
    kind, first, second = call
    number = Partial((1, lambda d: refusal(at(d, listed([call])))))
    if kind == "Instant":
        return {"number": number, "is_instant": True, "time": first, "hands": second, "names": 0, "mark": 0}
    names = 1 << first if kind == "Mark" else first
    return {"number": number, "is_instant": False, "time": 0, "hands": 0, "names": names, "mark": second}


def occurred_at(d, time, tasks):
    """What occurs at an instant that is served."""
    point = at(d, listed([("Instant", time, tasks)]))
    return point.run.answers[point.at][1]


# What the definitions over states give, of the points of a run.
OF_RUNS = {
    "row": (1, row), "serves": (2, lambda d, call: call[0] == "Instant" and refusal(at(d, listed([call]))) == 0), "occurred": (3, occurred_at),
    "history": (2, history), "after_calls": (2, after_calls),
    "after_call": (2, lambda d, call: after_calls(d, listed([call]))),
    "by_call": (2, lambda d, call: history(d, listed([call]))),
    "refusal": (3, lambda d, t, tasks: refusal(at(d, listed([("Instant", t, tasks)])))),
    "mark_refusal": (3, lambda d, n, mark: refusal(at(d, listed([("Mark", n, mark)])))),
    "instant": (3, lambda d, t, tasks: {"answer": d.run.answers[d.at]}),
    "previous_release": (2, lambda d, n: ("Some", d.passed[n]) if n in d.passed else ("None",))}
