"""Whether edits of statements make them wrong: each is tried on runs of the simulator.

The claim of crates/guarantees, as an edit makes it, is computed of random runs until one breaks it; an edit of crates/histories is wrong
where what is said there of histories no longer holds. What other crates state is promised of single functions, and no history speaks of it.
"""

import functools
import random
import sys
import threading

from sim.entries import spacing_entry, task_entry
from sim.generate import random_calls
from sim.generate_tables import random_table, tasks_of
from sim.sessions import INSTANT, MARK, MARKS
from tools.claims import Claims, listed, unlisted
from tools.happenings import OF_RUNS, Opened, Run

CLAIM = tuple(f"specs/{name}.antt" for name in ("Queries", "Pending", "Releases", "Intervals", "Copying", "Entries", "Figure", "Claim", "States"))
HISTORIES = "specs/Histories.antt"

# The fields that are computed: what is left out speaks of the steps within an instant, or only that the empty sets come to an end.
OF_CLAIM = {"of_the_list", "entries", "with_empty_sets", "nothing_pending", "complete_every_job", "nothing_waits", "waiting_taken", "last_releases"}
OF_STATES = {"behind", "counts"}

OF_HISTORIES = (
    "PlansAccepted", "WrongRefused", "LaterEnd", "FigureTells", "OneEntry", "WaitedEntry", "ReleasesRefused", "Marks", "PlanEntries",
    "BoundsMet", "SpacingsAccepted", "SpacingsRefused", "LastReleases")

RUNS = 26
WITHOUT_DESKS = 22
CALLS = 9
MOST_TASKS = 3

STACK = 512 * 1024 * 1024


# The calls by the names that rules/src has for them.
NAMES = {INSTANT: "Instant", MARK: "Mark", MARKS: "Marks"}


def call_of(call):
    return (NAMES[call[0]], *call[1:])


def drained(run):
    """The run with the empty sets after its list in the list."""
    return Run(run.opening, run.calls)


def chosen_runs():
    """Runs that random ones seldom make, with document 01's tasks. In three of them tasks share a priority, in three task 1 has a spacing; the last is
    of one task alone."""
    def run(mark, *instants, priorities=(1, 2, 3), second=0, spacing=None, whole=True):
        one, two, three = priorities
        head = task_entry(1, one, mark, 2, 3, 1) + task_entry(2, two, second, 2, 4, 1) + task_entry(3, three, 0, 2, 5, 2)
        head += b"" if spacing is None else spacing_entry(1, spacing)
        made = Run(head, [("Instant", time, sum(1 << n for n in released)) for time, released in instants])
        return drained(made) if whole else made

    return [
        run(1, (0, [1]), (2, []), (3, [1]), whole=False),  # one waits at the end of the list
        run(0, (0, [2]), (2, []), (6, []), (7, []), (20, [1])),  # a job comes when a lower one is done
        run(0, (0, [3]), (2, [2]), (4, [1])),  # a job meets a lower one in its first two intervals
        run(1, (0, [3]), (2, [2]), (4, [1])),  # plan B: a finished copy is thrown out
        run(1, (0, [2]), (1, [1])),            # plan D: a copy under way is cancelled
        run(1, (0, [1]), (2, []), (3, [1]), (4, [1, 2])),  # one waits, one is skipped, and an unmarked one comes where none was chosen
        run(1, (0, [3]), (2, []), (3, [2]), (4, [1]), priorities=(1, 1, 2), second=1),  # of two marked equals the earlier one is promoted
        run(0, (0, [1, 2, 3]), priorities=(1, 1, 1)),  # equals go by number, and the last one meets one in its second and third interval
        run(0, (0, [2]), (1, [2]), (2, []), (3, [1]), priorities=(1, 1, 2)),  # one that waited goes before an equal that was taken earlier
        run(1, (0, [1]), (2, []), (5, [1]), (6, [1]), spacing=6),  # one is too soon, and one exactly one spacing after the first
        run(1, (0, [1]), (2, []), (5, [1]), (6, [1]), (8, []), (10, [1]), spacing=5),  # one is too soon after one that waited, whose original time counts
        run(0, (0, [1]), (2, []), (5, []), (6, []), (10, [1]), (20, [1, 2]), spacing=20),  # one is too soon with nothing pending
        drained(Run(task_entry(1, 1, 0, 2, 2, 2), [("Instant", 0, 2), ("Instant", 1, 2)]))]  # one that waited completes late


@functools.cache
def runs():
    """Chosen runs, and random ones with few tasks, so that jobs meet each other; every second of these has its empty sets in the list, and the last have
    marks for several tasks at once."""
    found, seed = chosen_runs(), 0
    while len(found) < RUNS:
        rng, seed = random.Random(f"statements {seed}"), seed + 1
        table = random_table(rng)
        if 1 < len(tasks_of(table)) <= MOST_TASKS:
            run = Run(b"".join(table), [call_of(call) for call in random_calls(rng, table, CALLS, desks=0.5 if len(found) >= WITHOUT_DESKS else 0)])
            found.append(drained(run) if len(found) % 2 else run)
    return found


def holds(claims, run):
    """Whether the claim holds of a run."""
    claims.tasks = sorted({0, 31, *run.tasks})
    claim, state = claims.found["Claim"], claims.found["PlainState"]
    return (claims.record_holds(claim, (run.points[0], listed(run.calls[:run.listed])), OF_CLAIM)
            and all(claims.record_holds(state, (point,), OF_STATES) for point in run.points))


def first_broken(read):
    """The number of the first run, from 1 on, that breaks the claim that `read` gives the files of; None where none does."""
    claims = Claims([read(file) for file in CLAIM], OF_RUNS)
    return next((number for number, run in enumerate(runs(), 1) if not holds(claims, run)), None)


def histories_false(read_claim, read):
    """Which statement on histories does not hold; None where all do."""
    given = {"opening": (1, lambda data: ("Ok", Opened(bytes(unlisted(data))))), "state_opened": (1, lambda opening: opening[1])}
    claims = Claims([read_claim(file) for file in CLAIM] + [read(HISTORIES)], {**OF_RUNS, **given})
    claims.tasks = (0, 1, 2, 3, 31)
    return next((name for name in OF_HISTORIES if not claims.holds(("var", name), {})), None)


def with_room(function, *arguments):
    """What a function gives that goes deep: it runs with a large stack."""
    made = []
    limit, size = sys.getrecursionlimit(), threading.stack_size(STACK)
    sys.setrecursionlimit(1_000_000)
    try:
        thread = threading.Thread(target=lambda: made.append(function(*arguments)))
        thread.start()
        thread.join()
    finally:
        sys.setrecursionlimit(limit)
        threading.stack_size(size)
    [value] = made
    return value


def judged(edit, files, read):
    """The kind of an edit of a statement, and what is said of it. `files` are the edited ones, and `read` gives those of a crate."""
    def edited(file):
        return files[file] if file in files else read(edit.crate, file)

    broken = None
    if edit.crate == "guarantees":
        broken = with_room(first_broken, edited)
        said = f"run {broken} of {RUNS} breaks the statement"
    elif edit.crate == "histories":
        broken = with_room(histories_false, lambda file: read("guarantees", file), edited)
        said = f"{broken} does not hold"
    if broken is None:
        unbroken = "A STATEMENT THAT NO RUN BREAKS, and it has no line 'why:'"
        return ("reason", f"a statement: {edit.why}") if edit.why else ("error", unbroken)
    return ("error", f"{said}; and yet it has a line 'why:'") if edit.why else ("statement", said)


def as_they_stand(read):
    """Whether the claim and what is said of histories hold without an edit."""
    broken = with_room(first_broken, lambda file: read("guarantees", file))
    false = with_room(histories_false, lambda file: read("guarantees", file), lambda file: read("histories", file))
    print(f"the claim as it stands: {f'run {broken} breaks it' if broken else f'{RUNS} runs keep it'}; "
          f"{false or 'all'} {'does not hold' if false else 'that is said of histories holds'}", flush=True)
    return broken is None and false is None
