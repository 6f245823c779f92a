"""What a run comes to, task by task."""

import csv
import io
from statistics import median_low

from sim.dispatcher import COPY_IN_CANCELLED

# The columns of a summary, in their order, with the words of the table's head.
COLUMNS = {
    "task": "task", "priority": "prio", "mark": "mark", "releases": "releases", "done": "done", "waited": "waited", "skipped": "skipped",
    "too_soon": "too soon",    "worst_response": "worst", "worst_release": "released", "median_response": "median", "median_release": "released",
    "worst_blocked": "blocked", "blocked_release": "released", "blocked_by": "by", "cancelled": "cancelled", "thrown_out": "thrown out",
    "promoted": "promoted",
}


def first_with(lives, value, wanted):
    """The earliest of some lives that has a value."""
    return next(life for life in lives if value(life) == wanted)


def responses(lives):
    """The worst and the median response, with the release of a job that had it; of an even number the median is the smaller of the two."""
    times = [life.response for life in lives]
    if not times:
        return dict.fromkeys(("worst_response", "worst_release", "median_response", "median_release"))
    worst, median = max(times), median_low(times)
    return {"worst_response": worst, "worst_release": first_with(lives, lambda life: life.response, worst).release,
            "median_response": median, "median_release": first_with(lives, lambda life: life.response, median).release}


def blocking(run, lives):
    """The most intervals in which a job was blocked, with its release, and by whom."""
    worst = max((len(run.blocked(life)) for life in lives), default=0)
    if worst == 0:
        return {"worst_blocked": 0 if lives else None, "blocked_release": None, "blocked_by": []}
    life = first_with(lives, lambda each: len(run.blocked(each)), worst)
    return {"worst_blocked": worst, "blocked_release": life.release, "blocked_by": [spell.executed.task.number for spell in run.blocked(life)]}


def of_task(run, task, lives):
    """One row."""
    done = [life for life in lives if life.job is not None]
    fates = [note.fate for life in done for _, note in life.gave_way]
    return {
        "task": task.number, "priority": task.priority, "mark": task.mark, "releases": len(lives), "done": len(done),
        "waited": sum(life.waits is not None for life in done), "skipped": len(lives) - len(done),
        "too_soon": sum(life.too_soon for life in lives), **responses(done), **blocking(run, done),
        "cancelled": fates.count(COPY_IN_CANCELLED), "thrown_out": len(fates) - fates.count(COPY_IN_CANCELLED),
        "promoted": sum(life.promoted is not None for life in done)}


def summary(run):
    """A row for each task, the highest priority first."""
    by_task = {number: [] for number in run.table}
    for (_, number), life in run.lives.items():
        by_task[number].append(life)
    return [of_task(run, task, by_task[task.number]) for task in sorted(run.table.values(), key=lambda task: (task.priority, task.number))]


def cell(value):
    """A value as a table has it."""
    if value is None or value == []:
        return "-"
    return " ".join(map(str, value)) if isinstance(value, list) else str(value)


def table(heads, rows):
    """Text in columns, numbers to the right."""
    lines = [heads, *([cell(value) for value in row] for row in rows)]
    widths = [max(len(line[at]) for line in lines) for at in range(len(heads))]
    return "".join("  ".join(f"{word:>{width}}" for word, width in zip(line, widths)) + "\n" for line in lines)


def as_csv(columns, rows):
    """The same comma-separated, with the columns' names in the first line; where the table has a dash nothing stands."""
    text = io.StringIO()
    writer = csv.writer(text, lineterminator="\n")
    writer.writerow(columns)
    writer.writerows(["" if cell(row[name]) == "-" else cell(row[name]) for name in columns] for row in rows)
    return text.getvalue()
