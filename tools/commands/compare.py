"""compare two plans, or a plan with other marks

Per task before and after, then each job that moved. ./gateway compare PLAN OTHER compares two files; ./gateway compare PLAN --mark 3=1 asks what
becomes of PLAN where task 3 is latency-sensitive (3=0: where it is not).
"""

import argparse
import json

from tools import arguments as common
from tools import output
from tools.figures import summary, table
from tools.output import Rejected, named
from tools.plan import entry, sound_plan
from tools.runs import run_of

# What is compared of each task, and of each job.
OF_TASKS = {"mark": "mark", "done": "done", "waited": "waited", "skipped": "skipped", "too_soon": "too soon",
            "worst_response": "worst", "median_response": "median",
            "worst_blocked": "blocked", "cancelled": "cancelled", "thrown_out": "thrown out", "promoted": "promoted"}
OF_JOBS = ("start", "completion", "response", "blocked")


def marking(word):
    task, equals, mark = word.partition("=")
    if not (equals and task.isascii() and task.isdigit() and len(task) < 4 and mark in ("0", "1")):
        raise argparse.ArgumentTypeError(f"'{output.shown(word)}' is not as 3=1")
    return int(task), int(mark)


def arguments(parser):
    common.plan(parser)
    parser.add_argument("other", nargs="?", metavar="OTHER", help="another plan, - for standard input; if none is named, PLAN again")
    parser.add_argument("--mark", action="append", default=[], type=marking, metavar="TASK=MARK", help="give a task another mark in the second run")
    parser.add_argument("--json", action="store_true", help="an object with the tasks and the jobs that moved")


def check(parser, given):
    if given.other is None and not given.mark:
        parser.error("it takes two plans, or a plan and --mark TASK=MARK")
    if given.plan == given.other == "-":
        parser.error("one of the two can be standard input")


def with_marks(plan, marks):
    """A plan with other marks."""
    for task in marks:
        if task not in plan.table:
            raise Rejected(f"{named(plan.path)}: there is no task {task} to mark")
    changed = []
    for each in plan.entries:
        words = each.text.split()
        if each in plan.tasks and each.values["number"] in marks:
            words[3] = str(marks[each.values["number"]])
        changed.append(entry(each.line, words))
    plan.entries = changed
    return plan


def told_of(run, life):
    """What is compared of a release: None where there is none, and no figures where it is skipped."""
    if life is None:
        return None
    if life.job is None:
        return {"skipped": True, "too_soon": life.too_soon}
    return dict(zip(OF_JOBS, (life.start, life.completion, life.response, len(run.blocked(life)))))


def moved(before, after):
    """The releases of either run that did not go alike, rising."""
    found = []
    for time, task in sorted(set(before.lives) | set(after.lives)):
        pair = told_of(before, before.lives.get((time, task))), told_of(after, after.lives.get((time, task)))
        if pair[0] != pair[1]:
            found.append({"task": task, "release": time, "before": pair[0], "after": pair[1]})
    return found


def tasks(before, after):
    """Each task's figures before and after, by priority in the second run; None where a plan has no such task."""
    rows = {row["task"]: [row, None] for row in summary(before)}
    for row in summary(after):
        rows.setdefault(row["task"], [None, None])[1] = row
    return [{"task": number, **{name: [None if row is None else row[name] for row in pair] for name in OF_TASKS}}
            for number, pair in sorted(rows.items(), key=lambda item: ((item[1][1] or item[1][0])["priority"], item[0]))]


def change(pair):
    before, after = ("-" if value is None else value for value in pair)
    return str(before) if before == after else f"{before} > {after}"


def fate(told):
    """What became of a release."""
    if "skipped" not in told:
        return f"done at {told['completion']}"
    return "skipped, since it came too soon" if told["too_soon"] else "skipped, since one waited"


def job_text(row):
    """One job that moved."""
    before, after = row["before"], row["after"]
    name = f"task {row['task']} released at {row['release']}"
    if before is None or after is None:
        return f"{name}: only in the {'second' if before is None else 'first'} run"
    if "skipped" in before or "skipped" in after:
        return f"{name}: {fate(before)}, then {fate(after)}"
    by = after["response"] - before["response"]
    parts = [f"response {change((before['response'], after['response']))} ({by:+})", f"start {change((before['start'], after['start']))}",
             f"done {change((before['completion'], after['completion']))}", f"blocked {change((before['blocked'], after['blocked']))}"]
    return f"{name}: " + ", ".join(parts)


def as_text(rows, jobs):
    head = table(["task", *OF_TASKS.values()], [[row["task"], *(change(row[name]) for name in OF_TASKS)] for row in rows])
    lines = [job_text(row) for row in jobs] or ["no job moved"]
    return f"{head}\n" + "".join(f"{line}\n" for line in lines)


def main(given):
    plan = sound_plan(given.plan)
    before = run_of(plan)
    after = run_of(with_marks(plan if given.other is None else sound_plan(given.other), dict(given.mark)))
    rows, jobs = tasks(before, after), moved(before, after)
    if given.json:
        return output.write_text(json.dumps({"tasks": rows, "jobs": jobs}, indent=1) + "\n")
    return output.write_text(as_text(rows, jobs))
