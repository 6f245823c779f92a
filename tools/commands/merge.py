"""merge the plans of several desks into one, sorted

The tasks of all, their spacings, then their releases by time and task. A task or a spacing may stand in several plans if its line is the same in
each. What does not go together, as one release in two plans, is told with both places; nothing is printed then.
"""

from sim.entries import RELEASE, SPACING
from sim.files import MOST_RELEASES
from tools import output
from tools.output import Rejected, named
from tools.plan import read_plan

# What one desk's list alone may do here: tasks and spacings behind others, releases in any order, both of tasks in another list, no entry at all. What of this is
# wrong in the whole is found there. Two desks may have tasks of one priority.
FOUND_IN_THE_WHOLE = (3, 8, 9, 12)


def arguments(parser):
    parser.add_argument("plans", nargs="+", metavar="PLAN", help="plan files, - for standard input")


def check(parser, given):
    if given.plans.count("-") > 1:
        parser.error("one of them can be standard input")


class Merged:
    """Tasks, spacings and releases so far, each with where it was first given, and what does not go together."""

    def __init__(self):
        self.tasks, self.spacings, self.releases, self.wrong = {}, {}, {}, []

    def add(self, plan):
        self.wrong += [f"{named(plan.path)}: {each}" for each in plan.mistakes if each.number not in FOUND_IN_THE_WHOLE]
        for each in plan.tasks:
            self.add_task(each, f"{named(plan.path)} line {each.line}")
        for each in plan.of_kind(SPACING):
            self.add_spacing(each, f"{named(plan.path)} line {each.line}")
        for each in plan.of_kind(RELEASE):
            self.add_release(each, f"{named(plan.path)} line {each.line}")

    def add_task(self, each, where):
        number = each.values["number"]
        text, before = self.tasks.setdefault(number, (each.text, where))
        if text != each.text:
            self.wrong.append(f"{where}: task {number} is another than in {before}")

    def add_spacing(self, each, where):
        task = each.values["task"]
        text, before = self.spacings.setdefault(task, (each.text, where))
        if text != each.text:
            self.wrong.append(f"{where}: the spacing of task {task} is another than in {before} (refusal 19)")

    def add_release(self, each, where):
        time, task = each.values["time"], each.values["task"]
        before = self.releases.setdefault((time, task), where)
        if before != where:
            self.wrong.append(f"{where}: the release of task {task} at {time} is given before, in {before} (refusal 9)")

    def finish(self):
        """What only the whole shows."""
        for task, (_, where) in self.spacings.items():
            if task not in self.tasks:
                self.wrong.append(f"{where}: a spacing of task {task}, which is in no plan (refusal 8)")
        for (_, task), where in self.releases.items():
            if task not in self.tasks:
                self.wrong.append(f"{where}: a release of task {task}, which is in no plan (refusal 8)")
        if len(self.releases) > MOST_RELEASES:
            self.wrong.append(f"together they have {len(self.releases)} releases, over {MOST_RELEASES} (refusal 11)")
        if not self.tasks:
            self.wrong.append("the plans have no task (refusal 12)")


def main(given):
    merged = Merged()
    for path in given.plans:
        merged.add(read_plan(path))
    merged.finish()
    if merged.wrong:
        raise Rejected("\n".join(dict.fromkeys(merged.wrong)))
    head = [text for part in (merged.tasks, merged.spacings) for _, (text, _) in sorted(part.items())]
    lines = head + [f"release {time} {task}" for time, task in sorted(merged.releases)]
    return output.write_text("".join(f"{line}\n" for line in lines))
