"""The worst response of each task in each span of time, as a table below the picture of a long run: where its phases are too many to be told apart,
this tells when which task had to wait.

A cell has the worst response of the jobs released in it: white where that is L + C + U, as of a job alone, and darker where it comes nearer to
the task's worst of all; a skipped release shows as an edge in red. Time goes evenly through the whole run here, idle time too.
"""

from collections import defaultdict

from tools import shapes
from tools.shapes import add, group, width_of, words
from tools.timeline import SKIPPED, TOO_SOON

DENSE = 14      # pixels: below this, on average, an interval shows too little
CELL, ROW = 58, 18
COLUMNS = 24    # an hour each where the run is a day
LEFT, TOP, BELOW = 84, 46, 34
DARK = "#5b7fa8"


def is_dense(layout, run):
    busy = sum(band.end - band.begin for band in run.bands)
    return len(run.bands) > COLUMNS and busy * layout.scale < DENSE * len(run.bands)


def cells(run, start, end):
    """For each task and column the jobs released in it, and how many releases were skipped."""
    def column(time):
        return min(COLUMNS - 1, (time - start) * COLUMNS // max(1, end - start))
    jobs, skipped = defaultdict(list), defaultdict(int)
    for job in run.completions:
        jobs[job.task, column(job.release)].append(job)
    for release in run.releases:
        if release.state in (SKIPPED, TOO_SOON):
            skipped[release.task, column(release.time)] += 1
    return jobs, skipped


def draw(parent, layout, run, colours):
    """Draw it where the run is long, and answer the height that it takes."""
    if not is_dense(layout, run):
        return 0
    top, start, end = layout.bottom + TOP, layout.start, max(layout.end, layout.start + 1)
    words(parent, 20, layout.bottom + 22, "Worst response of each task, in ticks, by the time of the release", "strong")
    jobs, skipped = cells(run, start, end)
    tasks = sorted(run.table.values(), key=lambda task: (task.priority, task.number))
    for at, task in enumerate(tasks):
        y = top + at * ROW
        add(parent, "rect", x=8, y=y + 4, width=10, height=10, fill=colours[task.number][0], stroke=colours[task.number][2], stroke_width=0.5)
        words(parent, LEFT - 8, y + 13, f"task {task.number}", "end")
        alone = task.copy_in + task.execution + task.copy_out
        worst = max((job.completion - job.release for job in run.completions if job.task == task.number), default=alone)
        for column in range(COLUMNS):
            here = jobs[task.number, column], skipped[task.number, column]
            draw_cell(parent, LEFT + column * CELL, y, task.number, *here, (alone, max(worst, alone + 1)))
    y = top + len(tasks) * ROW + 14
    for column in range(0, COLUMNS + 1, 2):
        words(parent, LEFT + column * CELL, y, str(start + (end - start) * column // COLUMNS), "middle")
    words(parent, LEFT - 26, y, "ticks", "end small")
    return TOP + len(tasks) * ROW + BELOW


def draw_cell(parent, x, y, task, jobs, skipped, bounds):
    """One task in one span of time; the bounds are the responses of the lightest and the darkest cell."""
    if not jobs and not skipped:
        return
    most = max(jobs, key=lambda job: job.completion - job.release, default=None)
    response = 0 if most is None else most.completion - most.release
    title = f"task {task}: {len(jobs)} done, {skipped} skipped"
    if most is not None:
        title += f"; the worst response is {response}, of the release at {most.release}, blocked {most.blocked}"
    box = group(parent, title, kind="worst", task=task, response=response, jobs=len(jobs), skipped=skipped)
    share = max(0, response - bounds[0]) / (bounds[1] - bounds[0])
    add(box, "rect", x=x + 1, y=y + 1, width=CELL - 2, height=ROW - 2, fill=shapes.blended("#ffffff", DARK, 0.7 * share),
        stroke=shapes.MARK_COLOUR if skipped else "#dddddd", stroke_width=1.5 if skipped else 0.5)
    text = str(response) if jobs else "-"
    if width_of(text) <= CELL - 4:
        words(box, x + CELL / 2, y + 13, text, "middle")
