"""The legend of a run's picture: what each shape means, and the task table."""

from tools import shapes
from tools.shapes import add, words
from tools.timeline import CANCELLED, DONE, SKIPPED, TAKEN, THROWN_OUT, TOO_SOON, WAITS

SWATCH = 36
GREY = ("#b9b9b9", "#ececec", "#444444")


def bar_sample(kind, fate=DONE):
    def draw(parent, x, y):
        width = 12 if fate == THROWN_OUT else 26
        scaled = add(parent, "g", transform=f"translate({shapes.places(x)} {shapes.places(y - 9)}) scale(1 0.6)")
        shapes.bar(scaled, 0, 0, width, kind, GREY, fate)
        if fate == CANCELLED:
            shapes.cross(parent, x + width, y)
        if fate == THROWN_OUT:
            shapes.thrown_out(parent, x + width, x + 26, y)
    return draw


def half_sample(half):
    def draw(parent, x, y):
        add(parent, "rect", x=x, y=y - 9, width=26, height=18, fill=shapes.HALF_COLOURS[half], stroke="#8a8a8a",
            stroke_width=0.5)
    return draw


def release_sample(state):
    def draw(parent, x, y):
        shapes.release_arrow(parent, x + 8, y + 9, state)
        shapes.release_number(parent, x + 20, y + 4, "n", state)
    return draw


def wait_sample(parent, x, y):
    shapes.release_arrow(parent, x + 4, y + 9, WAITS)
    shapes.wait(parent, x + 10, y - 5, 18, 10, GREY, True)


def ready_sample(parent, x, y):
    shapes.ready(parent, x, y - 5, 26, 10, GREY)


def task_sample(colours):
    def draw(parent, x, y):
        add(parent, "rect", x=x, y=y - 7, width=26, height=14, fill=colours[0], stroke=colours[2])
    return draw


PHASES = (
    (bar_sample("copy-in"), "copy-in (in)"),
    (bar_sample("execution"), "execution (run)"),
    (bar_sample("copy-out"), "copy-out (out)"),
)

# How a copy-in gives way: shown where one does.
GAVE_WAY = (
    (CANCELLED, (bar_sample("copy-in", CANCELLED), "copy-in cancelled")),
    (THROWN_OUT, (bar_sample("copy-in", THROWN_OUT), "copy thrown out")),
)

# A release that waits: shown where one does.
WAITING = ((wait_sample, "release waits"),)

# A job that is ready: shown where one is.
READY = ((ready_sample, "job ready"),)

PROMOTED = ((lambda parent, x, y: shapes.promotion_mark(parent, x + 13, y), "job promoted"),)

RELEASED = ((release_sample(TAKEN), "release of task n"),)

# A release that came sooner than its task's spacing: shown where one did.
SOON = ((release_sample(TOO_SOON), "release skipped, too soon"),)

MARKS = (
    (release_sample(SKIPPED), "release skipped"),
    (lambda parent, x, y: shapes.completion_mark(parent, x + 13, y), "job done"),
    (half_sample(0), "unit has half 0"),
    (half_sample(1), "unit has half 1"),
)


def task_text(task):
    mark = ", latency-sensitive" if task.mark else ""
    spacing = "" if task.spacing is None else f", spacing {task.spacing}"
    return f"task {task.number}: priority {task.priority}{mark}, L {task.copy_in}, C {task.execution}, U {task.copy_out}{spacing}"


def items(run, colours):
    """Two groups, each to begin on a row of its own: the shapes, and the tasks by number."""
    fates = {bar.fate for bar in run.bars}
    gave_way = tuple(item for fate, item in GAVE_WAY if fate in fates)
    tasks = tuple((task_sample(colours[number]), task_text(run.table[number])) for number in sorted(run.table))
    soon = any(release.state == TOO_SOON for release in run.releases)
    seen = (WAITING if run.waits else ()) + (READY if run.readies else ()) + (SOON if soon else ())
    return PHASES + gave_way + PROMOTED + RELEASED + seen + MARKS, tasks


def draw(parent, left, top, width, groups, row=24):
    """Draw the groups in columns as wide as each group's longest text; the height that they take comes back."""
    y = top
    for group in groups:
        column = SWATCH + max(shapes.width_of(text) for _, text in group) + 10
        rows = -(-len(group) // max(1, int(width // column)))
        across = -(-len(group) // rows)  # no more than needed, so that the last row is not left nearly empty
        for index, (sample, text) in enumerate(group):
            x, middle = left + index % across * column, y + index // across * row + row / 2
            sample(parent, x, middle)
            words(parent, x + SWATCH, middle + 4, text)
        y += row * rows
    return y - top
