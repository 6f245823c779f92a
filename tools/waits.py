"""The releases that wait and the jobs that are ready, between the row of releases and the intervals: a bar for each, from a release to its
taking, and from the taking to the copy-in.

Bars that overlap in time stand below each other, as many as there are tasks; where they are many they are thin.
"""

from tools import shapes
from tools.shapes import group, longest_fitting, words

LANE, THINNEST = 14, 3  # heights of a bar with the room around it
MOST = 8 * LANE
BELOW = 4  # between the bars and the intervals


def lanes(waits):
    """The row in which each wait is drawn: the first that is free at its begin. One may begin where another ends."""
    found, free = [], []
    for wait in sorted(waits, key=lambda wait: (wait.begin, wait.task)):
        lane = next((at for at, end in enumerate(free) if end <= wait.begin), len(free))
        free[lane:lane + 1] = [wait.end]
        found.append((wait, lane))
    return found


def lane_height(placed):
    rows = 1 + max((lane for _, lane in placed), default=0)
    return max(THINNEST, min(LANE, MOST / rows))


def height(waits):
    """The height that all of them take; none where nothing waits."""
    if not waits:
        return 0
    placed = lanes(waits)
    return (1 + max(lane for _, lane in placed)) * lane_height(placed) + BELOW


def draw(parent, layout, run, colours):
    for top, bars, draw_one in ((layout.waits, run.waits, draw_wait), (layout.readies, run.readies, draw_ready)):
        placed = lanes(bars)
        each = lane_height(placed)
        for bar, lane in placed:
            draw_one(parent, layout, bar, top + lane * each, each, colours[bar.task])


def draw_wait(parent, layout, wait, y, each, colours):
    """As much of it as lies in the picture; its head only where its taking does."""
    taken = wait.end <= layout.end
    until = f"until {wait.end}" if taken else "on"
    box = group(parent, f"the release of task {wait.task} at {wait.begin} waits {until}", kind="wait", task=wait.task, begin=wait.begin, end=wait.end)
    bar, pieces = each * 0.8, layout.pieces(wait.begin, wait.end)
    for left, right in pieces:
        shapes.wait(box, left, y + each * 0.1, max(shapes.LEAST, right - left), bar, colours, taken and (left, right) == pieces[-1])
    label(box, pieces, bar, (f"{wait.task} waits", str(wait.task)), y, each)


def draw_ready(parent, layout, ready, y, each, colours):
    title = f"task {ready.task} is ready from {ready.begin} to {ready.end}"
    box = group(parent, title, kind="ready", task=ready.task, begin=ready.begin, end=ready.end)
    pieces = layout.pieces(ready.begin, ready.end)
    for left, right in pieces:
        shapes.ready(box, left, y + each * 0.1, max(shapes.LEAST, right - left), each * 0.8, colours)
    label(box, pieces, 4, (f"{ready.task} ready", str(ready.task)), y, each)


def label(box, pieces, less, texts, y, each):
    """One of some texts in the widest piece, if it fits."""
    left, right = max(pieces, key=lambda piece: piece[1] - piece[0])
    text = longest_fitting(texts, right - left - less)
    if text and each == LANE:
        words(box, left + (right - left - less / 2) / 2, y + 11, text, "middle")
