"""A run's timeline as SVG.

From the top: title, legend, the releases, those that wait, the jobs that are ready, a head for each interval, the processor's row, the
promotions, the engine's row, the jobs done, the axis; of a long run, below it, the worst responses by task and time. Each thing drawn says in
data attributes what it is and when, and has a title, which viewers show on pointing at it: where there is no room for a label, nothing is
lost. Where no interval is open for long, the axis breaks: the time between is not drawn to scale. A wide picture has legend and row names
again and again.
"""

from bisect import bisect_right
from collections import Counter, defaultdict
from xml.etree import ElementTree

from tools import legend, responses, shapes, waits
from tools.shapes import add, group, longest_fitting, width_of, words
from tools.timeline import CANCELLED, ENGINE, PROCESSOR, SKIPPED, TAKEN, THROWN_OUT, TOO_SOON, WAITS

# Widths in pixels.
LEFT, RIGHT = 84, 30
PAGE = 1_700     # behind so many the row names stand again, in a gap of the drawing
LEAST_WIDTH, MOST_WIDTH = 862, 20_000
MOST_LEGEND = 1_600
SHORTEST_PHASE = 44    # what the shortest phase gets, where the limits below allow it
AVERAGE_INTERVAL = 160  # intervals get no more than this on average, so that one short phase does not stretch a whole run
LONGEST_IDLE = 320      # idle time that would take more than this is left out
BREAK = 100             # what stands in its place, or less where there are many

# Heights in pixels.
HEAD, ROW, BETWEEN, DONE, AXIS = 32, 54, 22, 30, 34
BAR_TOP = 17   # below a row's top, where its half is written
STACKED = 14   # each number of several releases on one tick
MOST_STACKED = 8

ORDER = (TAKEN, WAITS, SKIPPED, TOO_SOON)

SHORT_NAMES = {"copy-in": "in", "execution": "run", "copy-out": "out"}


class Layout:
    """Where things stand: x by time, y by row."""

    def __init__(self, run, top):
        times = [release.time for release in run.releases] + [job.completion for job in run.completions]
        times += [time for band in run.bands for time in (band.begin, band.end)]
        self.start, self.end = min(times, default=0), max(times, default=1)
        self.place(run)
        self.right = self.x(self.end)
        highest = max((len(at_once) for at_once in by_time(run.releases).values()), default=1)
        self.waits = top + STACKED * min(MOST_STACKED, highest) + 22
        self.readies = self.waits + waits.height(run.waits)
        self.heads = self.readies + waits.height(run.readies)
        self.processor = self.heads + HEAD
        self.promotions = self.processor + ROW
        self.engine = self.promotions + BETWEEN
        self.done = self.engine + ROW
        self.axis = self.done + DONE
        self.bottom = self.axis + AXIS

    def place(self, run):
        """The spans of time that are drawn, the pixels for each tick and where each span begins."""
        room = MOST_WIDTH - LEFT - 2 * RIGHT - LEFT * (MOST_WIDTH // PAGE)
        self.breaks, self.scale, self.gap = broken(idle(run), scale(run), max(1, self.end - self.start), room)
        cuts = self.with_names(run.bands)
        edges = [self.start, *(time for end, begin, _ in cuts for time in (end, begin)), max(self.end, self.start + 1)]
        self.spans = list(zip(edges[::2], edges[1::2]))
        self.lefts = [LEFT]
        for (begin, end), (_, _, gap) in zip(self.spans, cuts):
            self.lefts.append(self.lefts[-1] + (end - begin) * self.scale + gap)

    def with_names(self, bands):
        """The cuts of the time that is drawn, each with its width: the breaks, and before some intervals the room for the row names."""
        self.names, found, breaks = [LEFT], [], dict(reversed(each) for each in self.breaks)
        x, at = LEFT, self.start
        for band in bands:
            x += (breaks.get(band.begin, band.begin) - at) * self.scale + (self.gap if band.begin in breaks else 0)
            wide = x - self.names[-1] > PAGE
            if wide:
                x += LEFT
                self.names.append(x)
            if wide or band.begin in breaks:
                found.append((breaks.get(band.begin, band.begin), band.begin, (self.gap if band.begin in breaks else 0) + (LEFT if wide else 0)))
            at = band.begin
        return found

    def ticks(self):
        """Each span as a first and a last tick; one on which the next begins is that one's."""
        nexts = [begin for begin, _ in self.spans[1:]] + [None]
        return [(begin, min(end, self.end) - (end == after)) for (begin, end), after in zip(self.spans, nexts)]

    def lines(self):
        """Where each span begins and ends."""
        return [(left, left + (min(end, self.end) - begin) * self.scale) for left, (begin, end) in zip(self.lefts, self.spans)]

    def x(self, time):
        span = max(0, bisect_right(self.spans, (time, 2 * self.end + 2)) - 1)
        return self.lefts[span] + (time - self.spans[span][0]) * self.scale

    def pieces(self, begin, end):
        """Where a time that reaches over several spans is drawn: a left and a right edge in each. What is outside the picture is left out."""
        found = []
        for at in range(max(0, bisect_right(self.spans, (begin, 2 * self.end + 2)) - 1), len(self.spans)):
            left, (first, last) = self.lefts[at], self.spans[at]
            if first >= end:
                break
            if begin < last:
                found.append((left + (max(begin, first) - first) * self.scale, left + (min(end, last, self.end) - first) * self.scale))
        return found

    def width(self, begin, end):
        return (end - begin) * self.scale


def scale(run):
    """Pixels for each tick, as far as the whole width allows."""
    shortest = min((bar.end - bar.begin for bar in run.bars), default=1)
    busy = sum(band.end - band.begin for band in run.bands) or 1
    return min(SHORTEST_PHASE / shortest, AVERAGE_INTERVAL * max(1, len(run.bands)) / busy)


def broken(gaps, wanted, ticks, room):
    """The idle times that are left out, the pixels for each tick and for each break: one is left out where it would take more than its break does."""
    left_out, least = [gap for gap in gaps if (gap[1] - gap[0]) * wanted > LONGEST_IDLE], LONGEST_IDLE
    while True:
        gap = min(BREAK, room / 2 / max(1, len(left_out)))
        found = min(wanted, (room - gap * len(left_out)) / (ticks - sum(begin - end for end, begin in left_out)))
        fewer = [(end, begin) for end, begin in left_out if (begin - end) * found > (gap if found < wanted else least)]
        if len(fewer) == len(left_out):
            return left_out, found, gap
        left_out = fewer


def idle(run):
    """The times between intervals: from the end of one to the begin of the next."""
    return [(one.end, other.begin) for one, other in zip(run.bands, run.bands[1:]) if one.end < other.begin]


def by_time(releases):
    """The releases of each tick: those taken, those that wait, those skipped."""
    groups = defaultdict(list)
    for release in sorted(releases, key=lambda release: (release.time, ORDER.index(release.state), release.task)):
        groups[release.time].append(release)
    return groups


# Intervals.

def draw_band(parent, layout, band):
    """A box over both rows: the interval's number and ticks in its head, each row in the colour of the unit's half."""
    x, width = layout.x(band.begin), layout.width(band.begin, band.end)
    title = f"interval {band.number}, {band.begin} to {band.end}: processor half {band.half}, engine half {1 - band.half}"
    box = group(parent, title, kind="interval", number=band.number, begin=band.begin, end=band.end, half=band.half)
    for y, half in ((layout.processor, band.half), (layout.engine, 1 - band.half)):
        add(box, "rect", x=x, y=y, width=width, height=ROW, fill=shapes.HALF_COLOURS[half])
        text = longest_fitting((f"half {half}", str(half)), width - 6, 9)
        if text:
            words(box, x + 4, y + 11, text, "small")
    add(box, "rect", class_="thin", x=x, y=layout.heads, width=width, height=layout.done - layout.heads)
    for y, texts, style in ((13, (f"interval {band.number}", str(band.number)), "middle strong"),
                            (27, (f"{band.begin}–{band.end}",), "middle")):
        text = longest_fitting(texts, width - 6)
        if text:
            words(box, x + width / 2, layout.heads + y, text, style)


def draw_bar(parent, layout, bar, colours):
    """A phase of a job on its unit's row."""
    x, width = layout.x(bar.begin), layout.width(bar.begin, bar.end)
    y = {PROCESSOR: layout.processor, ENGINE: layout.engine}[bar.unit] + BAR_TOP
    box = group(parent, f"task {bar.task}, {bar.kind} on the {bar.unit}, {bar.begin} to {bar.end}, {bar.fate}", unit=bar.unit,
                kind=bar.kind, task=bar.task, begin=bar.begin, end=bar.end, interval=bar.interval, fate=bar.fate)
    shapes.bar(box, x, y, max(shapes.LEAST, width), bar.kind, colours[bar.task], bar.fate)
    room = width - (4 if bar.winner is None else 12)  # the mark of a copy-in that gave way may stand over its end
    text = longest_fitting((f"{SHORT_NAMES[bar.kind]} {bar.task}", str(bar.task)), room)
    if text:
        words(box, x + room / 2 + 2, y + 19, text, "middle strong")


# Marks.

def draw_giving_way(parent, layout, bar):
    """A mark at the tick on which a copy-in was cancelled, or thrown out: then it had ended, on that tick or before."""
    time, winner = bar.winner
    kind, verb = {CANCELLED: ("cancellation", "cancels"), THROWN_OUT: ("throw-out", "throws out")}[bar.fate]
    mark = group(parent, f"the release of task {winner} at {time} {verb} the copy-in of task {bar.task}",
                 kind=kind, task=bar.task, time=time, by=winner)
    y = layout.engine + BAR_TOP + shapes.BAR_HEIGHT / 2
    if bar.fate == CANCELLED:
        shapes.cross(mark, layout.x(time), y)
    else:
        shapes.thrown_out(mark, layout.x(bar.end), layout.x(time), y)


def draw_promotion(parent, layout, promotion, band):
    """At the end of the interval, on the way from the engine's row to the processor's."""
    x, y = layout.x(promotion.time), layout.promotions + BETWEEN / 2
    mark = group(parent, f"task {promotion.task} is promoted at {promotion.time}, the end of interval {promotion.interval}",
                 kind="promotion", task=promotion.task, time=promotion.time, interval=promotion.interval)
    shapes.promotion_mark(mark, x, y)
    room = layout.width(band.begin, band.end) - 14
    text = longest_fitting((f"{promotion.task} promoted", str(promotion.task)), room)
    if text:
        words(mark, x - 9, y + 4, text, "end mark")


def draw_completions(parent, layout, completions):
    free = LEFT - 20  # where the next label may begin
    for job in completions:
        x = layout.x(job.completion)
        mark = group(parent, f"task {job.task}, released at {job.release}, is done at {job.completion}, blocked {job.blocked}",
                     kind="completion", task=job.task, time=job.completion, release=job.release, blocked=job.blocked)
        shapes.completion_mark(mark, x, layout.done + 8)
        half = width_of(str(job.task)) / 2
        if x - half >= free:
            words(mark, x, layout.done + 23, str(job.task), "middle strong")
            free = x + half + 5


def draw_releases(parent, layout, releases):
    """The numbers of releases on one tick are stacked; a stack that would run into the one to its left is left out."""
    free = LEFT - 20
    for at_once in by_time(releases).values():
        texts = stack([release.task for release in at_once])
        half = max(width_of(text) for text in texts) / 2
        x = layout.x(at_once[0].time)
        fits = x - half >= free
        free = x + half + 5 if fits else free
        for place, release in reversed(list(enumerate(at_once))):  # arrows of those taken over those of the skipped
            text = texts[place] if fits and place < len(texts) else None
            draw_release(parent, layout, release, text, layout.waits - 20 - STACKED * place)


def stack(numbers):
    """The texts of a stack from below; the top says how many more there are if it would be too high."""
    texts = [str(number) for number in numbers]
    if len(texts) > MOST_STACKED:
        texts[MOST_STACKED - 1:] = [f"+{len(texts) - MOST_STACKED + 1}"]
    return texts


def draw_release(parent, layout, release, text, y):
    x = layout.x(release.time)
    kind, more = {TAKEN: ("release", ""), WAITS: ("waiting", ", waits"), SKIPPED: ("skipped", ", skipped: one waits"),
                  TOO_SOON: ("skipped", ", skipped: sooner than its spacing")}[release.state]
    mark = group(parent, f"release of task {release.task} at {release.time}{more}", kind=kind, task=release.task, time=release.time)
    shapes.release_arrow(mark, x, layout.waits - 2, release.state)
    if text:
        shapes.release_number(mark, x, y, text, TAKEN if text.startswith("+") else release.state)


# The frame.

def tick_step(per_tick, last):
    """Ticks between numbers on the axis: 1, 2 or 5 times a power of ten, so that the numbers do not touch."""
    room = width_of(str(last)) + 12
    step = 1
    while True:
        for factor in (1, 2, 5):
            if factor * step * per_tick >= room:
                return factor * step
        step *= 10


def axis_numbers(layout, step):
    """The ticks that have their number: the multiples of a step, and the begin of each span behind a break, as far as there is room."""
    found, free = [], 0
    half = width_of(str(layout.end)) / 2 + 4
    for place, (begin, end) in enumerate(layout.ticks()):
        for time in ([begin] if place else []) + list(range(-(-(begin + bool(place)) // step) * step, end + 1, step)):
            if layout.x(time) - half >= free or not place:
                found.append(time)
                free = layout.x(time) + half
    return set(found)


def draw_axis(parent, layout):
    y, step = layout.axis, tick_step(layout.scale, layout.end)
    axis = add(parent, "g", data_kind="axis", data_begin=str(layout.start), data_end=str(layout.end))
    add(axis, "path", class_="line", d="".join(f"M{shapes.places(left)} {shapes.places(y)}H{shapes.places(right)}" for left, right in layout.lines()))
    fine = next(step // parts for parts in (10, 5, 2, 1) if step % parts == 0 and step // parts * layout.scale >= 6)
    numbers = axis_numbers(layout, step)
    for begin, end in layout.ticks():
        marks = set(range(-(-begin // fine) * fine, end + 1, fine))
        for time in sorted(marks | {number for number in numbers if begin <= number <= end}):
            whole = time in numbers
            add(axis, "path", class_="line", d=f"M{shapes.places(layout.x(time))} {shapes.places(y)}v{6 if whole else 3}")
            if whole:
                add(axis, "text", str(time), x=layout.x(time), y=y + 19, class_="middle", data_kind="tick", data_time=str(time))


def draw_breaks(parent, layout):
    """A zigzag where the axis breaks, with how many ticks it passes over."""
    for end, begin in layout.breaks:
        left = layout.x(begin) - layout.gap - (LEFT if layout.x(begin) in layout.names else 0)
        mark = group(parent, f"idle from {end} to {begin}, {begin - end} ticks", kind="break", begin=end, end=begin)
        middle = left + layout.gap / 2
        shapes.axis_break(mark, middle, layout.axis, layout.gap)
        text = longest_fitting((f"{begin - end} ticks", "idle"), layout.gap - 6, 9)
        if text:
            words(mark, middle, layout.axis - 8, text, "middle small")


def draw_row_names(parent, layout):
    rows = [(layout.waits - 6, "releases"), (layout.processor + 36, PROCESSOR), (layout.promotions + 15, "promoted"), (layout.engine + 36, ENGINE),
            (layout.done + 12, "jobs done"), (layout.axis + 4, "ticks")]
    rows += [(layout.waits + 10, "waiting")] if layout.readies > layout.waits else []
    rows += [(layout.readies + 10, "ready")] if layout.heads > layout.readies else []
    for x in layout.names:
        for y, name in rows:
            words(parent, x - 12, y, name, "end strong" if name in (PROCESSOR, ENGINE) else "end")


def count(number, one, several=None):
    return f"{number} {one if number == 1 else several or one + 's'}"


def summary(run, layout):
    states = Counter(release.state for release in run.releases)
    waited = f"{states[WAITS]} waiting, " if states[WAITS] else ""
    soon = f", {states[TOO_SOON]} of them too soon" if states[TOO_SOON] else ""
    fates = Counter(bar.fate for bar in run.bars)
    return ", ".join((
        f"ticks {layout.start} to {layout.end}", count(len(run.table), "task"),
        f"{count(len(run.releases), 'release')} ({waited}{states[SKIPPED] + states[TOO_SOON]} skipped{soon})", count(len(run.bands), "interval"),
        count(fates[CANCELLED], "copy-in cancelled", "copy-ins cancelled"), *([f"{fates[THROWN_OUT]} thrown out"] if fates[THROWN_OUT] else []),
        count(len(run.promotions), "job promoted", "jobs promoted"),
        count(len(run.completions), "job done", "jobs done")))


def draw_legends(root, run, colours, width, names):
    """The legend, and again wherever the row names are; the height that it takes comes back."""
    key, across = add(root, "g"), min(width, MOST_LEGEND) - 40
    for x in names[1:]:
        if x + across <= width:
            legend.draw(key, x - LEFT + 20, 60, across, legend.items(run, colours))
    return legend.draw(key, 20, 60, across, legend.items(run, colours))


def draw_run(root, layout, run, colours):
    """All that happens, each thing over those that it may lie on."""
    for band in run.bands:
        draw_band(root, layout, band)
    for bar in run.bars:
        draw_bar(root, layout, bar, colours)
    for bar in run.bars:  # after all bars, since the next interval's may begin where a copy-in gave way
        if bar.winner is not None:
            draw_giving_way(root, layout, bar)
    bands = {band.number: band for band in run.bands}
    for promotion in run.promotions:
        draw_promotion(root, layout, promotion, bands[promotion.interval])
    waits.draw(root, layout, run, colours)
    draw_releases(root, layout, run.releases)
    draw_completions(root, layout, run.completions)


def draw(run, title):
    """The whole picture as text."""
    root = ElementTree.Element("svg", {"xmlns": "http://www.w3.org/2000/svg", "role": "img", "aria-labelledby": "title desc"})
    add(root, "title", title, id="title")
    description = add(root, "desc", id="desc")
    shapes.definitions(root)
    paper = add(root, "rect", x=0, y=0, fill="#ffffff")
    colours, wide = shapes.task_colours(run.table), Layout(run, 0)
    width = max(LEAST_WIDTH, wide.right + max(RIGHT, width_of(str(wide.end)) / 2 + 8))
    layout = Layout(run, 66 + draw_legends(root, run, colours, width, wide.names))
    description.text = f"Timeline of the processor and the copy engine: {summary(run, layout)}."
    words(root, 20, 28, title, "heading")
    words(root, 20, 48, summary(run, layout))
    draw_row_names(root, layout)
    draw_run(root, layout, run, colours)
    draw_axis(root, layout)
    draw_breaks(root, layout)
    bottom = layout.bottom + responses.draw(root, layout, run, colours)
    for element in (root, paper):
        element.set("width", shapes.places(width))
        element.set("height", shapes.places(bottom))
    root.set("viewBox", f"0 0 {root.get('width')} {root.get('height')}")
    ElementTree.indent(root, " ")
    return ElementTree.tostring(root, encoding="unicode") + "\n"
