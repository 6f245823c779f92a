"""The shapes of a run's picture, as SVG elements: one function for each, used by the timeline and by its legend."""

from xml.etree import ElementTree

from tools.timeline import CANCELLED, DONE, SKIPPED, TAKEN, THROWN_OUT, TOO_SOON

BAR_HEIGHT = 30
LEAST = 1  # pixels: nothing that takes time is narrower
RING = 6  # the radius of the mark of a copy that was thrown out
HALF_COLOURS = ("#e6effb", "#fbf0dc")
MARK_COLOUR = "#b00020"  # cancelled, thrown out and promoted: what a latency-sensitive release brought about

STYLE = """
text { font-family: sans-serif; font-size: 11px; fill: #1a1a1a; }
.heading { font-size: 16px; font-weight: bold; }
.middle { text-anchor: middle; }
.end { text-anchor: end; }
.small { font-size: 9px; fill: #555; }
.strong { font-weight: bold; }
.skipped { fill: #666; }
.mark { fill: #b00020; }
.line { stroke: #1a1a1a; stroke-width: 1; fill: none; }
.thin { stroke: #8a8a8a; stroke-width: 0.5; fill: none; }
.dashed { stroke: #777; stroke-width: 1; stroke-dasharray: 2 2; fill: none; }
.stop { stroke: #777; stroke-width: 2; fill: none; }
.strike { stroke: #777; stroke-width: 1; fill: none; }
.cross { stroke: #b00020; stroke-width: 2; fill: none; }
"""


def add(parent, tag, text=None, **attributes):
    """A new element; attribute names have _ for - here, and a trailing _ where Python reserves the word."""
    named = {name.rstrip("_").replace("_", "-"): value if isinstance(value, str) else places(value)
             for name, value in attributes.items()}
    element = ElementTree.SubElement(parent, tag, named)
    element.text = text
    return element


def group(parent, title, **data):
    """A group for one thing drawn, with its data attributes and title."""
    element = add(parent, "g", **{f"data_{name}": str(value) for name, value in data.items()})
    add(element, "title", title)
    return element


def places(value):
    """A number with at most two places, without needless zeros."""
    return f"{value:.2f}".rstrip("0").rstrip(".")


def words(parent, x, y, text, style=""):
    return add(parent, "text", text, x=x, y=y, **({"class_": style} if style else {}))


def width_of(text, size=11):
    """About the width of a text: fonts differ, so this is on the wide side."""
    return 0.62 * size * len(text)


def longest_fitting(texts, width, size=11):
    """The first of some texts, longest first, that fits a width; None if none does."""
    return next((text for text in texts if width_of(text, size) <= width), None)


# Colours.

# Far apart, as people see them: each is the one that is farthest from all before it, so that few tasks have the farthest.
PALETTE = (
    "#6eaae1", "#f0d25a", "#f05a78", "#2df0b4", "#96785a", "#a55ab4", "#4b871e", "#0f8778", "#ffc3e1", "#f0874b", "#b4d296", "#00e1f0", "#3c78e1",
    "#96780f", "#a56987", "#ffc3a5", "#ff78c3", "#c3a5f0", "#96e178", "#2da569", "#c3695a", "#87c3b4", "#69875a", "#a5b44b", "#ff96a5", "#96e1ff",
    "#0087a5", "#f0b469", "#7878a5", "#d2d2ff", "#ffa5ff", "#b4a569")


def blended(colour, other, share):
    """A colour with a share of another one in it."""
    pairs = ((int(colour[at:at + 2], 16), int(other[at:at + 2], 16)) for at in (1, 3, 5))
    return "#" + "".join(f"{round((1 - share) * one + share * two):02x}" for one, two in pairs)


def task_colours(table):
    """Each task's full, pale and edge colours."""
    full = {number: PALETTE[rank % len(PALETTE)] for rank, number in enumerate(sorted(table))}
    return {number: (colour, blended(colour, "#ffffff", 0.62), blended(colour, "#101820", 0.62)) for number, colour in full.items()}


# Shapes.

def definitions(root):
    """What the shapes refer to: the style and the hatching."""
    add(root, "style", STYLE)
    pattern = add(add(root, "defs"), "pattern", id="hatch", width=6, height=6, patternUnits="userSpaceOnUse",
                  patternTransform="rotate(45)")
    add(pattern, "line", x1=0, y1=0, x2=0, y2=6, stroke=MARK_COLOUR, stroke_width=1.6, stroke_opacity=0.55)
    pattern = add(root.find("defs"), "pattern", id="ready", width=5, height=5, patternUnits="userSpaceOnUse", patternTransform="rotate(-45)")
    add(pattern, "line", x1=0, y1=0, x2=0, y2=5, stroke="#6a6a6a", stroke_width=1, stroke_opacity=0.6)


def bar(parent, x, y, width, kind, colours, fate=DONE):
    """A phase: execution in full colour, copies pale, copy-out with a dashed edge; hatched if cancelled, crossed out if thrown out."""
    full, pale, edge = colours
    dashes = {"stroke_dasharray": "4 2"} if kind == "copy-out" else {}
    box = {"x": x, "y": y, "width": width, "height": BAR_HEIGHT}
    add(parent, "rect", **box, fill=full if kind == "execution" else pale, stroke=edge,
        stroke_width=min(1, width / 4), **dashes)
    if fate == CANCELLED:
        add(parent, "rect", **box, fill="url(#hatch)")
    if fate == THROWN_OUT:
        across = f"M{places(x)} {places(y)}l{places(width)} {BAR_HEIGHT}m0 -{BAR_HEIGHT}l{places(-width)} {BAR_HEIGHT}"
        add(parent, "path", d=across, fill="none", stroke=MARK_COLOUR, stroke_width=min(1.6, width / 4), stroke_opacity=0.55)


def cross(parent, x, y):
    add(parent, "path", class_="cross", d=f"M{places(x - 5)} {places(y - 5)}l10 10m0 -10l-10 10")


def thrown_out(parent, end, x, y):
    """A cross in a ring where a finished copy was thrown out, with a line to it from the copy's end."""
    if x - end > RING:
        add(parent, "path", d=f"M{places(end)} {places(y)}H{places(x - RING)}", stroke=MARK_COLOUR, stroke_dasharray="3 2", fill="none")
    add(parent, "circle", cx=x, cy=y, r=RING, fill="#ffffff", stroke=MARK_COLOUR, stroke_width=1.5)
    add(parent, "path", class_="cross", d=f"M{places(x - 3)} {places(y - 3)}l6 6m0 -6l-6 6")


def release_arrow(parent, x, y, state):
    """An arrow of 14 px down to y, its head hollow if the release waits. A skipped one has a dashed line and a stop at its tail, two where it came
    too soon: all show on one tick."""
    if state in (SKIPPED, TOO_SOON):
        add(parent, "path", class_="dashed", d=f"M{places(x)} {places(y - 14)}v14")
        for below in (0, 4) if state == TOO_SOON else (0,):
            add(parent, "path", class_="stop", d=f"M{places(x - 4)} {places(y - 14 + below)}h8")
    else:
        add(parent, "path", class_="line", d=f"M{places(x)} {places(y - 14)}v14")
        head = {"fill": "#1a1a1a"} if state == TAKEN else {"fill": "#ffffff", "stroke": "#1a1a1a"}
        add(parent, "path", d=f"M{places(x - 3.5)} {places(y - 6)}h7l-3.5 6z", **head)


def ready(parent, x, y, width, height, colours):
    """A job that is ready: a hatched bar in its task's pale colour."""
    _, pale, edge = colours
    add(parent, "rect", x=x, y=y, width=width, height=height, fill=pale, stroke=edge, stroke_width=min(0.5, width / 4))
    add(parent, "rect", x=x, y=y, width=width, height=height, fill="url(#ready)")


def wait(parent, x, y, width, height, colours, taken):
    """A release that waits: a dotted bar in its task's colour, with a head at its taking."""
    _, pale, edge = colours
    add(parent, "rect", x=x, y=y, width=width, height=height, fill=pale, stroke=edge, stroke_width=min(1, width / 4), stroke_dasharray="1 2")
    if taken:
        half = height / 2
        add(parent, "path", d=f"M{places(x + width - half)} {places(y)}l{places(half)} {places(half)}l{places(-half)} {places(half)}z", fill=edge)


def release_number(parent, x, y, text, state):
    """A released task's number; struck out if the release was skipped."""
    skipped = state in (SKIPPED, TOO_SOON)
    words(parent, x, y, text, "middle skipped" if skipped else "middle strong")
    if skipped:
        half = width_of(text) / 2 + 1
        add(parent, "path", class_="strike", d=f"M{places(x - half)} {places(y - 1)}l{places(2 * half)} -6")


def promotion_mark(parent, x, y):
    """A triangle that points up: the job goes to the processor."""
    add(parent, "path", d=f"M{places(x - 5)} {places(y + 5)}h10l-5 -10z", fill=MARK_COLOUR)


def completion_mark(parent, x, y):
    add(parent, "circle", cx=x, cy=y, r=3.5, fill="#1b6e3c")


def axis_break(parent, x, y, width):
    """A zigzag on the axis, within a width."""
    step = min(6, width / 8)
    add(parent, "path", class_="thin", d=f"M{places(x - width / 2)} {places(y)}H{places(x - 2 * step)}l{places(step)} -5"
        f"l{places(2 * step)} 10l{places(step)} -5H{places(x + width / 2)}")
