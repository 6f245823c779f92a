"""draw a run as an SVG picture

The run of a plan, as the proved program prints it; or, with --lines, a run that was printed before, which has to be whole. Long idle time
is left out: the axis breaks there and says how many ticks it passes over.
"""

import argparse
import os

from tools import arguments as common
from tools import output
from tools.drawing import draw
from tools.files import lines_of
from tools.lives import differing, lives
from tools.output import Rejected, named, shown
from tools.plan import sound_plan
from tools.runs import proved_lines
from tools.timeline import LAST_TICK, BadLines, part, timeline

MEMORY = 256

LONGEST_LINE = 400  # no line of a run is nearly so long
MOST_LINES = 1 << 20


def tick(word):
    if not (word.isascii() and word.isdigit() and len(word) <= len(str(LAST_TICK)) and int(word) <= LAST_TICK):
        raise argparse.ArgumentTypeError(f"'{shown(word)}' is no tick")
    return int(word)


def arguments(parser):
    common.plan(parser)
    parser.add_argument("--lines", metavar="LINES", help="draw the run that is printed in this file, - for standard input")
    parser.add_argument("--from", dest="first", type=tick, default=0, metavar="TICK", help="leave out what ends before this tick")
    parser.add_argument("--to", dest="last", type=tick, default=LAST_TICK, metavar="TICK", help="leave out what begins after this tick")


def check(parser, given):
    if given.plan == given.lines == "-":
        parser.error("one of the two can be standard input")
    if given.first > given.last:
        parser.error(f"--from {given.first} is after --to {given.last}")


def stored_lines(path):
    """The lines of a file, as many as a run can have."""
    found = []
    for line in lines_of(path, LONGEST_LINE):
        found.append(line)
        if len(found) > MOST_LINES:
            break
    return found


def run_of_lines(plan, lines, name):
    """The timeline of a run that lines tell of, all of it."""
    try:
        run = timeline(plan.table, plan.releases, lines)
    except BadLines as bad:
        raise Rejected(f"{name}: {bad}") from None
    whole = lives(plan.table, plan.releases).lines
    number = differing(whole, [line.strip() for line in lines])
    if number is not None:
        there = f"has '{whole[number - 1]}' here" if number <= len(whole) else "ends before it"
        raise Rejected(f"{name}: line {number}: the run of this plan {there}")
    return run


def picture(plan, lines, name, first=0, last=LAST_TICK):
    """The SVG text of a plan's run, or of the part of it from one tick to another."""
    run = run_of_lines(plan, lines, name)
    part_of_it = part(run, first, last)
    if run.releases and not part_of_it.releases and not part_of_it.bands:
        raise Rejected(f"{named(plan.path)}: nothing happens from tick {first} to {last}")
    title = "".join(letter if letter.isprintable() else "?" for letter in os.path.basename(plan.path))
    return draw(part_of_it, f"Run of {title}")


def main(given):
    plan = sound_plan(given.plan)
    lines, name = (proved_lines(plan), "gateway") if given.lines is None else (stored_lines(given.lines), named(given.lines))
    return output.write_text(picture(plan, lines, name, given.first, given.last))
