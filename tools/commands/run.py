"""run a plan with the proved program and print what happens

Each line is an event, in the order in which things occur: J a job is done, I an interval has ended, S a release is skipped, R the plan is
refused; docs/FORMATS.md has their fields. With no plan, plans/a.plan is run.
"""

from tools import output, programs, refusals
from tools.events import json_line
from tools.output import Rejected
from tools.plan import read_plan
from tools.programs import ROOT

PLAN_A = str(ROOT / "plans/a.plan")


def arguments(parser):
    parser.add_argument("plan", nargs="?", default=PLAN_A, metavar="PLAN", help="a plan file, - for standard input (plans/a.plan if none is named)")
    parser.add_argument("--json", action="store_true", help="each event as a JSON object on a line of its own, with its fields by name")


def as_json(pieces):
    """The lines of some pieces, each as JSON; what is no whole line yet is kept until it is."""
    rest = b""
    for piece in pieces:
        *lines, rest = (rest + piece).split(b"\n")
        yield "".join(json_line(line.decode()) for line in lines).encode()


def main(given):
    plan = read_plan(given.plan)
    if plan.unreadable():
        raise Rejected(plan.told())
    first, status = [], 0
    pieces = with_first(programs.output_of("gateway", [plan.data]), first)
    for piece in as_json(pieces) if given.json else pieces:
        status = output.write(piece)
        if status:
            return status
    refused = refusals.line_of(b"".join(first).decode())
    if refused is not None:
        raise Rejected(refusals.of_plan(plan, refused))
    return output.write(b"")


def with_first(pieces, first):
    """The pieces as they are; the first is kept, since a refusal is all that is printed then."""
    for piece in pieces:
        if not first:
            first.append(piece)
        yield piece
