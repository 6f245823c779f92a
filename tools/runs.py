"""Runs with the life of each release, for the commands that tell of them: of a plan, or of a record that was stored. Each is held against what the
proved programs say."""

from sim.lines import record_lines
from tools import refusals
from tools.lives import hold, lives
from tools.output import Rejected
from tools.plan import sound_plan
from tools.programs import printed
from tools.stored import stored_releases


def proved_lines(plan):
    """What the proved program prints for a plan; a refusal is told."""
    lines = printed("gateway", plan.data).decode().splitlines()
    refused = refusals.line_of(lines[0]) if lines else None
    if refused is not None:
        raise Rejected(refusals.of_plan(plan, refused))
    return lines


def run_of(plan):
    return hold(lives(plan.table, plan.releases), proved_lines(plan))


def run_of_plan(path):
    return run_of(sound_plan(path))


def run_of_record(plan_path, record_path):
    """The run that made a record, with the tasks of a plan."""
    plan, releases, stored = stored_releases(plan_path, record_path)
    return hold(lives(plan.table, releases), record_lines(stored))
