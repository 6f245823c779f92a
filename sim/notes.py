"""What each step of an instant decided, for those who want to know why: notes that a dispatcher takes where it is asked to.

Jobs and intervals are the dispatcher's own, so that one job's notes are found by the job itself.
"""

from typing import Any, NamedTuple, Optional


class Taken(NamedTuple):
    """Step c: a release was taken, and is a job. It belongs to the open interval, else (None) to the one that begins now."""
    time: int
    job: Any
    interval: Any


class Waits(NamedTuple):
    """Step c: a release waits for the completion of its task's pending job."""
    time: int
    task: int
    behind: Any


class Skipped(NamedTuple):
    """Step c: a release was skipped, since another of its task waits from a time on."""
    time: int
    task: int
    since: int


class TooSoon(NamedTuple):
    """Step c: a release was skipped, since it came sooner than its task's spacing after the last one that was taken or set waiting."""
    time: int
    task: int
    last: int
    spacing: int


class GaveWay(NamedTuple):
    """Step d: a copy-in was cancelled or thrown out by the highest of the releases that did."""
    time: int
    job: Any
    winner: Any
    fate: int


class Chose(NamedTuple):
    """Steps e and g: the engine's choice; None where no job was ready. Ready jobs of the same priority come behind it, in their order."""
    time: int
    job: Optional[Any]
    interval: Any
    behind: list


class Began(NamedTuple):
    """Step g: an interval began."""
    time: int
    interval: Any


class CopiedIn(NamedTuple):
    """Step a: the engine's copy-in ended."""
    time: int
    job: Any


class Started(NamedTuple):
    """A job's execution began."""
    time: int
    job: Any


class Stopped(NamedTuple):
    """Step a: a job's execution ended."""
    time: int
    job: Any


class Done(NamedTuple):
    """Step a: a job's copy-out ended."""
    time: int
    job: Any


class Ended(NamedTuple):
    """Steps b and f: an interval ended, and promoted a job or none. Others of the same priority that it could have promoted come behind it."""
    time: int
    interval: Any
    promoted: Optional[Any]
    behind: list
