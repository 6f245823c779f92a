"""Dispatchers that are wrong in one point each, and only where tasks have one priority (6/13): for records that are nearly right, and to see that a
test tells each of them from the rule."""

from sim.dispatcher import Dispatcher


def not_lower(job, other):
    return job.task.priority <= other.task.priority


def by_number(job):
    return job.task.priority, job.task.number


def latest_first(job):
    return job.task.priority, -job.release, job.task.number


def highest_number_first(job):
    return job.task.priority, job.release, -job.task.number


def by_taking(job):
    return job.task.priority, job.taken, job.task.number


class ByNumber(Dispatcher):
    """Among equals the task number alone decides."""
    _chosen_by = _promoted_by = staticmethod(by_number)


class LatestFirst(Dispatcher):
    """Among equals the latest release is the highest."""
    _chosen_by = _promoted_by = staticmethod(latest_first)


class HighestNumberFirst(Dispatcher):
    """Among equals of one tick the highest task number goes first."""
    _chosen_by = _promoted_by = staticmethod(highest_number_first)


class ByTaking(Dispatcher):
    """A release that waited is ordered by its taking, and not by its original time."""
    _chosen_by = _promoted_by = staticmethod(by_taking)


class PromotedByNumber(Dispatcher):
    """The choice follows the order, and promotion the task number alone."""
    _promoted_by = staticmethod(by_number)


class EqualGivesWay(Dispatcher):
    """A marked release cancels and throws out a copy-in of its own priority too."""
    _gives_way_to = staticmethod(not_lower)


class EqualBlocks(Dispatcher):
    """A job of the same priority on the processor is counted as blocking."""
    _blocked_by = staticmethod(not_lower)


ALL = (ByNumber, LatestFirst, HighestNumberFirst, ByTaking, PromotedByNumber, EqualGivesWay, EqualBlocks)
