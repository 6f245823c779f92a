"""Dispatchers that are wrong in one point each, and only where a task has a spacing (8/13): for records that are nearly right, and to see that a test
tells each of them from the rule."""

from sim.dispatcher import Dispatcher, members


class ExactlyOneIsTooSoon(Dispatcher):
    """A release exactly one spacing later is skipped too."""

    def _too_soon(self, number, now):
        spacing = self.table[number].spacing
        return super()._too_soon(number, now) or spacing is not None and now == self.passed.get(number, now) + spacing


class OneTickSoonerPasses(Dispatcher):
    """A release one tick sooner than the spacing passes."""

    def _too_soon(self, number, now):
        return super()._too_soon(number, now) and now + 1 < self.passed[number] + self.table[number].spacing


class SkippedCounts(Dispatcher):
    """A release that was skipped, for whichever reason, counts as the last."""

    def _step_c(self, now, released, answer):
        taken = super()._step_c(now, released, answer)
        self.passed.update((number, now) for number in members(answer.skipped))
        return taken


class FromTheTaking(Dispatcher):
    """After a release that waited the spacing is measured from its taking, and not from its original time."""

    def _take(self, number, release):
        self.passed[number] = self.last
        return super()._take(number, release)


class OnlyWhilePending(Dispatcher):
    """The spacing is tested only while the task has a pending job."""

    def _too_soon(self, number, now):
        return number in self.pending and super()._too_soon(number, now)


class OnlyWhereItIsTaken(Dispatcher):
    """The spacing is tested only while the task has no pending job: a release that can wait does."""

    def _too_soon(self, number, now):
        return number not in self.pending and super()._too_soon(number, now)


class SinceTheBeginning(Dispatcher):
    """A task's first release is measured from time 0, as if one had been taken then."""

    def _too_soon(self, number, now):
        self.passed.setdefault(number, 0)
        return super()._too_soon(number, now)


class NoneTested(Dispatcher):
    """No spacing is tested."""

    def _too_soon(self, number, now):
        return False


ALL = (ExactlyOneIsTooSoon, OneTickSoonerPasses, SkippedCounts, FromTheTaking, OnlyWhilePending, OnlyWhereItIsTaken, SinceTheBeginning,
       NoneTested)
