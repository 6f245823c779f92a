"""Dispatchers that are wrong in one point each of marks for a whole desk (10/13): to see that a test tells each of them from the rule."""

from sim.dispatcher import TICKETS, Dispatcher, members
from sim.entries import Refused


class ChangesBusyOnes(Dispatcher):
    """The marks change although one of the tasks has a pending job or a release that waits, unless every one has."""

    def _check_marks(self, numbers, mark):
        try:
            super()._check_marks(numbers, mark)
        except Refused as refused:
            if refused.number != 17 or all(number in self.pending or number in self.waiting for number in numbers):
                raise


class RefusedChangesFreeOnes(Dispatcher):
    """It is refused by 17, and those without a pending job and a release that waits are marked all the same."""

    def mark_all(self, tasks, mark):
        try:
            super().mark_all(tasks, mark)
        except Refused as refused:
            if refused.number == 17:
                ticket = self.ticket
                super().mark_all(sum(1 << number for number in members(tasks) if number not in self.pending and number not in self.waiting), mark)
                self.ticket = ticket
            raise


class OnlyTheLowest(Dispatcher):
    """Only the task with the lowest number is marked."""

    def mark_all(self, tasks, mark):
        self._check_marks(members(tasks), mark)
        super().mark_all(tasks & -tasks, mark)


class CountsEachTask(Dispatcher):
    """The ticket rises by as many as there are tasks."""

    def mark_all(self, tasks, mark):
        ticket = self.ticket
        super().mark_all(tasks, mark)
        self.ticket = (ticket + tasks.bit_count()) % TICKETS


class BusyFirst(Dispatcher):
    """17 is looked for before 6."""

    def _check_marks(self, numbers, mark):
        if mark > 1:
            super()._check_marks(numbers, 0)
        super()._check_marks(numbers, mark)


class BadMarkFirst(Dispatcher):
    """6 is looked for before 16."""

    def _check_marks(self, numbers, mark):
        if mark > 1:
            raise Refused(6)
        super()._check_marks(numbers, mark)


class RefusesNone(Dispatcher):
    """The empty set is refused."""

    def mark_all(self, tasks, mark):
        if tasks == 0:
            raise Refused(16)
        super().mark_all(tasks, mark)


class NoneIsNoCall(Dispatcher):
    """The empty set is served, with any mark, and leaves the ticket."""

    def mark_all(self, tasks, mark):
        if tasks:
            super().mark_all(tasks, mark)


class OthersLoseTheirs(Dispatcher):
    """What the set does not name gets the other mark."""

    def mark_all(self, tasks, mark):
        super().mark_all(tasks, mark)
        ticket = self.ticket
        for number in self.table:
            if not tasks >> number & 1 and number not in self.pending and number not in self.waiting:
                self.mark(number, 1 - mark)
        self.ticket = ticket


ALL = (ChangesBusyOnes, RefusedChangesFreeOnes, OnlyTheLowest, CountsEachTask, BusyFirst, BadMarkFirst, RefusesNone, NoneIsNoCall, OthersLoseTheirs)
