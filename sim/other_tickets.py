"""Dispatchers that are wrong in one point each of enquiries, commits and tickets (9/13): to see that a test tells each of them from the rule."""

from sim.dispatcher import Dispatcher
from sim.entries import Refused


class EnquiryCounts(Dispatcher):
    """An enquiry raises the ticket."""

    def enquire(self, now, released):
        enquiry = super().enquire(now, released)
        self._count_ticket()
        return enquiry


class RefusedCommitCounts(Dispatcher):
    """A refused commit raises the ticket."""

    def commit(self, ticket, now, released):
        try:
            return super().commit(ticket, now, released)
        except Refused:
            self._count_ticket()
            raise


class MarkDoesNotCount(Dispatcher):
    """A mark call leaves the ticket."""

    def _change_marks(self, numbers, mark):
        ticket = self.ticket
        super()._change_marks(numbers, mark)
        self.ticket = ticket


class OldCallDoesNotCount(Dispatcher):
    """The old call leaves the ticket, and a commit raises it."""

    def instant(self, now, released):
        ticket = self.ticket
        answer = super().instant(now, released)
        self.ticket = ticket
        return answer

    def commit(self, ticket, now, released):
        answer = super().commit(ticket, now, released)
        self._count_ticket()
        return answer


class OldTicketServed(Dispatcher):
    """A commit with an old ticket is served."""

    def _check_ticket(self, ticket):
        if ticket > self.ticket:
            raise Refused(20)


class EnquiryKeepsItsState(Dispatcher):
    """An enquiry leaves the state that it shows."""

    def enquire(self, now, released):
        enquiry = super().enquire(now, released)
        self.__dict__.update(enquiry.after.__dict__, ticket=self.ticket)
        return enquiry


class UnknownTaskFirst(Dispatcher):
    """20 is looked for after 16."""

    def commit(self, ticket, now, released):
        if any(released >> number & 1 for number in range(32) if number not in self.table):
            raise Refused(16)
        return super().commit(ticket, now, released)


class TicketLast(Dispatcher):
    """20 is looked for after all that refuses an instant."""

    def commit(self, ticket, now, released):
        self._check_instant(now, released)
        return super().commit(ticket, now, released)


class TicketOfTheNext(Dispatcher):
    """An enquiry gives the ticket that there would be after it."""

    def enquire(self, now, released):
        enquiry = super().enquire(now, released)
        return enquiry._replace(ticket=enquiry.after.ticket)


ALL = (EnquiryCounts, RefusedCommitCounts, MarkDoesNotCount, OldCallDoesNotCount, OldTicketServed, EnquiryKeepsItsState, UnknownTaskFirst,
       TicketLast, TicketOfTheNext)
