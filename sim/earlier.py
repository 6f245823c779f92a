"""A dispatcher by an earlier rule, for records that were stored before a release could wait (4/13).

Equal priorities (6/13) and spacings (8/13) came after that, so that no stored record of this rule has any; where priorities differ and no task has a
spacing, all else is as it was.
"""

from sim.dispatcher import Dispatcher, members


class NothingWaits(Dispatcher):
    """Each release of a task that has a pending job is skipped."""

    def _step_c(self, now, released, answer):
        skipped = sum(1 << number for number in members(released) if number in self.pending)
        taken = super()._step_c(now, released & ~skipped, answer)
        answer.skipped |= skipped
        return taken
