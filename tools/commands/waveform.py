"""write a plan's waveforms, a value change dump for a viewer

Four waves: the task on the processor, the tasks that the copy engine copies in and out, and the processor's half; 255 is nobody.
docs/WAVEFORM.md says how to look at them. A refused plan writes none.
"""

from tools import arguments as common
from tools import output, programs, refusals
from tools.output import Rejected, Trouble
from tools.plan import read_plan

REFUSED = "waveform: the input is refused: "


def arguments(parser):
    common.plan(parser)


def main(given):
    plan = read_plan(given.plan)
    if plan.unreadable():
        raise Rejected(plan.told())
    try:
        for piece in programs.output_of("waveform", [plan.data]):
            status = output.write(piece)
            if status:
                return status
    except Trouble as trouble:
        if not str(trouble).startswith(REFUSED):
            raise
        raise Rejected(refusals.of_plan(plan, refusals.line_of(str(trouble)[len(REFUSED):]))) from None
    return output.write(b"")
