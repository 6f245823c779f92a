"""write a plan's input, as bytes: what the programs and the library read

Whether the entries make an admissible input is for whoever reads them to say; only a line that is no entry is refused here. Of a plan with
tasks and spacings alone it is what a dispatcher opens from.
"""

from tools import arguments as common
from tools import output
from tools.output import Rejected
from tools.plan import read_plan


def arguments(parser):
    common.plan(parser)


def main(given):
    plan = read_plan(given.plan)
    if plan.unreadable():
        raise Rejected(plan.told())
    return output.write(plan.data)
