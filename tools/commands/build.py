"""prove and build the programs, so that every other command runs at once

Each command builds what it needs; this does it beforehand, for a checkout that is then not written any more.
"""

from tools import output
from tools.programs import NAMES, proved


def arguments(parser):
    del parser


def main(given):
    del given
    for name in NAMES:
        proved(name)
    return output.write_text(f"{', '.join(NAMES)}: proved and built\n")
