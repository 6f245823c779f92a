"""Arguments that several commands take."""


def plan(parser):
    parser.add_argument("plan", metavar="PLAN", help="a plan file, - for standard input")


def stored(parser):
    parser.add_argument("--record", metavar="RECORD", help="the run of a stored record, with the tasks of PLAN; its releases are passed over")


def check_stored(parser, given):
    """Only one file can be standard input."""
    if given.plan == given.record == "-":
        parser.error("one of the two can be standard input")
