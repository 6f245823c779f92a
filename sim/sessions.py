"""Sessions: a dispatcher opened and driven by call entries, with a line or more for each call.

The input is 4 bytes, lowest first, with the length n of the opening bytes; the n opening bytes; then
call entries until the input ends.
"""

from sim.dispatcher import Dispatcher
from sim.entries import Refused, encode, entries, parts_of, two_parts
from sim.files import interval_entry, job_entry
from sim.lines import record_lines, refusal_line

INSTANT = 64
MARK = 65
ENQUIRY = 66
COMMIT = 67
MARKS = 68

CALL_FIELDS = {
    INSTANT: (8, 4),    # time, set
    MARK: (1, 1),       # task, mark
    ENQUIRY: (8, 4),    # time, set
    COMMIT: (8, 8, 4),  # ticket, time, set
    MARKS: (4, 1),      # set, mark
}


def call_entry(kind, *fields):
    return encode(kind, *fields, formats=CALL_FIELDS)


def session_bytes(opening, calls):
    """A session's input from its opening bytes and its calls: the kind of each, and its fields."""
    return two_parts(opening, b"".join(call_entry(*call) for call in calls))


def occurred_lines(answer, letter):
    """What occurs at an instant: the job done (step a) and the interval closed if any, then a line of a letter, the skipped set and the due time."""
    written = b""
    if answer.job_done is not None:
        written += job_entry(answer.job_done)
    if answer.interval is not None:
        written += interval_entry(answer.interval)
    due = "-" if answer.due is None else answer.due
    return record_lines(written) + [f"{letter} {answer.skipped} {due}"]


def answer_lines(answer):
    """A served instant or commit."""
    return occurred_lines(answer, "A")


def enquiry_lines(enquiry):
    """What an instant would do, with the ticket behind it."""
    *lines, last = occurred_lines(enquiry.answer, "E")
    return [*lines, f"{last} {enquiry.ticket}"]


def mark_lines(_):
    return ["M"]


# Of each kind of call the dispatcher's method for it, and the lines of what that answers.
CALLS = {
    INSTANT: ("instant", answer_lines),
    MARK: ("mark", mark_lines),
    ENQUIRY: ("enquire", enquiry_lines),
    COMMIT: ("commit", answer_lines),
    MARKS: ("mark_all", mark_lines),
}


def make_call(dispatcher, call):
    """Make a call: what it answers, None for a served mark, or raise its refusal."""
    kind, *fields = call
    method, _ = CALLS[kind]
    return getattr(dispatcher, method)(*fields)


def instant_of(call):
    """The time and the set that an instant or a commit hands in; None of a call that hands in none."""
    kind, *fields = call
    return tuple(fields[-2:]) if kind in (INSTANT, COMMIT) else None


def call_lines(dispatcher, call):
    _, lines = CALLS[call[0]]
    try:
        return lines(make_call(dispatcher, call))
    except Refused as refused:
        return [f"R {refused.number}"]


def calls_lines(dispatcher, data):
    """Lines of the calls until the input ends, or X at an entry that is cut short or of another kind."""
    lines = []
    try:
        for _, kind, fields in entries(data, kinds=CALL_FIELDS, formats=CALL_FIELDS):
            lines += call_lines(dispatcher, (kind, *fields))
    except Refused:  # only `entries` itself gets here: a refused call has its own line
        lines.append("X")
    return lines


def session_lines(data):
    """What the session program prints for an input."""
    parts = parts_of(data)
    if parts is None:
        return ["X"]  # nothing was opened
    opening, calls = parts
    try:
        dispatcher = Dispatcher.open(opening)
    except Refused as refused:
        return [refusal_line(refused)]
    return ["O"] + calls_lines(dispatcher, calls)
