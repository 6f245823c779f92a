"""Histories of runs: of a file, of a list of calls, and of a session's bytes."""

from sim.dispatcher import Dispatcher, members
from sim.entries import Refused, entries, parts_of
from sim.files import read_file, released_sets, run
from sim.sessions import CALL_FIELDS, MARK, MARKS, instant_of, make_call
from sim.tests.history import History


def file_history(data, kind=Dispatcher):
    """The history of a file's run; the kind of dispatcher is another one where a run by other rules is wanted."""
    table, releases = read_file(data)
    history = History(table)
    sets = dict(released_sets(releases))
    for time, answer in run(table, releases, kind):
        history.instant(time, sets.get(time, 0), answer)
    return history


def list_history(opening, calls):
    """The history of the served calls of a list."""
    dispatcher = Dispatcher.open(opening)
    history = History(dispatcher.table)
    for call in calls:
        try:
            answer = make_call(dispatcher, call)
        except Refused:
            continue
        if instant_of(call) is not None:
            history.instant(*instant_of(call), answer)
        elif call[0] == MARK:
            history.mark(*call[1:])
        elif call[0] == MARKS:
            tasks, mark = call[1:]
            for number in members(tasks):
                history.mark(number, mark)
    return history


def session_calls(data):
    """The opening bytes and the calls of a session whose entries are whole."""
    opening, calls = parts_of(data)
    return opening, [(kind, *fields) for _, kind, fields in entries(calls, kinds=CALL_FIELDS, formats=CALL_FIELDS)]
