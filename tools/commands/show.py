"""print the lines of a stored record

A line for each entry, as ./gateway run prints them; no plan is needed, and nothing is said of whether a run has this record: ./gateway read
does. At an entry that is none, the lines before it are printed and the byte is told.
"""

import json

from sim.entries import Refused, entries
from sim.lines import line
from sim.reading import RECORD_KINDS
from tools import output
from tools.events import as_object
from tools.output import Rejected, named
from tools.refusals import in_words
from tools.stored import read_record


def arguments(parser):
    parser.add_argument("record", metavar="RECORD", help="a file with a record's bytes, - for standard input")
    parser.add_argument("--bytes", action="store_true", help="the place of each entry in front of its line")
    parser.add_argument("--json", action="store_true", help="each entry as a JSON object on a line of its own, with its place and its fields by name")


def shown(given, place, text):
    if given.json:
        return json.dumps({"byte": place, **as_object(text)})
    return f"{place:>8}  {text}" if given.bytes else text


def main(given):
    stored, whole = read_record(given.record)
    lines, wrong = [], None if whole else f"{named(given.record)}: only its first {len(stored)} bytes are shown"
    try:
        for place, kind, fields in entries(stored, kinds=RECORD_KINDS):
            lines.append(shown(given, place, line(kind, fields)))
    except Refused as refused:
        wrong = f"{named(given.record)}: byte {refused.place}: {in_words(refused.number)}"
    status = output.write_text("".join(f"{each}\n" for each in lines))
    if status == 0 and wrong is not None:
        raise Rejected(wrong)
    return status
