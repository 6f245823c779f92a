"""What the tools write: results on standard output, words on standard error, and a status. No trouble with either ends in a traceback, and
nothing that is wrong with standard error changes a status.

Status 0: done. 1: what was handed in is refused (`Rejected`). 2: trouble with files, memory or the build (`Trouble`, OSError, MemoryError).
"""

import os
import sys

REJECTED = 1
TROUBLE = 2

MOST_SHOWN = 60  # letters of a text that stands in a message


class Rejected(Exception):
    """What was handed in is refused; its text is one line or more, whole as they are said."""


class Trouble(Exception):
    """What keeps a command from doing its work, but for what it was handed."""


def shown(text, most=MOST_SHOWN):
    """A text of somebody else's as it can stand in a line: what is not printable is escaped, and it is cut where it is long."""
    plain = text if len(text) <= most else text[:most]
    plain = "".join(letter if letter.isprintable() else letter.encode("unicode_escape", "replace").decode() for letter in plain)
    return plain if len(text) <= most else f"{plain}.. ({len(text)} letters)"


def named(path):
    """A file's name in a message, - said in words."""
    return "standard input" if path == "-" else shown(os.fsencode(path).decode(errors="replace"), 4096)


def tell(text):
    """Say something on standard error. Where that is closed or full nobody hears it, and nothing else changes."""
    if sys.stderr is None:
        return
    try:
        sys.stderr.write(text)
        sys.stderr.flush()
    except OSError:
        give_up(2)


def say(name, error):
    """One line on standard error about a file."""
    tell(f"{name}: {getattr(error, 'strerror', None) or error}\n")


def give_up(descriptor):
    """Leave a stream alone: what is still in its buffer is written nowhere when Python ends."""
    try:
        nowhere = os.open(os.devnull, os.O_WRONLY)
        os.dup2(nowhere, descriptor)
    except OSError:
        pass


def hold_streams():
    """Open nothing else in the place of a standard stream that is closed: each gets what its own use fails on, as it would closed."""
    for descriptor, way in ((0, os.O_WRONLY), (1, os.O_RDONLY), (2, os.O_WRONLY)):
        try:
            os.fstat(descriptor)
        except OSError:
            os.open(os.devnull, way)  # the lowest number that is free


def write(data):
    """Write all of some bytes, and answer the status: 0, or TROUBLE where that was not possible.

    A reader that went away needs no message: it wanted no more.
    """
    if sys.stdout is None:
        say("standard output", "it is closed")
        return TROUBLE
    try:
        sys.stdout.buffer.write(data)
        sys.stdout.buffer.flush()
    except BrokenPipeError:
        give_up(1)
        return TROUBLE
    except OSError as error:
        say("standard output", error)
        give_up(1)
        return TROUBLE
    return 0


def write_text(text):
    return write(text.encode())
