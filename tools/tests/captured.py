"""./gateway in the tests' own process, with the simulator in the place of the proved programs; tools/tests/house.py has it as a program."""

import contextlib
import io
from unittest import mock

from sim.entries import Refused
from sim.files import record
from sim.lines import file_lines, refusal_line, text
from sim.reading import read_lines
from sim.waveform import dump
from tools import front
from tools.output import Trouble


# those that write bytes, and none where their input is refused
WRITTEN = {"recorder": record, "waveform": dump}


def simulated(name, pieces):
    """What a program prints, by the simulator."""
    data = b"".join(pieces)
    if name in WRITTEN:
        try:
            yield WRITTEN[name](data)
        except Refused as refused:
            raise Trouble(f"{name}: the input is refused: {refusal_line(refused)}") from None
    else:
        yield text((file_lines if name == "gateway" else read_lines)(data)).encode()


def gateway(*words, programs=simulated):
    """The status, the bytes written and the message."""
    output, message = io.TextIOWrapper(io.BytesIO(), encoding="utf-8", write_through=True), io.StringIO()
    with contextlib.redirect_stdout(output), contextlib.redirect_stderr(message), mock.patch("tools.programs.output_of", programs):
        status = front.main(list(words))
    return status, output.buffer.getvalue(), message.getvalue()
