"""The program behind ./gateway: it is found by its path, and the packages beside it are not. What it does is in tools/front.py."""

import signal

signal.signal(signal.SIGINT, signal.SIG_DFL)  # an interrupted command ends without a traceback; before anything else is loaded

import os
import sys

sys.unraisablehook = lambda _: None  # what fails while memory runs out is told once, below
sys.path[0] = os.path.dirname(os.path.dirname(os.path.abspath(__file__)))


OUT_OF_MEMORY = b"gateway: out of memory\n"


def main(words):
    """Front's status. Where memory runs out there may be none to end in order: what is written by then is written, and nothing else is done."""
    try:
        from tools import front
        return front.main(words)
    except ImportError as error:  # a library that cannot be mapped is told so
        os.write(2, f"gateway: {error}\n".encode())
        return 2
    except MemoryError:
        try:
            os.write(2, OUT_OF_MEMORY)
        finally:
            os._exit(2)


if __name__ == "__main__":
    try:
        status = main(sys.argv[1:])
    except OSError:  # of standard error
        status = 2
    sys.exit(status)
