"""Files as the tools read them: by pieces, so that a read that fails in the middle is an error and not the end, and no more than is needed."""

import io
import os

PIECE = 1 << 16


class _Raw(io.RawIOBase):
    """A descriptor whose failed reads are errors, also of one that does not wait."""

    def __init__(self, descriptor, path):
        super().__init__()
        self.descriptor, self.path = descriptor, path

    def readable(self):
        return True

    def readinto(self, buffer):
        try:
            piece = os.read(self.descriptor, len(buffer))
        except OSError as error:
            raise OSError(error.errno, error.strerror, self.path) from None
        buffer[:len(piece)] = piece
        return len(piece)

    def close(self):
        if not self.closed and self.path != "-":
            os.close(self.descriptor)
        super().close()


def opened(path):
    """A file's bytes as a stream, - for standard input."""
    return _Raw(0 if path == "-" else os.open(path, os.O_RDONLY), path)


def lines_of(path, longest):
    """A text file's lines; of one with more than so many letters only the front, which is longer than that.

    The mark that some editors put in front of a text is none of it.
    """
    with io.TextIOWrapper(io.BufferedReader(opened(path), PIECE), encoding="utf-8-sig", errors="replace", newline=None) as text:
        while line := text.readline(longest + 2):
            yield line
            while len(line) > longest + 1 and not line.endswith("\n"):
                line = text.readline(longest + 2)


def pieces_of(path):
    """A file's bytes, piece by piece."""
    with opened(path) as file:
        while piece := file.read(PIECE):
            yield piece


def read_bytes(path):
    return b"".join(pieces_of(path))
