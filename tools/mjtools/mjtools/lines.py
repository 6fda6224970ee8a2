"""Lines of a large text by the word that they begin with, a piece of the file at a time.

A trace of a million steps has eleven million lines, so none is a Python object: where lines begin and which word they
begin with are numpy arrays over a piece of the file, and the numbers of all lines of one kind are read by one call.
"""

import warnings

import numpy as np

from .errors import TraceError

PIECE = 1 << 20
"""Bytes of a piece: as many as a processor's near memory holds. No line of a trace is longer."""

LARGEST = 2**63 - 1
"""What numpy reads where a number is too large for 64 bits."""


class Piece:
    """Whole lines of a file. `first` is the number of its first line from 1, `offset` the place of its first byte."""

    def __init__(self, data, first, offset):
        self.first, self.offset = first, offset
        self._bytes = np.frombuffer(data + bytes(8), np.uint8)
        edges = np.flatnonzero(self._bytes == ord("\n"))
        edges += 1
        self.starts = np.empty_like(edges)
        self.starts[0], self.starts[1:] = 0, edges[:-1]
        self._ends = edges
        eight = np.ndarray((len(data),), "<u8", self._bytes, strides=(1,))
        self._words = eight[self.starts]

    def __len__(self):
        return len(self.starts)

    def named(self, name):
        """Which lines begin with the word `name` (bytes) and a space: their places in the piece, ascending."""
        head = (name + b" ")[:8]
        mask = np.uint64((1 << 8 * len(head)) - 1)
        found = np.flatnonzero((self._words & mask) == np.uint64(int.from_bytes(head, "little")))
        rest = (name + b" ")[8:]
        for place, byte in enumerate(rest, 8):
            found = found[self._bytes[self.starts[found] + place] == byte]
        return found

    def text(self, lines, skip):
        """The bytes of these lines with their line feeds, each without its first `skip` bytes."""
        starts = self.starts[lines] + skip
        lengths = self._ends[lines] - starts
        ends = np.cumsum(lengths)
        if not ends.size:
            return b""
        shift = starts - (ends - lengths)
        return self._bytes[np.arange(ends[-1]) + np.repeat(shift, lengths)].tobytes()

    def line(self, place):
        """The line at this place, without its line feed."""
        return self._bytes[self.starts[place] : self._ends[place] - 1].tobytes()


def pieces(path):
    """Yields the file's pieces in order. A last line without a line feed, or one longer than a piece, is refused."""
    with open(path, "rb") as file:
        rest, first, offset = b"", 1, 0
        while block := file.read(PIECE - len(rest)):
            data = rest + block
            whole = data.rfind(b"\n") + 1
            if whole:
                piece = Piece(data[:whole], first, offset)
                yield piece
                first, offset = first + len(piece), offset + whole
            elif len(data) == PIECE:
                raise TraceError(f"{path}:{first}: no line of a trace is so long")
            rest = data[whole:]
        if rest:
            raise TraceError(f"{path}:{first}: the file ends within a line: it was cut off, or is no trace")


def integers(text):
    """All integers of a text in which they are parted by spaces and line feeds, as int64; None where it has others.

    A number past 64 bits is given as LARGEST, whatever its sign.
    """
    if not text:
        return np.empty(0, np.int64)
    with warnings.catch_warnings():
        warnings.simplefilter("error", DeprecationWarning)
        try:
            return np.fromstring(text, np.int64, sep=" ")
        except (ValueError, DeprecationWarning):
            return None


def large_integers(text):
    """As `integers`, but of any size: an object array of Python's integers. None where the text has others."""
    numbers = integers(text)
    if numbers is None or not (numbers == LARGEST).any():
        return None if numbers is None else numbers.astype(object)
    return np.array([int(word) for word in text.split()], object)
