"""Field Axes for Python programs: the functions of the proved static library, by ctypes, with the standard library alone.

At the repository's root the shared library is built from the static one, which `.ci/staticlib` writes, by

    cc -shared -o target/libfield_axes.so -Wl,--whole-archive target/staticlib/libfield_axes.a -Wl,--no-whole-archive

It is looked for there, or where the environment's FIELD_AXES_LIBRARY says. What is proved is the library; this module, which hands numbers over and
reads answers, is not. Numbers are int, and what stands for a fraction is a Fraction: nothing is rounded. A number that is too large for the
library's own type, or negative where that has none, is handed over as the largest of the type, which is beyond every range. A refusal is raised as
Refused. `room` is how many elements are lent for the answer; as it stands there is always enough.
"""

import ctypes
import itertools
import operator
import os
import pathlib
from dataclasses import dataclass
from fractions import Fraction

WORDS = (
    "a line is malformed or missing",
    "a number is out of its range",
    "there are fewer than 2 or more than 256 samples",
    "the number on line E is not that of the samples, or something follows that line",
    "a matrix has fewer than 2 or more than 8 channels",
    "there are not n numbers to each of the n rows, or not n counts to each sample",
    "the matrix is not symmetric",
    "an entry of the matrix is beyond ±2,097,152",
    "there is no such pair of channels p < q, or no such axis",
    "no matrix is loaded",
    "of the 448 turns that a matrix has, too few are left",
    "the buffer is too short for what is written",
    "the two jobs differ in their number of channels",
    "there is no sample of that number",
    "the bench is not one of 1 to 4",
    "a season has at most 10,000 jobs",
)

MOST_NUMBERS = 83
MOST_TABLE_NUMBERS = 129
MOST_JOB_BYTES = 13_845
MOST_REPORT_BYTES = 2048
MOST_ANSWER_BYTES = 514
MOST_SUMMARY_BYTES = 1323
MOST_SEASON_BYTES = 84
MOST_PANELS_BYTES = 92_706

OUTCOMES = ("settled", "still", "spent")

# Units of a matrix entry, and of a direction's number.
UNITS = 1024
ONE = 1 << 30


class Refused(Exception):
    """A refusal: its number, and of a job text the line, from 1; else 0."""

    def __init__(self, number, line=0):
        self.number = number
        self.line = line
        words = WORDS[number - 1] if 1 <= number <= len(WORDS) else "no refusal has this number"
        place = f"line {line}: " if line else ""
        super().__init__(f"{place}refused {number}: {words}")


@dataclass(frozen=True)
class Axis:
    """An axis: its number, its kept entry and error in units of 1/1024, and its row, of which 2^30 stands for 1."""

    number: int
    entry: int
    error: int
    row: tuple

    def direction(self):
        return tuple(Fraction(number, ONE) for number in self.row)


@dataclass(frozen=True)
class Solution:
    """What a run on a matrix ends with; its axes are in channel order."""

    outcome: str
    sweeps: int
    turns: int
    axes: tuple


@dataclass(frozen=True)
class Table:
    """The shift e, the exact sums S and the entries rnd(S / 2^e), both as n rows."""

    e: int
    sums: tuple
    entries: tuple


@dataclass(frozen=True)
class Report:
    """A report: its text, and its numbers. The axes come as the report has them, largest entry first."""

    text: str
    channels: int
    samples: int
    e: int
    sweeps: int
    turns: int
    outcome: str
    axes: tuple

    def variance(self, axis):
        """The variance along an axis: its entry × 2^e / (1024 × k × (k − 1))."""
        return self._per_sample(axis.entry)

    def variance_error(self, axis):
        return self._per_sample(axis.error)

    def spread(self, axis):
        """The entry in the exact table's own unit: × 2^e / 1024."""
        return Fraction(axis.entry << self.e, UNITS)

    def spread_error(self, axis):
        return Fraction(axis.error << self.e, UNITS)

    def is_determined(self, axis):
        """Whether the error is less than the figure; a figure without any error is exact."""
        return axis.error == 0 or axis.error < axis.entry

    def _per_sample(self, units):
        return Fraction(units << self.e, UNITS * self.samples * (self.samples - 1))


@dataclass(frozen=True)
class Season:
    """The figures of a season: jobs, outcomes, refusals under 1 to 4, turns, and the largest error with the first job and the lowest axis that
    has it, or 0 for these three where no job was accepted."""

    text: str
    jobs: int
    settled: int
    still: int
    spent: int
    refused: tuple
    turns: int
    largest_error: int
    job: int
    axis: int


def solve(n, numbers, limit, tolerance, room=MOST_NUMBERS):
    """The run on a symmetric matrix of n×n numbers, row after row. Refused 5, 6, 8, 7, 2, 12."""
    out = _room(ctypes.c_int64, room)
    matrix = _array(ctypes.c_int64, numbers)
    count = _library().field_axes_solve(_size(n), *matrix, _word(limit), _word(tolerance), out, room)
    head, rest = out[:3], out[3 : _answer(count)]
    axes = [rest[at : at + n + 2] for at in range(0, len(rest), n + 2)]
    axes = tuple(Axis(i, axis[0], axis[1], tuple(axis[2:])) for i, axis in enumerate(axes, 1))
    return Solution(OUTCOMES[head[0]], head[1], head[2], axes)


def table(n, dilutions, counts, room=MOST_TABLE_NUMBERS):
    """The table of samples: a dilution each, and n counts each, sample after sample. Refused 2, 6, 3, 12."""
    out = _room(ctypes.c_int64, room)
    count = _library().field_axes_table(_size(n), *_samples(dilutions, counts), out, room)
    numbers = out[1 : _answer(count)]
    rows = [tuple(numbers[at : at + n]) for at in range(0, len(numbers), n)]
    return Table(out[0], tuple(rows[:n]), tuple(rows[n:]))


def job(n, limit, tolerance, dilutions, counts, room=MOST_JOB_BYTES):
    """The job text of samples. Refused 2, 6, 3, 12."""
    out = _room(ctypes.c_uint8, room)
    samples = _samples(dilutions, counts)
    return _text(out, _library().field_axes_job(_size(n), _word(limit), _word(tolerance), *samples, out, room))


def report(text, room=MOST_REPORT_BYTES):
    """The report of a job text, str or bytes. Refused 1 to 4 with the line, 12."""
    out = _room(ctypes.c_uint8, room)
    line = ctypes.c_size_t(0)
    length = _library().field_axes_report(*_bytes(text), out, room, ctypes.byref(line))
    return _read_report(_text(out, length, line.value))


def pool(first, other, room=MOST_REPORT_BYTES):
    """The report of two jobs pooled, each n, limit, tolerance, dilutions and counts, as for `job`. Refused 13, 2, 6, 3, 12."""
    out = _room(ctypes.c_uint8, room)
    jobs = []
    for n, limit, tolerance, dilutions, counts in (first, other):
        jobs += [_size(n), _word(limit), _word(tolerance), *_samples(dilutions, counts)]
    return _read_report(_text(out, _library().field_axes_pool(*jobs, out, room)))


def calls(text, room=None):
    """The answers to a text of calls, played on a fresh record. Refused 12."""
    data, length = _bytes(text)
    room = (bytes(data).count(b"\n") + 1) * MOST_ANSWER_BYTES if room is None else room
    out = _room(ctypes.c_uint8, room)
    return _text(out, _library().field_axes_calls(data, length, out, room))


def summary(text, room=None):
    """What a text of calls on a book of samples prints, played where no book is begun. Refused 12."""
    data, length = _bytes(text)
    room = (bytes(data).count(b"\n") + 1) * MOST_SUMMARY_BYTES if room is None else room
    out = _room(ctypes.c_uint8, room)
    return _text(out, _library().field_axes_summary(data, length, out, room))


def season(texts, room=MOST_SEASON_BYTES):
    """The figures of job texts, each str or bytes. Refused 16, 12."""
    texts = [text.encode("utf-8") if isinstance(text, str) else bytes(text) for text in texts]
    ends = itertools.accumulate(len(text) for text in texts)
    out = _room(ctypes.c_uint8, room)
    length = _library().field_axes_season(*_bytes(b"".join(texts)), *_array(ctypes.c_size_t, ends), out, room)
    text = _text(out, length)
    jobs, settled, still, spent, *refused, turns, error, job, axis = [int(field) for field in text.split()]
    return Season(text, jobs, settled, still, spent, tuple(refused), turns, error, job, axis)


def panels(b, room=MOST_PANELS_BYTES):
    """All panels of size b and how their runs end, a line each. Refused 2, 12."""
    out = _room(ctypes.c_uint8, room)
    return _text(out, _library().field_axes_panels(_long(b), out, room))


def panel(b, position, room=3):
    """The panel at a position, from 1: a_11, a_12, a_22. Refused 2, 12."""
    out = _room(ctypes.c_int64, room)
    return tuple(out[: _answer(_library().field_axes_panel(_long(b), _long(position), out, room))])


def panel_position(b, entries):
    """The position, from 1, of the panel of entries a_11, a_12, a_22. Refused 2."""
    a11, a12, a22 = entries
    return _answer(_library().field_axes_panel_position(_long(b), _long(a11), _long(a12), _long(a22)))


def _read_report(text):
    (_, n, k, e, sweeps, turns, outcome), *lines = [line.split("\t") for line in text.splitlines()]
    numbers = [[int(field) for field in line[1:]] for line in lines]
    axes = tuple(Axis(i, entry, error, tuple(row)) for i, entry, error, *row in numbers)
    return Report(text, int(n), int(k), int(e), int(sweeps), int(turns), outcome, axes)


def _answer(count, line=0):
    if count < 0:
        raise Refused(-count, line)
    return count


def _text(out, length, line=0):
    return bytes(out[: _answer(length, line)]).decode("ascii")


def _room(kind, room):
    """A buffer of so many elements; of one at least, so that there is a place to point to."""
    if room < 0:
        raise ValueError("room is negative")
    return (kind * max(room, 1))()


def _array(kind, numbers):
    """A pointer and a length."""
    numbers = [_within(kind, number) for number in numbers]
    return (kind * max(len(numbers), 1))(*numbers), len(numbers)


def _samples(dilutions, counts):
    return _array(ctypes.c_uint32, dilutions) + _array(ctypes.c_uint32, counts)


def _bytes(text):
    data = text.encode("utf-8") if isinstance(text, str) else bytes(text)
    return (ctypes.c_uint8 * max(len(data), 1)).from_buffer_copy(data or b"\0"), len(data)


def _within(kind, number):
    """The number if its type has it, else the largest of the type. What is no whole number is a TypeError."""
    number = operator.index(number)
    return number if kind(number).value == number else _LARGEST[kind]


_LARGEST = {
    ctypes.c_int64: 2**63 - 1,
    ctypes.c_uint64: 2**64 - 1,
    ctypes.c_uint32: 2**32 - 1,
    ctypes.c_size_t: 2 ** (8 * ctypes.sizeof(ctypes.c_size_t)) - 1,
}


def _long(number):
    return _within(ctypes.c_int64, number)


def _word(number):
    return _within(ctypes.c_uint64, number)


def _size(number):
    return _within(ctypes.c_size_t, number)


_NUMBERS = [ctypes.POINTER(ctypes.c_int64), ctypes.c_size_t]
_READINGS = [ctypes.POINTER(ctypes.c_uint32), ctypes.c_size_t]
_BYTES = [ctypes.POINTER(ctypes.c_uint8), ctypes.c_size_t]

# The parameters of each function, those of bindings/c/field_axes.h; each answers an int64_t.
PARAMETERS = {
    "solve": [ctypes.c_size_t, *_NUMBERS, ctypes.c_uint64, ctypes.c_uint64, *_NUMBERS],
    "table": [ctypes.c_size_t, *_READINGS, *_READINGS, *_NUMBERS],
    "job": [ctypes.c_size_t, ctypes.c_uint64, ctypes.c_uint64, *_READINGS, *_READINGS, *_BYTES],
    "report": [*_BYTES, *_BYTES, ctypes.POINTER(ctypes.c_size_t)],
    "pool": [ctypes.c_size_t, ctypes.c_uint64, ctypes.c_uint64, *_READINGS, *_READINGS] * 2 + _BYTES,
    "calls": [*_BYTES, *_BYTES],
    "summary": [*_BYTES, *_BYTES],
    "season": [*_BYTES, ctypes.POINTER(ctypes.c_size_t), ctypes.c_size_t, *_BYTES],
    "panels": [ctypes.c_int64, *_BYTES],
    "panel": [ctypes.c_int64, ctypes.c_int64, *_NUMBERS],
    "panel_position": [ctypes.c_int64] * 4,
}

_loaded = None


def _library():
    """The shared library, loaded once."""
    global _loaded
    if _loaded is None:
        folder = pathlib.Path(__file__).resolve().parent
        file = os.environ.get("FIELD_AXES_LIBRARY") or folder.parent.parent / "target" / "libfield_axes.so"
        library = ctypes.CDLL(str(file))
        for name, parameters in PARAMETERS.items():
            function = getattr(library, "field_axes_" + name)
            function.argtypes = parameters
            function.restype = ctypes.c_int64
        _loaded = library
    return _loaded
