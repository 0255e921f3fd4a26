"""Tests of the module: its declarations against the header, its words against docs/USING.md, its numbers, and what it hands over. At the repository's
root, once the shared library is built: python3 bindings/python/test_field_axes.py
"""

import ctypes
import pathlib
import re
import unittest
from fractions import Fraction

import field_axes
from field_axes import Refused

ROOT = pathlib.Path(__file__).resolve().parent.parent.parent
HEADER = (ROOT / "bindings/c/field_axes.h").read_text(encoding="utf-8")
SMALL = "P\t2\t1\t0\nS\t1\t0\t0\nS\t5\t1\t0\nS\t1\t5\t5\nE\t3\n"

TYPES = {
    "size_t": ctypes.c_size_t,
    "uint64_t": ctypes.c_uint64,
    "int64_t": ctypes.c_int64,
    "uint32_t": ctypes.c_uint32,
    "uint8_t": ctypes.c_uint8,
}


def declared(parameter):
    """The type of a parameter in C."""
    name = next(word for word in re.findall(r"\w+", parameter) if word != "const")
    kind = TYPES[name]
    return ctypes.POINTER(kind) if "*" in parameter else kind


class Module(unittest.TestCase):
    def refused(self, number, attempt, line=0):
        with self.assertRaises(Refused) as raised:
            attempt()
        self.assertEqual((raised.exception.number, raised.exception.line), (number, line))

    def test_declarations(self):
        functions = re.findall(r"^int64_t field_axes_(\w+)\(([^)]*)\);", HEADER, re.MULTILINE)
        in_c = {name: [declared(parameter) for parameter in parameters.split(",")] for name, parameters in functions}
        self.assertEqual(field_axes.PARAMETERS, in_c)
        for name, most in re.findall(r"#define FIELD_AXES_(MOST_\w+) (\d+)", HEADER):
            self.assertGreaterEqual(getattr(field_axes, name), int(most), name)

    def test_words(self):
        using = (ROOT / "docs/USING.md").read_text(encoding="utf-8")
        for number, words in enumerate(field_axes.WORDS, 1):
            self.assertIn(f"| {number} | {words} |", using)

    def test_example_of_document_01(self):
        dilutions, counts = [1, 5, 1], [0, 0, 1, 0, 5, 5]
        table = field_axes.table(2, dilutions, counts)
        self.assertEqual((table.e, table.sums, table.entries), (0, ((50, 25), (25, 50)), ((50, 25), (25, 50))))
        self.assertEqual(field_axes.job(2, 1, 0, dilutions, counts), SMALL)
        report = field_axes.report(SMALL)
        self.assertEqual(report.text, (ROOT / "examples/small.report").read_text(encoding="ascii"))
        first = report.axes[0]
        self.assertEqual((first.number, report.spread(first), report.spread_error(first)), (2, 74, Fraction(7172, 1024)))
        self.assertEqual(report.variance(first), Fraction(74, 6))
        solution = field_axes.solve(2, [50, 25, 25, 50], 1, 0)
        self.assertEqual((solution.outcome, solution.sweeps, solution.turns), ("spent", 1, 1))
        self.assertEqual(set(solution.axes), set(report.axes))

    def test_stored_examples(self):
        for job in sorted((ROOT / "examples").glob("*.job")):
            stored = job.with_suffix(".report")
            if stored.exists():
                self.assertEqual(field_axes.report(job.read_bytes()).text, stored.read_text(encoding="ascii"), job)
            elif job.stem != "beyond_limit":
                with self.assertRaises(Refused) as raised:
                    field_axes.report(job.read_bytes())
                number, line = raised.exception.number, raised.exception.line
                self.assertEqual(f"X\t{number}\t{line}\n", job.with_suffix(".refused").read_text(encoding="ascii"), job)
        for calls in ["small", "refused", "benches", "samples", "tournament"]:
            text = (ROOT / f"examples/{calls}.calls").read_bytes()
            self.assertEqual(field_axes.calls(text), (ROOT / f"examples/{calls}.answers").read_text(encoding="ascii"))
        books = sorted((ROOT / "examples").glob("*.book"))
        self.assertGreater(len(books), 10)
        for book in books:
            # The program reads 65,536 bytes, and the function all that there are.
            if book.stat().st_size <= 65_536:
                self.assertEqual(field_axes.summary(book.read_bytes()), book.with_suffix(".summary").read_text(encoding="ascii"), book)

    def test_summary(self):
        """The samples that remain have the table of their job; a refused call changes nothing."""
        samples = [(3, 14, 15), (9, 26, 5), (35, 8, 9), (7, 93, 23)]
        text = "N\t2\n" + "".join(f"A\t{dilution}\t{one}\t{other}\n" for dilution, one, other in samples)
        printed = field_axes.summary(text + "K\t5\nK\t3\nT\n")
        remain = samples[:2] + samples[3:]
        table = field_axes.table(2, [sample[0] for sample in remain], [count for sample in remain for count in sample[1:]])
        rows = "".join(f"S\t{i}\t{one}\t{other}\n" for i, (one, other) in enumerate(table.sums, 1))
        self.assertEqual(printed, f"N\nA\t1\nA\t2\nA\t3\nA\t4\nX\t14\nK\t3\nT\t2\t3\t{table.e}\n{rows}")
        self.assertEqual(field_axes.summary(text + "Z\n"), field_axes.summary(text + "B\n"))
        self.refused(12, lambda: field_axes.summary(text, room=17))
        self.assertEqual(len(field_axes.summary(text, room=18)), 18)

    def test_pool(self):
        """The report of a job with the samples of both, and the first one's limit and tolerance."""
        first, other = (2, 3, 7, [1, 5, 1], [0, 0, 1, 0, 5, 5]), (2, 16, 0, [2, 100], [9, 8, 65_535, 1])
        joined = field_axes.job(2, 3, 7, first[3] + other[3], first[4] + other[4])
        self.assertEqual(field_axes.pool(first, other), field_axes.report(joined))
        self.refused(13, lambda: field_axes.pool(first, (3, *other[1:])))
        self.refused(2, lambda: field_axes.pool(first, (*other[:3], [2, 2**32 + 1], other[4])))
        self.refused(6, lambda: field_axes.pool((*first[:4], first[4][:5]), other))
        self.refused(3, lambda: field_axes.pool(first, (2, 16, 0, [1] * 254, [1, 1] * 254)))
        self.refused(12, lambda: field_axes.pool(first, other, room=20))

    def test_season(self):
        """The figures are those of the reports of the jobs, one by one."""
        jobs = [job.read_bytes() for job in sorted((ROOT / "examples").glob("*.job"))]
        reports, refused = [], [0] * 4
        for number, job in enumerate(jobs, 1):
            try:
                reports.append((number, field_axes.report(job)))
            except Refused as why:
                refused[why.number - 1] += 1
        season = field_axes.season(jobs)
        outcomes = [report.outcome for _, report in reports]
        self.assertEqual((season.settled, season.still, season.spent), tuple(outcomes.count(word) for word in field_axes.OUTCOMES))
        self.assertEqual((season.jobs, season.refused), (len(jobs), tuple(refused)))
        self.assertEqual(season.turns, sum(report.turns for _, report in reports))
        errors = [(-axis.error, number, axis.number) for number, report in reports for axis in report.axes]
        error, job, axis = min(errors)
        self.assertEqual((season.largest_error, season.job, season.axis), (-error, job, axis))
        self.assertEqual(field_axes.season([]).text, "\t".join(["0"] * 12) + "\n")
        self.refused(16, lambda: field_axes.season([""] * 10_001))
        self.refused(12, lambda: field_axes.season([], room=23))

    def test_panels(self):
        self.assertEqual(field_axes.panels(2), (ROOT / "examples/size_2.listed").read_text(encoding="ascii"))
        for position in range(1, 126):
            self.assertEqual(field_axes.panel_position(2, field_axes.panel(2, position)), position)

    def test_numbers_beyond_their_type(self):
        """They are refused as what is out of range, and never cut to what fits."""
        for count in (2**32, 2**32 + 1, -1, 2**70):
            self.refused(2, lambda: field_axes.table(2, [1, 1], [0, 0, 0, count]))
            self.refused(2, lambda: field_axes.table(2, [1, count], [0, 0, 0, 0]))
            self.refused(2, lambda: field_axes.job(2, count, 0, [1, 1], [0, 0, 0, 0]))
            self.refused(2, lambda: field_axes.job(2, 16, count, [1, 1], [0, 0, 0, 0]))
        for n in (-1, 2**64 + 2):
            self.refused(2, lambda: field_axes.table(n, [1, 1], [0, 0, 0, 0]))
            self.refused(5, lambda: field_axes.solve(n, [0, 0, 0, 0], 16, 0))
        self.refused(8, lambda: field_axes.solve(2, [2**64, 0, 0, 0], 16, 0))
        self.refused(2, lambda: field_axes.panels(2**64 + 1))
        self.refused(2, lambda: field_axes.panel(1, 2**64 + 1))
        for number in (1.0, "1", None):
            with self.assertRaises(TypeError):
                field_axes.table(2, [1, 1], [0, 0, 0, number])

    def test_empty(self):
        self.refused(1, lambda: field_axes.report(""), line=1)
        self.refused(3, lambda: field_axes.job(2, 16, 0, [], []))
        self.refused(6, lambda: field_axes.solve(2, [], 16, 0))
        self.assertEqual(field_axes.calls(""), "")
        self.assertEqual(field_axes.summary(""), "")

    def test_room(self):
        length = len(field_axes.report(SMALL).text)
        self.assertEqual(len(field_axes.report(SMALL, room=length).text), length)
        for room in (0, 1, length - 1):
            self.refused(12, lambda: field_axes.report(SMALL, room=room))
        self.refused(12, lambda: field_axes.panel(1, 1, room=2))
        self.refused(12, lambda: field_axes.solve(2, [0, 0, 0, 0], 1, 0, room=10))
        with self.assertRaises(ValueError):
            field_axes.report(SMALL, room=-1)


if __name__ == "__main__":
    unittest.main()
