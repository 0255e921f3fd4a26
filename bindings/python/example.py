"""A CSV file to its axes, with exact figures; then each other function of the module once. Of command/examples/meadow.csv it prints what example.out
has. At the repository's root, once the shared library is built (field_axes.py says how):
python3 bindings/python/example.py command/examples/meadow.csv

The columns to the right of `dilution` are the channels.
"""

import csv
import math
import sys

import field_axes
from field_axes import Refused


def samples(file):
    """The channels, the dilutions, and the counts, sample after sample, of a CSV file."""
    with open(file, newline="", encoding="utf-8-sig") as lines:
        header, *rows = [row for row in csv.reader(lines) if row]
    at = header.index("dilution")
    dilutions = [int(row[at]) for row in rows]
    counts = [int(field) for row in rows for field in row[at + 1 :]]
    return header[at + 1 :], dilutions, counts


def show_field(file):
    channels, dilutions, counts = samples(file)
    n = len(channels)
    job = field_axes.job(n, 16, 0, dilutions, counts)
    report = field_axes.report(job)
    print(f"{report.samples} samples, {report.outcome} after {report.sweeps} sweeps and {report.turns} turns")
    for axis in report.axes:
        variance, error = report.variance(axis), report.variance_error(axis)
        remark = "" if report.is_determined(axis) else ", not determined"
        # A bound is rounded up.
        bound = math.ceil(error * 10) / 10
        print(f"axis {axis.number}: variance {variance} = {float(variance):.1f} within {bound:.1f}{remark}")
        directions = zip(channels, axis.direction())
        print("   ", ", ".join(f"{name} {float(number):.4f}" for name, number in directions))
    table = field_axes.table(n, dilutions, counts)
    print("sums", table.sums, "shift", table.e)
    solution = field_axes.solve(n, [entry for row in table.entries for entry in row], 16, 0)
    print(f"of the rounded table: {solution.outcome}, entries", [axis.entry for axis in solution.axes])


def show_others():
    field = (2, 16, 0, [1, 5, 1], [0, 0, 1, 0, 5, 5])
    pooled = field_axes.pool(field, (2, 16, 0, [2, 2], [1, 3, 4, 4]))
    print("pooled:", pooled.samples, "samples, variances", [str(pooled.variance(axis)) for axis in pooled.axes])
    print(field_axes.calls("L\t1\t2\t50\t25\t25\t50\nT\t1\t1\t2\nA\t1\t1\nW\t5\n"), end="")
    print(field_axes.summary("N\t2\nA\t1\t0\t0\nA\t5\t1\t0\nA\t1\t5\t5\nK\t2\nZ\nT\nK\t3\n"), end="")
    season = field_axes.season([field_axes.job(*field), "no job\n", field_axes.job(*field)])
    print(f"{season.jobs} jobs, {season.still} still, refused {season.refused}, largest error {season.largest_error} of job {season.job}")
    print(field_axes.panels(0), end="")
    print("panel 27 of size 1:", field_axes.panel(1, 27), "at", field_axes.panel_position(1, (1, 1, 1)))


def show_refused():
    for attempt in (
        lambda: field_axes.report("P\t2\t1\t0\nS\t101\t0\t0\n"),
        lambda: field_axes.job(2, 16, 0, [1, 1], [1, 2, 3]),
        lambda: field_axes.solve(2, [1, 2, 3, 4], 16, 0),
        lambda: field_axes.panels(1, room=10),
        lambda: field_axes.pool((2, 16, 0, [1, 1], [1, 2, 3, 4]), (3, 16, 0, [1, 1], [1, 2, 3, 4, 5, 6])),
        lambda: field_axes.panel_position(1, (0, 2**70, 0)),
    ):
        try:
            attempt()
        except Refused as refused:
            print(refused)


if __name__ == "__main__":
    show_field(sys.argv[1])
    show_others()
    show_refused()
