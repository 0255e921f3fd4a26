"""Certified errors against numpy's eigenvalues, on 200 random jobs: of every figure some eigenvalue of S / 2^e is within its error, and of every
eigenvalue some figure. It needs numpy, so the gate does not run it. At the repository's root, once the shared library is built:
python3 bindings/python/against_numpy.py
"""

import random

import field_axes
import numpy

JOBS = 200

# What numpy itself rounds, by the size of the matrix.
NUMPY = 1e-12


def random_samples(source):
    """n, dilutions and counts; some channels depend on others, so that there are axes without any variation."""
    n = source.randint(2, 8)
    k = source.choice([2, 3, source.randint(4, 40), 256])
    most = source.choice([1, 20, 1000, 65_535])
    copied = source.random() < 0.3
    dilutions = [source.randint(1, source.choice([1, 10, 100])) for _ in range(k)]
    counts = []
    for _ in range(k):
        row = [source.randint(0, most) for _ in range(n)]
        if copied:
            row[-1] = row[0]
        counts += row
    return n, dilutions, counts


def compare(n, dilutions, counts, limit):
    """The largest part of an error that was used, or an AssertionError."""
    table = field_axes.table(n, dilutions, counts)
    report = field_axes.report(field_axes.job(n, limit, 0, dilutions, counts))
    assert report.e == table.e
    exact = numpy.array(table.sums, dtype=float) / 2.0**report.e
    eigenvalues = numpy.linalg.eigh(exact)[0]
    figures = numpy.array([axis.entry for axis in report.axes]) / field_axes.UNITS
    errors = numpy.array([axis.error for axis in report.axes]) / field_axes.UNITS
    slack = NUMPY * max(1.0, numpy.abs(exact).max())
    apart = numpy.abs(figures[:, None] - eigenvalues[None, :]) - errors[:, None]
    assert (apart.min(axis=1) <= slack).all(), "a figure has no eigenvalue within its error"
    assert (apart.min(axis=0) <= slack).all(), "an eigenvalue has no figure that has it within its error"
    nearest = numpy.abs(figures[:, None] - eigenvalues[None, :]).min(axis=1)
    used = nearest[errors > 0] / errors[errors > 0]
    return float(used.max()) if used.size else 0.0


def main():
    source = random.Random(1)
    used = []
    axes = 0
    for _ in range(JOBS):
        n, dilutions, counts = random_samples(source)
        used.append(compare(n, dilutions, counts, source.choice([1, 3, 16])))
        axes += n
    print(f"{JOBS} jobs, {axes} axes: every figure has an eigenvalue within its error, every eigenvalue a figure")
    print(f"of an error at most {max(used):.3f} was used, in the middle of the jobs {sorted(used)[JOBS // 2]:.3f}")


if __name__ == "__main__":
    main()
