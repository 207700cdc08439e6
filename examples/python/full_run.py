#!/usr/bin/env python3
"""A full run over one second of sound, and a refusal, through the shared library.

    examples/python/full_run.py [target/library/libqiluvrait.so]

tools/build-library makes the library. Python's standard library is enough.
"""
import ctypes
import os
import sys
from ctypes import POINTER, c_double, c_float, c_size_t, c_uint32

ACCEPTED, REFUSED_TIME = 0, 1


class Report(ctypes.Structure):
    """struct qiluvrait_report of include/qiluvrait.h."""

    _fields_ = [("refusal", c_uint32), ("found", c_uint32), ("pieces", c_size_t), ("words", c_size_t), ("floor", c_double)]


# The lists of qiluvrait_full_run, in order. A list is a pointer and the number of its elements.
LISTS = (
    ("samples", c_float), ("starts", c_double), ("ends", c_double), ("letters", c_uint32), ("units", c_uint32), ("keys", c_uint32),
    ("span_starts", c_double), ("span_ends", c_double), ("counts", c_uint32), ("phrases", c_uint32), ("levels", c_double),
    ("piece_starts", c_size_t), ("piece_ends", c_size_t), ("work_starts", c_double), ("work_ends", c_double), ("work_letters", c_uint32),
)  # fmt: skip


def load(path):
    """The library, with the types of its full run."""
    library = ctypes.CDLL(path)
    library.qiluvrait_full_run.restype = Report
    library.qiluvrait_full_run.argtypes = [t for _, kind in LISTS for t in (POINTER(kind), c_size_t)]
    return library


def full_run(library, samples, words, spans):
    """The full run on words (start, end, letters, units, key) and spans (start, end, count): its report and its lists, by name."""
    frames = len(samples) // 160
    pieces = (frames - 1) // 1203 + 1 if frames else 0
    values = {"samples": samples}
    values.update(zip(("starts", "ends", "letters", "units", "keys"), zip(*words)) if words else {})
    values.update(zip(("span_starts", "span_ends", "counts"), zip(*spans)) if spans else {})
    places = {"phrases": len(words), "levels": frames, "piece_starts": pieces, "piece_ends": pieces}
    places.update(work_starts=len(words), work_ends=len(words), work_letters=len(words))
    lists, arguments = {}, []
    for name, kind in LISTS:
        given = values.get(name, ())
        count = places.get(name, len(given))
        # One place more than the list has, so that a list without elements is a pointer too.
        lists[name] = (kind * (count + 1))(*given)
        arguments += [lists[name], count]
    return library.qiluvrait_full_run(*arguments), lists


def show(library, samples, first):
    """The full run with a first word that starts at `first`; prints what it answers."""
    words = [(first, 0.32, 4, 4, 1), (0.32, 0.34, 4, 4, 1), (0.34, 0.36, 4, 4, 1), (0.4, 0.9, 5, 5, 2)]
    spans = [(0.0, 0.6, 1), (0.6, 1.0, 1)]
    report, lists = full_run(library, samples, words, spans)
    if report.refusal != ACCEPTED:
        print(f"refused {report.refusal}" + (": a time outside its range" if report.refusal == REFUSED_TIME else ""))
        return
    print(f"loop found {report.found}, pieces {report.pieces}, words {report.words}, floor {report.floor:g}")
    for i in range(report.pieces):
        print(f"piece {lists['piece_starts'][i]} {lists['piece_ends'][i]}")
    for i in range(report.words):
        print(f"word {lists['starts'][i]:g} {lists['ends'][i]:g}, phrase {lists['phrases'][i]}")


def main(arguments):
    root = os.path.join(os.path.dirname(os.path.abspath(__file__)), "..", "..")
    library = load(arguments[0] if arguments else os.path.join(root, "target", "library", "libqiluvrait.so"))
    # One second: sound from 0.2 to 0.5 s, and from 0.7 s on.
    samples = [0.5 if 3200 <= i < 8000 or i >= 11200 else 0.0 for i in range(16000)]
    show(library, samples, 0.3)
    show(library, samples, float("nan"))


if __name__ == "__main__":
    main(sys.argv[1:])
