#!/usr/bin/env python3
"""Writes the jobs that the stored runs of `fitlist` are run on: jobs.py CRATES, where CRATES is the folder crates/.

Document 01's example is CRATES/fitlist/stdin; the others are CRATES/fitlist_runs/data/NAME.job. What a run must print
stands in stdout of the crate: for the refused jobs as document 01 has it, for the others as the Rust's stages give it
(compare/README.md)."""
import os
import struct
import sys

WORD, SPAN, SAMPLE, TABLE = 28, 20, 4, 24


def job(words, spans, samples, table=None):
    """The bytes of a job; `table` replaces the six numbers of its table."""
    body = b"".join(struct.pack("<ddIII", *w) for w in words)
    body += b"".join(struct.pack("<ddI", *s) for s in spans)
    body += struct.pack("<%df" % len(samples), *samples)
    spans_at = TABLE + WORD * len(words)
    own = (TABLE, len(words), spans_at, len(spans), spans_at + SPAN * len(spans), len(samples))
    return struct.pack("<6I", *(table or own)) + body


def full():
    """512 words, 64 spans and 960,159 samples: in each span of 0.9375 s eight words of 0.06 s on a sound of their own,
    some of them heard three times; the times that are given are off by some hundredths of a second."""
    spans, words, samples = [], [], [0.0] * 960159
    seed = 12345
    for p in range(64):
        start = p * 0.9375
        spans.append((start, start + 0.9375, 8))
        for i in range(8):
            seed = (seed * 1103515245 + 12345) % 2**31
            sound = start + i * 0.1125
            late = (seed // 65536 % 9 - 4) / 100
            key = 7 if p % 8 == 3 and i in (2, 3, 4) else p * 8 + i + 100
            words.append((sound + late, sound + 0.0625 + late, 1 + seed // 4096 % 9, 2 + seed // 256 % 9, key))
            loud = 0 if p % 16 == 9 and i > 3 else 1 + seed // 16384 % 15
            first = int(sound * 16000)
            for k in range(first, first + 1000):
                samples[k] = loud / 64 * (1 if k // 16 % 2 else -1)
    return job(words, spans, samples)


def stretches():
    """Three stretches of 16,000 samples and a part of one, each with a sound at another place; the words start and end some
    hundredths of a second beside it. Two words share the first sound: where the one ends and the other starts stays as it is."""
    samples = [0.0] * 48800
    for first, past, loud in ((10, 60, 0.5), (130, 190, 0.25), (240, 270, 0.125), (297, 305, 0.5)):
        samples[first * 160 : past * 160] = [loud] * ((past - first) * 160)
    times = ((0.12, 0.37), (0.37, 0.61), (1.33, 1.96), (2.42, 2.76), (2.99, 3.04))
    return job([(start, end, 3, 3, 10 + i) for i, (start, end) in enumerate(times)], [], samples)


def at_the_floor():
    """Ten frames. The fifth is the loudest, and its level 1; that of the first lies above 0.01 by the lowest byte of its first
    sample alone. The word starts in the fourth frame: its start moves back to the first, which is loud."""
    near, above = struct.unpack("<2f", struct.pack("<2I", 0x3C23D70A, 0x3C23D73C))
    return job([(0.03, 0.05, 1, 1, 1)], [], [above] + [near] * 159 + [0.0] * 480 + [1.0] * 160 + [0.0] * 800)


WORDS = [(0.0, 0.5, 4, 4, 1)]
LATE = [(0.0, 7200.5, 4, 4, 1)]
EXAMPLE = job(WORDS, [], [0.5] * 8000 + [0.0] * 8000)
JOBS = {
    "empty": job([], [], []),
    # a table that is not whole: 5
    "table": job([], [], [])[:23],
    # a gap before the samples, and a time out of range besides: 5
    "offset": job(LATE, [], [0.0] * 160, (24, 1, 52, 0, 53, 160)),
    # the file ends in its words: 5
    "words": job(LATE, [], [0.0] * 160)[:40],
    # a byte too few, in the second stretch of samples, and a time out of range besides: 5
    "shorter": job(LATE, [], [0.0] * 16160)[:-1],
    # a byte too many, and a time out of range besides: 5
    "longer": job(LATE, [], [0.0] * 160) + b"\0",
    # 513 words, and offsets that are wrong besides: 4
    "numbers": job([], [], [], (0, 513, 0, 0, 0, 0)),
    # a span of 4,097 words, and a time out of range besides: 4
    "counts": job(LATE, [(0.0, 1.0, 4097)], [0.0] * 160),
    # a time that is a NaN, and no letters besides: 1
    "times": job([(float("nan"), 0.5, 0, 4, 1)], [], [0.0] * 160),
    # no letters: 2
    "letters": job([(0.0, 0.5, 0, 4, 1)], [(0.0, 1.0, 1)], [0.0] * 160),
    "stretches": stretches(),
    "floor": at_the_floor(),
    "full": full(),
}


def write(path, data):
    with open(path, "wb") as f:
        f.write(data)


if __name__ == "__main__":
    if len(sys.argv) != 2:
        sys.exit(__doc__)
    write(os.path.join(sys.argv[1], "fitlist", "stdin"), EXAMPLE)
    for name, data in JOBS.items():
        write(os.path.join(sys.argv[1], "fitlist_runs", "data", name + ".job"), data)
