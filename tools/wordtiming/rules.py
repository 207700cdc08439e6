"""Which words a run keeps, and the levels for the picture, by document 01's rules."""
import array
import math
import sys

MAX_RUN = 4  # the longest repeated run of words (loops.rs)
HOP = 160  # samples of a frame
MIN_PEAK = 1e-9


def collapse_loops(keys):
    """The places of the words that loops leave: three or more equal neighbouring runs of 1 to 4 keys become one (loops.rs)."""
    left = list(range(len(keys)))
    for n in range(1, MAX_RUN + 1):
        i = 0
        while i + 3 * n <= len(left):
            run = [keys[k] for k in left[i : i + n]]
            end = i + n
            while [keys[k] for k in left[end : end + n]] == run:
                end += n
            if end >= i + 3 * n:
                del left[i + n : end]
            i += 1
    return left


def place(left, counts):
    """Spans take their counts of words in order: the words kept, and the phrase number of each (phrase_align.rs)."""
    phrases = []
    for p, count in enumerate(counts):
        phrases += [p] * min(count, len(left) - len(phrases))
    return left[: len(phrases)], phrases


def kept_words(keys, counts):
    """The places of the words that a full run keeps, and their phrase numbers; None without spans."""
    left = collapse_loops(keys)
    if not counts:
        return left, [None] * len(left)
    return place(left, counts)


def levels_of(samples, progress=lambda done, whole: None):
    """The level of each frame of 160 samples (envelope.rs)."""
    values = array.array("f")
    values.frombytes(samples)
    if sys.byteorder == "big":
        values.byteswap()
    frames = len(values) // HOP
    levels = []
    for k in range(frames):
        total = 0.0
        for s in values[k * HOP : (k + 1) * HOP]:
            total += s * s
        levels.append(math.sqrt(total / HOP))
        if k % 500 == 0:
            progress(k, frames)
    return levels


def peak_of(levels):
    """The loudest level, 1e-9 at the least; NaN where a level is."""
    peak = MIN_PEAK
    for v in levels:
        if v != v:
            return math.nan
        peak = max(peak, v)
    return peak


def floor_of(peak):
    """The floor under levels with this peak."""
    return peak * 0.01
