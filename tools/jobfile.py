#!/usr/bin/env python3
"""Job files of the program fitlist (document 01, "Tally, peak, job file").

    tools/jobfile.py --show FILE     prints a job in words

Little-endian: a table of three pairs of u32, offset and number, for words, spans and samples; then the bodies in that order,
from byte 24, without gaps, to the file's end. Python's standard library is enough.
"""
import struct
import sys
from collections import namedtuple

MAX_WORDS = 512
MAX_SPANS = 64
MAX_SAMPLES = 960159
MAX_COUNT = 4096  # words of a span
MAX_TIME = 7200.0  # seconds, of either sign
MAX_LETTERS = 1000
MAX_UNITS = 10000

TABLE = struct.Struct("<6I")
WORD = struct.Struct("<2d3I")
SPAN = struct.Struct("<2dI")
SAMPLE_BYTES = 4

# Times are in seconds; letters, units, key and count are whole numbers of 32 bits.
Word = namedtuple("Word", "start end letters units key")
Span = namedtuple("Span", "start end count")
# `samples` is bytes, four for each sample, so that every bit pattern is kept.
Job = namedtuple("Job", "words spans samples")

# What each refusal says, in document 01's words.
REFUSALS = {
    1: "a time outside its range",
    2: "letters or units outside their range",
    3: "lists that belong together differ in length",
    4: "too many samples, words or spans, or too large a span count",
    5: "the job file breaks its layout",
    6: "too few places for the result or work space",
    7: "the number of levels isn't samples / 160, rounded down",
    8: "in the pieces, a cut not beyond its piece's start",
}


class Refused(Exception):
    """Bytes that are no job: the number of the refusal, and what is wrong."""

    def __init__(self, number, what):
        super().__init__(what)
        self.number = number


def expected_table(words, spans, samples):
    """The table of a job with these numbers of words, spans and samples, and the file's length."""
    spans_at = TABLE.size + WORD.size * words
    samples_at = spans_at + SPAN.size * spans
    return (TABLE.size, words, spans_at, spans, samples_at, samples), samples_at + SAMPLE_BYTES * samples


def pack(job):
    """The bytes of a job."""
    count, rest = divmod(len(job.samples), SAMPLE_BYTES)
    if rest:
        raise ValueError("the samples end inside a sample")
    table, _ = expected_table(len(job.words), len(job.spans), count)
    parts = [TABLE.pack(*table)]
    parts += [WORD.pack(*w) for w in job.words]
    parts += [SPAN.pack(*s) for s in job.spans]
    parts.append(bytes(job.samples))
    return b"".join(parts)


def unpack(data):
    """The job in some bytes. Raises Refused where fitlist would refuse them for the table or the length (5, 4, 5 in that order)."""
    if len(data) < TABLE.size:
        raise Refused(5, f"the table has 24 bytes, the file {len(data)}")
    table = TABLE.unpack_from(data)
    words, spans, samples = table[1], table[3], table[5]
    for name, number, most in (("words", words, MAX_WORDS), ("spans", spans, MAX_SPANS), ("samples", samples, MAX_SAMPLES)):
        if number > most:
            raise Refused(4, f"{number:,} {name}; at most {most:,} are taken")
    expected, length = expected_table(words, spans, samples)
    for name, at, right in zip(("words", "spans", "samples"), table[::2], expected[::2]):
        if at != right:
            raise Refused(5, f"the {name} are said to begin at byte {at:,}; it must be {right:,}")
    if len(data) != length:
        raise Refused(5, f"the file has {len(data):,} bytes; by its table it must have {length:,}")
    return Job(
        [Word._make(f) for f in WORD.iter_unpack(data[expected[0] : expected[2]])],
        [Span._make(f) for f in SPAN.iter_unpack(data[expected[2] : expected[4]])],
        bytes(data[expected[4] :]),
    )


def time_is_taken(t):
    """Whether a time is finite and from -7,200 to 7,200."""
    return -MAX_TIME <= t <= MAX_TIME


def faults(job):
    """What fitlist refuses in the rows of a job: refusal, "word" or "span", row from 0, and what is wrong. In document 01's order."""
    found = []
    for i, s in enumerate(job.spans):
        if s.count > MAX_COUNT:
            found.append((4, "span", i, f"count {s.count:,} is above {MAX_COUNT:,}"))
    for kind, rows in (("word", job.words), ("span", job.spans)):
        for i, row in enumerate(rows):
            for name in ("start", "end"):
                t = getattr(row, name)
                if not time_is_taken(t):
                    found.append((1, kind, i, f"{name} {t!r} isn't finite and from -7,200 to 7,200 seconds"))
    for i, w in enumerate(job.words):
        for name, most in (("letters", MAX_LETTERS), ("units", MAX_UNITS)):
            value = getattr(w, name)
            if not 1 <= value <= most:
                found.append((2, "word", i, f"{name} {value:,} isn't from 1 to {most:,}"))
    return found


def counted(number, name):
    """A number with its noun."""
    return f"{number:,} {name}" + ("" if number == 1 else "s")


def sample_line(samples):
    """One line about the samples: how many, how long, the largest, and how many are no numbers."""
    values = struct.unpack(f"<{len(samples) // SAMPLE_BYTES}f", samples)
    finite = [abs(v) for v in values if v - v == 0]
    text = f"{counted(len(values), 'sample')}, {len(values) / 16000:.3f} s, {counted(len(values) // 160, 'frame')}"
    if finite:
        text += f", largest magnitude {max(finite):g}"
    if len(finite) < len(values):
        text += f", {len(values) - len(finite):,} NaN or infinite"
    return text


def described(job):
    """A job in words, as lines."""
    yield counted(len(job.words), "word")
    for i, w in enumerate(job.words):
        yield f"  word {i}: {w.start!r} to {w.end!r} s, letters {w.letters}, units {w.units}, key {w.key}"
    yield counted(len(job.spans), "span")
    for i, s in enumerate(job.spans):
        yield f"  span {i}: {s.start!r} to {s.end!r} s, {counted(s.count, 'word')}"
    yield sample_line(job.samples)
    for number, kind, i, what in faults(job):
        yield f"refusal {number}, {REFUSALS[number]}: {kind} {i}: {what}"


def main(arguments):
    if len(arguments) != 2 or arguments[0] != "--show":
        print(__doc__.strip(), file=sys.stdout if arguments in (["-h"], ["--help"]) else sys.stderr)
        return 0 if arguments in (["-h"], ["--help"]) else 2
    try:
        with open(arguments[1], "rb") as f:
            job = unpack(f.read())
    except OSError as e:
        print(f"jobfile: {arguments[1]}: {e.strerror}", file=sys.stderr)
        return 2
    except Refused as e:
        print(f"jobfile: {arguments[1]}: refusal {e.number}, {REFUSALS[e.number]}: {e}", file=sys.stderr)
        return 2
    for line in described(job):
        print(line)
    return 0


if __name__ == "__main__":
    sys.exit(main(sys.argv[1:]))
