"""Writes word times as CSV, as labels for Audacity and as a TextGrid for Praat."""
import csv
import io
from collections import namedtuple
from decimal import Decimal

RATE = 16000

# A word of the result: its text, its times in seconds, and its phrase number or None.
Timed = namedtuple("Timed", "text start end phrase")
# A part of a tier: two times and a text.
Interval = namedtuple("Interval", "start end text")


def seconds(t):
    """A time with the fewest digits that read back as the same double, without an exponent."""
    return format(Decimal(repr(t)).normalize(), "f") if t - t == 0 else repr(t)


def one_line(text):
    """A text without tabs, line ends and other control characters."""
    return "".join(" " if c < " " or c in "\x7f\x85\u2028\u2029" else c for c in text)


def csv_text(words):
    out = io.StringIO()
    rows = csv.writer(out, lineterminator="\n")
    rows.writerow(["word", "start", "end", "phrase"])
    for w in words:
        rows.writerow([w.text, seconds(w.start), seconds(w.end), "" if w.phrase is None else w.phrase])
    return out.getvalue()


def labels_text(words):
    return "".join(f"{seconds(w.start)}\t{seconds(w.end)}\t{one_line(w.text)}\n" for w in words)


def clipped(what, parts, duration, tell):
    """Parts made increasing and apart, inside the recording, as a tier must be; `tell` gets a message for each that is changed."""
    made, at = [], 0.0
    for i, part in enumerate(parts):
        start, end = max(part.start, at), min(part.end, duration)
        if i + 1 < len(parts) and start < parts[i + 1].start < end:
            end = parts[i + 1].start
        name = f"{what} {i + 1} ({one_line(part.text)!r}, {seconds(part.start)} to {seconds(part.end)} s)"
        if not start < end:
            tell(f"{name} has no time of its own left in the TextGrid, and isn't in it")
            continue
        if (start, end) != (part.start, part.end):
            tell(f"{name} is {seconds(start)} to {seconds(end)} s in the TextGrid: there, parts can't overlap or lie outside the recording")
        made.append(Interval(start, end, part.text))
        at = end
    return made


def filled(parts, duration):
    """Parts with the gaps between them as parts without text."""
    made, at = [], 0.0
    for part in parts:
        if at < part.start:
            made.append(Interval(at, part.start, ""))
        made.append(part)
        at = part.end
    if at < duration:
        made.append(Interval(at, duration, ""))
    return made


def tier_lines(number, name, intervals, duration):
    yield f"    item [{number}]:"
    yield '        class = "IntervalTier"'
    yield f'        name = "{name}"'
    yield "        xmin = 0"
    yield f"        xmax = {seconds(duration)}"
    yield f"        intervals: size = {len(intervals)}"
    for i, part in enumerate(intervals):
        text = one_line(part.text).replace('"', '""')
        yield f"        intervals [{i + 1}]:"
        yield f"            xmin = {seconds(part.start)}"
        yield f"            xmax = {seconds(part.end)}"
        yield f'            text = "{text}"'


def textgrid_text(tiers, duration):
    """A TextGrid in Praat's long text format, from pairs of a name and a tier's parts."""
    lines = [
        'File type = "ooTextFile"',
        'Object class = "TextGrid"',
        "",
        "xmin = 0",
        f"xmax = {seconds(duration)}",
        "tiers? <exists>",
        f"size = {len(tiers)}",
        "item []:",
    ]
    for i, (name, parts) in enumerate(tiers):
        lines += tier_lines(i + 1, name, filled(parts, duration), duration)
    return "\n".join(lines) + "\n"


def tiers_of(words, spans, pieces, duration, tell):
    """The tiers of a result: words, phrases where there are spans, and pieces. A span without a text has its number."""
    tiers = [("words", clipped("word", [Interval(w.start, w.end, w.text) for w in words], duration, tell))]
    if spans:
        phrases = [Interval(s.entry.start, s.entry.end, s.text or str(i)) for i, s in enumerate(spans)]
        tiers.append(("phrases", clipped("phrase", phrases, duration, tell)))
    parts = [Interval(a / RATE, b / RATE, str(i + 1)) for i, (a, b) in enumerate(pieces)]
    tiers.append(("pieces", clipped("piece", parts, duration, tell)))
    return tiers
