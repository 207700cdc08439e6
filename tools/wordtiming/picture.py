"""Draws the levels of a recording, their floor, the pieces, and the words on them, as SVG."""
import math
import unicodedata

from jobfile import counted
from wordtiming.rules import HOP
from wordtiming.writers import one_line, seconds

RATE = 16000
LEFT, RIGHT, TOP = 64, 24, 64
HEIGHT = 180  # of the levels
LOWEST = -60.0  # decibels under the loudest level, at the foot of the levels
FLOOR_DB = -40.0
ROW = 24  # height of a row of words
FONT = 12

LOUD, QUIET, FLOOR_LINE, WORD_FILL, WORD_EDGE, PHRASE_FILL, PHRASE_EDGE, WRONG = (
    "#1f5f99", "#b8c4cf", "#b3261e", "#ffe9b3", "#8a6100", "#dcebd8", "#3f6b35", "#b3261e",
)  # fmt: skip
BANDS = ("#f3f6f9", "#e3eaf0")


def escaped(text):
    """A text for SVG: one line, its marks escaped, and characters that XML has not replaced."""
    made = []
    for c in one_line(text):
        n = ord(c)
        made.append({"&": "&amp;", "<": "&lt;", ">": "&gt;", '"': "&quot;"}.get(c, "\ufffd" if n in (0xFFFE, 0xFFFF) else c))
    return "".join(made)


def width_of(text):
    """About how wide a text is drawn."""
    return sum(0 if unicodedata.combining(c) else FONT * (1.05 if unicodedata.east_asian_width(c) in "WF" else 0.62) for c in text)


class Scale:
    """Where a time stands: 300 pixels a second for a short recording, 100 for a long one."""

    def __init__(self, duration):
        self.duration = duration
        self.per_second = max(100.0, min(300.0, 1800.0 / duration)) if duration > 0 else 300.0
        self.wide = max(600.0, duration * self.per_second)

    def x(self, t):
        """The place of a time; times outside the recording stand at its edge."""
        return LEFT + max(0.0, min(t, self.duration)) * self.per_second


def y_of(level, peak):
    """The height at which a level ends."""
    if level <= 0:
        return TOP + HEIGHT
    db = max(LOWEST, 20 * math.log10(level / peak))
    return TOP + HEIGHT * db / LOWEST


def bars(scale, levels, peak, floor, loud):
    """The bars of all loud frames, or of all others, as one path."""
    step, foot, made = HOP / RATE * scale.per_second, TOP + HEIGHT, []
    for k, level in enumerate(levels):
        top = y_of(level, peak)
        if (level > floor) == loud and top < foot:
            made.append(f"M{LEFT + k * step:.1f} {foot}V{top:.1f}h{step:.1f}V{foot}z")
    return "".join(made)


def level_lines(scale, levels, peak, floor):
    """Bars, the floor, and the decibels at the side."""
    right, foot = LEFT + scale.wide, TOP + HEIGHT
    if not peak - peak == 0:
        yield f'<text x="{LEFT + 8}" y="{TOP + HEIGHT / 2:.1f}" fill="{WRONG}">The levels have NaN or infinity: there is no floor to draw.</text>'
        return
    yield f'<path d="{bars(scale, levels, peak, floor, False)}" fill="{QUIET}"/>'
    yield f'<path d="{bars(scale, levels, peak, floor, True)}" fill="{LOUD}"/>'
    y = TOP + HEIGHT * FLOOR_DB / LOWEST
    yield f'<line x1="{LEFT}" y1="{y:.1f}" x2="{right:.1f}" y2="{y:.1f}" stroke="{FLOOR_LINE}" stroke-width="1.5"/>'
    for db, name in ((0, "0 dB"), (-20, "-20 dB"), (FLOOR_DB, "floor"), (LOWEST, "-60 dB")):
        at, colour = TOP + HEIGHT * db / LOWEST, FLOOR_LINE if db == FLOOR_DB else "#333"
        yield f'<text x="{LEFT - 8}" y="{at + 4:.1f}" text-anchor="end" fill="{colour}">{name}</text>'
    yield f'<line x1="{LEFT}" y1="{foot}" x2="{right:.1f}" y2="{foot}" stroke="#333"/>'


def band_lines(scale, pieces):
    """A band for each piece, with its number."""
    for i, (first, end) in enumerate(pieces):
        a, b = scale.x(first / RATE), scale.x(end / RATE)
        yield f'<rect x="{a:.1f}" y="{TOP - 20}" width="{b - a:.1f}" height="{HEIGHT + 20}" fill="{BANDS[i % 2]}"><title>piece {i + 1}: samples {first} to {end}</title></rect>'
        yield f'<text x="{a + 6:.1f}" y="{TOP - 6}" fill="#555">piece {i + 1}</text>'


def axis_lines(scale):
    """Seconds under the levels: a mark every tenth, a number every half second or second."""
    foot = TOP + HEIGHT
    every = 5 if scale.per_second > 200 else 10
    for k in range(int(scale.duration * 10 + 1e-9) + 1):
        x, long = scale.x(k / 10), k % every == 0
        yield f'<line x1="{x:.1f}" y1="{foot}" x2="{x:.1f}" y2="{foot + (8 if long else 4)}" stroke="#333"/>'
        if long:
            yield f'<text x="{x:.1f}" y="{foot + 20}" text-anchor="middle" fill="#333">{k / 10:g} s</text>'


def rows_of(boxes):
    """A row for each box (left, right), the first in which it touches no other."""
    ends, rows = [], []
    for left, right in boxes:
        row = next((r for r, end in enumerate(ends) if end + 4 <= left), len(ends))
        ends[row:row + 1] = [right]
        rows.append(row)
    return rows, len(ends)


def box_lines(scale, top, parts, fill, edge, marks):
    """Parts (text, title, start, end) as boxes with their text, in as many rows as they need; `marks` draws their edges over the levels."""
    ends = [(scale.x(min(p[2], p[3])), scale.x(max(p[2], p[3]))) for p in parts]
    rows, count = rows_of([(a, max(b, a + width_of(p[0]) + 8)) for p, (a, b) in zip(parts, ends)])
    made, lines = [], []
    for (text, title, start, end), (a, b), row in zip(parts, ends, rows):
        y, colour = top + row * ROW, edge if start < end else WRONG
        if marks:
            lines.append(f'<path d="M{scale.x(start):.1f} {TOP}V{y}" stroke="{colour}" stroke-width="1" fill="none"/>')
            lines.append(f'<path d="M{scale.x(end):.1f} {TOP}V{y}" stroke="{colour}" stroke-width="1" stroke-dasharray="3 3" fill="none"/>')
        made.append(f'<rect x="{a:.1f}" y="{y}" width="{max(b - a, 1):.1f}" height="{ROW - 6}" fill="{fill}" stroke="{colour}"><title>{escaped(title)}</title></rect>')
        made.append(f'<text x="{a + 4:.1f}" y="{y + 13}" fill="#111">{escaped(text)}</text>')
    return lines + made, top + count * ROW


def word_parts(words):
    for w in words:
        title = f"{w.text}: {seconds(w.start)} to {seconds(w.end)} s" + ("" if w.phrase is None else f", phrase {w.phrase}")
        yield w.text, title, w.start, w.end


def span_parts(spans):
    for i, s in enumerate(spans):
        name = f"phrase {i}" + (f": {s.text}" if s.text else "")
        yield name, f"{name}: {seconds(s.entry.start)} to {seconds(s.entry.end)} s, {counted(s.entry.count, 'word')}", s.entry.start, s.entry.end


def legend_lines(y, backward):
    """What the colours mean; `backward`: whether a word ends where it starts, or before."""
    x = LEFT
    for colour, text in ((LOUD, "frame above the floor"), (QUIET, "frame at or under it"), (FLOOR_LINE, "floor, 40 dB under the loudest frame")):
        yield f'<rect x="{x:.1f}" y="{y - 9}" width="10" height="10" fill="{colour}"/>'
        yield f'<text x="{x + 15:.1f}" y="{y}" fill="#333">{text}</text>'
        x += 15 + width_of(text) + 20
    yield f'<text x="{LEFT}" y="{y + 20}" fill="#333">A line stands where a word starts, a dashed one where it ends.{" A red box: the word ends where it starts, or before." if backward else ""}</text>'


def svg_text(name, duration, levels, peak, floor, pieces, words, spans):
    """The whole picture."""
    scale = Scale(duration)
    made, y = [], TOP + HEIGHT + 36
    made += band_lines(scale, pieces)
    made += level_lines(scale, levels, peak, floor)
    made += axis_lines(scale)
    lines, y = box_lines(scale, y, list(word_parts(words)), WORD_FILL, WORD_EDGE, True)
    made += lines
    lines, y = box_lines(scale, y + 8, list(span_parts(spans)), PHRASE_FILL, PHRASE_EDGE, False)
    made += lines
    made += legend_lines(y + 20, not all(w.start < w.end for w in words))
    wide, high = max(LEFT + scale.wide + RIGHT, 900), y + 56
    counts = f"{seconds(duration)} s, {counted(len(words), 'word')}, {counted(len(pieces), 'piece')}"
    head = [
        '<?xml version="1.0" encoding="UTF-8"?>',
        f'<svg xmlns="http://www.w3.org/2000/svg" width="{wide:.0f}" height="{high}" viewBox="0 0 {wide:.0f} {high}" font-family="sans-serif" font-size="{FONT}">',
        f'<rect width="{wide:.0f}" height="{high}" fill="#fff"/>',
        f'<text x="{LEFT}" y="24" font-size="16" fill="#111">{escaped(name)}: {counts}</text>',
    ]
    return "\n".join(head + made + ["</svg>"]) + "\n"
