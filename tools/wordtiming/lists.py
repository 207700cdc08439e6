"""Reads the lists of words and spans (CSV), and counts letters, units and keys of words that come without them."""
import csv
import io
import re
import unicodedata
from collections import namedtuple

from jobfile import MAX_SPANS, MAX_WORDS, Span, Word
from wordtiming import Fault

# A row of a list: its line in the file, its text, and its word or span of the job.
Row = namedtuple("Row", "line text entry")

NUMBER = re.compile(r"[+-]?(?:[0-9]+(?:\.[0-9]*)?|\.[0-9]+)(?:[eE][+-]?[0-9]+)?|[+-]?(?:nan|inf|infinity)", re.IGNORECASE | re.ASCII)
WHOLE = re.compile(r"[0-9]+", re.ASCII)
MAX_U32 = 2**32 - 1

# JavaScript's white space (pattern/js.rs, WS).
WHITE = set("\t\n\x0b\x0c\r \xa0\u1680\u2028\u2029\u202f\u205f\u3000\ufeff") | {chr(c) for c in range(0x2000, 0x200B)}


def is_word_character(c):
    """A letter, a digit or another number, or a percent sign (compiled.rs, not_word)."""
    return c == "%" or unicodedata.category(c)[0] in "LN"


def norm(text):
    """A word's pieces (speech_match.rs, norm), by this Python's tables of Unicode."""
    made = []
    for c in unicodedata.normalize("NFKD", text.lower()):
        if c in WHITE or not is_word_character(c):
            c = " "
        if made and made[-1] in "0123456789" and (c == "%" or unicodedata.category(c)[0] == "L"):
            made.append(" ")
        made.append(c)
    return [piece for piece in "".join(made).split(" ") if piece]


def utf16_length(text):
    """The length of a text in UTF-16 code units (js.rs, utf16_len)."""
    return len(text.encode("utf-16-le")) // 2


def letters_of(text):
    """What voxr's `letters` gives (speech_match.rs)."""
    return max(1, utf16_length("".join(norm(text))))


def number(where, name, text):
    """A cell as a double."""
    text = text.strip()
    if not text:
        raise Fault(f"{where}: {name} is empty")
    if not NUMBER.fullmatch(text):
        hint = " (a decimal point, not a comma)" if NUMBER.fullmatch(text.replace(",", ".")) else ""
        raise Fault(f"{where}: {name} {text!r} isn't a number of seconds{hint}")
    return float(text)


def whole(where, name, text):
    """A cell as a whole number of 32 bits."""
    text = text.strip()
    if not WHOLE.fullmatch(text):
        raise Fault(f"{where}: {name} {text!r} isn't a whole number")
    digits = text.lstrip("0") or "0"
    if len(digits) > 10 or int(digits) > MAX_U32:
        raise Fault(f"{where}: {name} {text} is too large; at most {MAX_U32:,} fits a job")
    return int(digits)


def header_of(where, cells, needed, known):
    """The columns of a list, from its first row."""
    names = [c.strip().lower() for c in cells]
    if len(names) == 1 and re.search(r"[;\t|]", names[0]):
        raise Fault(f"{where}: the columns must stand apart by commas")
    missing = [n for n in needed if n not in names]
    if missing:
        raise Fault(f"{where}: no column {', '.join(missing)}; the first row must name the columns, as: {','.join(needed)}")
    for n in names:
        if n not in known:
            raise Fault(f"{where}: unknown column {n!r}; the columns are {', '.join(known)}")
        if names.count(n) > 1:
            raise Fault(f"{where}: the column {n} stands there twice")
    return names


def text_of(path):
    """The text of a file, without a byte order mark."""
    try:
        with open(path, "rb") as f:
            data = f.read()
    except OSError as e:
        raise Fault(f"{path}: {e.strerror or e}") from None
    if data.startswith((b"\xff\xfe", b"\xfe\xff")):
        raise Fault(f"{path}: the text is UTF-16. Save it as UTF-8")
    try:
        return data.decode("utf-8-sig")
    except UnicodeDecodeError as e:
        line = e.object[: e.start].count(b"\n") + 1
        raise Fault(f"{path} line {line}: the text isn't UTF-8 (byte {e.object[e.start]:02X}). Save it as UTF-8") from None


def table(path, needed, optional):
    """The rows of a CSV file: line number, and the cells by column."""
    reader = csv.reader(io.StringIO(text_of(path), newline=""), strict=True)
    names, line = None, 1
    try:
        for cells in reader:
            if cells and names is None:
                names = header_of(f"{path} line {line}", cells, needed, needed + optional)
            elif cells:
                if len(cells) != len(names):
                    raise Fault(f"{path} line {line}: {len(cells)} cells, where the first row names {len(names)} columns")
                yield line, dict(zip(names, cells))
            line = reader.line_num + 1
    except csv.Error as e:
        raise Fault(f"{path} line {line}: {e}") from None
    if names is None:
        raise Fault(f"{path}: the file is empty; its first row must name the columns, as: {','.join(needed)}")


def word_row(path, line, cells, keys):
    """One word; `keys` has the number of each normalised text met so far."""
    where, text = f"{path} line {line}", cells["word"]
    start, end = (number(where, n, cells[n]) for n in ("start", "end"))
    letters = whole(where, "letters", cells["letters"]) if cells.get("letters", "").strip() else letters_of(text)
    units = whole(where, "units", cells["units"]) if cells.get("units", "").strip() else utf16_length(text)
    if "key" in cells:
        key = whole(where, "key", cells["key"])
    else:
        key = keys.setdefault(" ".join(norm(text)), len(keys))
    return Row(line, text, Word(start, end, letters, units, key))


def read_words(path):
    """The words of a list."""
    rows, keys = [], {}
    for line, cells in table(path, ["word", "start", "end"], ["letters", "units", "key"]):
        rows.append(word_row(path, line, cells, keys))
    if len(rows) > MAX_WORDS:
        raise Fault(f"{path}: {len(rows):,} words are too many; at most {MAX_WORDS} are taken")
    return rows


def read_spans(path):
    """The spans of a list."""
    rows = []
    for line, cells in table(path, ["start", "end", "count"], ["text"]):
        where = f"{path} line {line}"
        start, end = (number(where, n, cells[n]) for n in ("start", "end"))
        rows.append(Row(line, cells.get("text", ""), Span(start, end, whole(where, "count", cells["count"]))))
    if len(rows) > MAX_SPANS:
        raise Fault(f"{path}: {len(rows):,} spans are too many; at most {MAX_SPANS} are taken")
    return rows
