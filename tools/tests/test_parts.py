"""The parts of wordtimes: recordings, lists, rules, writers and the picture."""
import math
import os
import random
import struct
import sys
import tempfile
import unittest
import xml.dom.minidom

sys.dont_write_bytecode = True
sys.path.insert(0, os.path.join(os.path.dirname(os.path.abspath(__file__)), ".."))
from jobfile import Span  # noqa: E402
from wordtiming import Fault, lists, picture, recording, rules, writers  # noqa: E402
from wordtiming.lists import Row  # noqa: E402
from wordtiming.writers import Interval, Timed  # noqa: E402

GUID = bytes.fromhex("000000001000800000aa00389b71")


def chunk(tag, body):
    return tag + struct.pack("<I", len(body)) + body + b"\0" * (len(body) % 2)


def form(kind=1, channels=1, rate=16000, bits=16, more=b""):
    block = channels * bits // 8
    return struct.pack("<HHIIHH", kind, channels, rate, rate * block, block, bits) + more


def wav(*chunks):
    body = b"WAVE" + b"".join(chunks)
    return b"RIFF" + struct.pack("<I", len(body)) + body


class InFolder(unittest.TestCase):
    def setUp(self):
        folder = tempfile.TemporaryDirectory()
        self.addCleanup(folder.cleanup)
        self.folder = folder.name

    def file(self, name, data):
        path = os.path.join(self.folder, name)
        with open(path, "wb") as f:
            f.write(data if isinstance(data, bytes) else data.encode("utf-8"))
        return path

    def fault(self, call, path):
        with self.assertRaises(Fault) as caught:
            call(path)
        return str(caught.exception).replace(self.folder + os.sep, "")


class Recordings(InFolder):
    def floats(self, data):
        back = recording.read_wav(self.file("a.wav", data))
        return list(struct.unpack(f"<{len(back) // 4}f", back))

    def wrong(self, data):
        return self.fault(recording.read_wav, self.file("a.wav", data))

    def test_widths(self):
        cases = (
            (8, bytes([0, 128, 255]), [-1.0, 0.0, 127 / 128]),
            (16, struct.pack("<3h", -32768, 0, 32767), [-1.0, 0.0, 32767 / 32768]),
            (24, b"\0\0\x80" + b"\0\0\0" + b"\xff\xff\x7f" + b"\xff\xff\xff", [-1.0, 0.0, 8388607 / 8388608, -1 / 8388608]),
            (32, struct.pack("<4i", -(2**31), 0, 2**31 - 1, 2**30), [-1.0, 0.0, 1.0, 0.5]),
        )
        for bits, data, values in cases:
            with self.subTest(bits=bits):
                self.assertEqual(self.floats(wav(chunk(b"fmt ", form(bits=bits)), chunk(b"data", data))), values)

    def test_float_keeps_its_bits(self):
        data = bytes.fromhex("0100a07f") + bytes.fromhex("000080ff") + struct.pack("<f", 1.5)
        back = recording.read_wav(self.file("a.wav", wav(chunk(b"fmt ", form(3, bits=32)), chunk(b"data", data))))
        self.assertEqual(back, data)

    def test_extensible(self):
        for kind, bits, data, value in ((1, 16, struct.pack("<h", 16384), 0.5), (3, 32, struct.pack("<f", 0.25), 0.25)):
            more = struct.pack("<HHI", 22, bits, 4) + struct.pack("<H", kind) + GUID
            self.assertEqual(self.floats(wav(chunk(b"fmt ", form(0xFFFE, bits=bits, more=more)), chunk(b"data", data))), [value])
        more = struct.pack("<HHI", 22, 16, 4) + struct.pack("<H", 1) + bytes(14)
        self.assertIn("sub-format", self.wrong(wav(chunk(b"fmt ", form(0xFFFE, more=more)), chunk(b"data", b""))))
        self.assertIn("truncated", self.wrong(wav(chunk(b"fmt ", form(0xFFFE)), chunk(b"data", b""))))

    def test_other_chunks_and_padding(self):
        data = wav(chunk(b"LIST", b"odd"), chunk(b"fmt ", form(more=b"\0\0")), chunk(b"fact", b"1"), chunk(b"data", struct.pack("<h", 64)), chunk(b"id3 ", b"x"))
        self.assertEqual(self.floats(data), [64 / 32768])

    def test_no_samples(self):
        self.assertEqual(self.floats(wav(chunk(b"fmt ", form()), chunk(b"data", b""))), [])

    def test_odd_bytes_of_8_bits_without_padding(self):
        data = wav(chunk(b"fmt ", form(bits=8)), chunk(b"data", b"\x80\x80\x80"))[:-1]
        self.assertEqual(self.floats(data), [0.0, 0.0, 0.0])

    def test_wrong_rate(self):
        said = self.wrong(wav(chunk(b"fmt ", form(rate=44100)), chunk(b"data", b"")))
        self.assertIn("44,100 samples a second; it must have 16,000", said)
        self.assertIn("sox", said)

    def test_channels(self):
        self.assertIn("2 channels", self.wrong(wav(chunk(b"fmt ", form(channels=2)), chunk(b"data", b""))))
        self.assertIn("0 channels", self.wrong(wav(chunk(b"fmt ", form(channels=0)), chunk(b"data", b""))))

    def test_formats_that_are_not_taken(self):
        for kind, bits, said in ((3, 64, "64-bit float"), (7, 8, "mu-law"), (1, 12, "12-bit PCM"), (0x161, 16, "format 353")):
            self.assertIn(said, self.wrong(wav(chunk(b"fmt ", form(kind, bits=bits)), chunk(b"data", b""))))
        self.assertIn("contradicts", self.wrong(wav(chunk(b"fmt ", struct.pack("<HHIIHH", 1, 1, 16000, 64000, 4, 16)), chunk(b"data", b""))))

    def test_no_wav(self):
        self.assertIn("not a WAV file (it is empty)", self.wrong(b""))
        for data in (b"R", b"RIFF", b"hello, I am a text", wav()[:8] + b"AVI "):
            self.assertIn("not a WAV", self.wrong(data))
        for tag in (b"RIFX", b"RF64"):
            self.assertIn(tag.decode(), self.wrong(tag + bytes(40)))
        self.assertIn("No such file", self.fault(recording.read_wav, os.path.join(self.folder, "none.wav")))
        self.assertIn("directory", self.fault(recording.read_wav, self.folder))

    def test_truncated_everywhere(self):
        whole = wav(chunk(b"LIST", b"odd"), chunk(b"fmt ", form()), chunk(b"data", struct.pack("<4h", 1, 2, 3, 4)))
        for n in range(len(whole)):
            with self.subTest(n=n):
                said = self.wrong(whole[:n])
                self.assertTrue("truncated" in said or "not a WAV" in said, said)
        self.assertIn("end inside a sample", self.wrong(wav(chunk(b"fmt ", form()), chunk(b"data", b"abc"))))
        self.assertIn("before its format and samples", self.wrong(wav()))
        self.assertIn("before its samples", self.wrong(wav(chunk(b"fmt ", form()))))
        self.assertIn("before their format", self.wrong(wav(chunk(b"data", b"ab"), chunk(b"fmt ", form()))))
        self.assertIn("pipe", self.wrong(wav(chunk(b"fmt ", form()), b"data" + b"\xff" * 4 + b"abcd")))

    def test_length(self):
        limit = wav(chunk(b"fmt ", form(bits=8)), chunk(b"data", b"\x80" * 960159))
        self.assertEqual(len(recording.read_wav(self.file("a.wav", limit))), 4 * 960159)
        said = self.wrong(wav(chunk(b"fmt ", form(bits=8)), chunk(b"data", b"\x80" * 960160)))
        self.assertIn("960,160 samples (60.0 s); at most 960,159", said)


class Words(InFolder):
    def words(self, text):
        return lists.read_words(self.file("w.csv", text))

    def wrong(self, text):
        return self.fault(lists.read_words, self.file("w.csv", text))

    def test_plain(self):
        rows = self.words("word,start,end\nHouse,0.1,0.5\nhouse!,1,2\nShe,-1e-3,+.5\n")
        self.assertEqual([tuple(r.entry) for r in rows], [(0.1, 0.5, 5, 5, 0), (1.0, 2.0, 5, 6, 0), (-0.001, 0.5, 3, 3, 1)])
        self.assertEqual([r.line for r in rows], [2, 3, 4])

    def test_given_numbers(self):
        rows = self.words("key,word,start,end,letters,units\n9,a,0,1,7,\n4294967295,b,0,1,,8\n")
        self.assertEqual([tuple(r.entry)[2:] for r in rows], [(7, 1, 9), (1, 8, 4294967295)])

    def test_mark_line_ends_and_quotes(self):
        rows = self.words('\ufeffWord , START,end\r\n"say ""yes"", now",0,1\r\n\r\n"two\r\nlines",1,2\r\nlast,2,3')
        self.assertEqual([r.text for r in rows], ['say "yes", now', "two\r\nlines", "last"])
        self.assertEqual([r.line for r in rows], [2, 4, 6])
        self.assertEqual([r.line for r in self.words("word,start,end\ra,0,1\rb,0,1\r")], [2, 3])

    def test_no_words(self):
        self.assertEqual(self.words("word,start,end\n"), [])

    def test_not_numbers(self):
        rows = self.words("word,start,end\na,NaN,-inf\nb,1e999,Infinity\n")
        self.assertTrue(math.isnan(rows[0].entry.start))
        self.assertEqual((rows[0].entry.end, rows[1].entry.start), (-math.inf, math.inf))

    def test_bad_rows(self):
        for text, said in (
            ("", "w.csv: the file is empty"),
            ("\n\n", "w.csv: the file is empty"),
            ("word;start;end\n", "line 1: the columns must stand apart by commas"),
            ("word,start\n", "line 1: no column end"),
            ("house,0.1,0.2\n", "line 1: no column word, start, end"),
            ("word,start,end,note\n", "line 1: unknown column 'note'"),
            ("word,start,end,end\n", "line 1: the column end stands there twice"),
            ("word,start,end\na,1\n", "line 2: 2 cells, where the first row names 3"),
            ("word,start,end\na,1,2,3\n", "line 2: 4 cells"),
            ("word,start,end\na,,2\n", "line 2: start is empty"),
            ("word,start,end\na,1,2\nb,one,2\n", "line 3: start 'one' isn't a number of seconds"),
            ('word,start,end\na,"1,5",2\n', "(a decimal point, not a comma)"),
            ("word,start,end\na,1_0,2\n", "start '1_0' isn't a number"),
            ("word,start,end\na,٣,2\n", "isn't a number"),
            ("word,start,end\na,0x10,2\n", "isn't a number"),
            ("word,start,end,letters\na,1,2,-1\n", "letters '-1' isn't a whole number"),
            ("word,start,end,letters\na,1,2,1.0\n", "isn't a whole number"),
            ("word,start,end,key\na,1,2,4294967296\n", "key 4294967296 is too large"),
            ("word,start,end,key\na,1,2,%s\n" % ("9" * 5000), "is too large"),
            ("word,start,end,key\na,1,2,\n", "key '' isn't a whole number"),
            ('word,start,end\n"a"b,1,2\n', "line 2: "),
            ('word,start,end\na,1,2\n"open,1,2\n', "line 3: "),
            (b"word,start,end\na,1,2\n\xe9,1,2\n", "line 3: the text isn't UTF-8 (byte E9)"),
            ("word,start,end\n".encode("utf-16"), "UTF-16"),
            ("word,start,end\n" + "a,0,1\n" * 513, "513 words are too many; at most 512"),
        ):
            with self.subTest(text=text[:60]):
                self.assertIn(said, self.wrong(text))
        self.assertEqual(len(self.words("word,start,end\n" + "a,0,1\n" * 512)), 512)

    def test_spans(self):
        rows = lists.read_spans(self.file("s.csv", "start,end,count,text\n0,1,2,one\n1,2,0,\n"))
        self.assertEqual([(r.line, r.text, tuple(r.entry)) for r in rows], [(2, "one", (0.0, 1.0, 2)), (3, "", (1.0, 2.0, 0))])
        for text, said in (
            ("start,end\n", "no column count"),
            ("start,end,count\n0,1,-2\n", "line 2: count '-2' isn't a whole number"),
            ("start,end,count\n" + "0,1,1\n" * 65, "65 spans are too many; at most 64"),
        ):
            self.assertIn(said, self.fault(lists.read_spans, self.file("s.csv", text)))


class Texts(unittest.TestCase):
    def test_ascii(self):
        for text, pieces in (
            ("House,", ["house"]),
            ("5L", ["5", "l"]),
            ("12kg 3%", ["12", "kg", "3", "%"]),
            ("%5", ["%5"]),
            ("a5", ["a5"]),
            ("5 L", ["5", "l"]),
            ("Wi-Fi", ["wi", "fi"]),
            ("don't", ["don", "t"]),
            ("x_y\tz\x0bw\x1cv", ["x", "y", "z", "w", "v"]),
            ("--", []),
            ("", []),
            ("5%5%x", ["5", "%5", "%x"]),
        ):
            self.assertEqual(lists.norm(text), pieces, text)

    def test_other_text(self):
        for text, pieces in (("crème", ["cre", "me"]), ("½", ["1", "2"]), ("ＡＢ", ["ab"]), ("5é", ["5", "e"]), ("日本", ["日本"]), ("x²", ["x2"])):
            self.assertEqual(lists.norm(text), pieces, text)

    def test_counts(self):
        self.assertEqual([lists.letters_of(t) for t in ("", "--", "5L", "crème", "Wi-Fi", "𝄞", "𠀀")], [1, 1, 2, 5, 4, 1, 2])
        self.assertEqual([lists.utf16_length(t) for t in ("", "abc", "é", "𠀀")], [0, 3, 1, 2])


def loops_by_the_rust(keys):
    """loops.rs line by line."""
    out, keys = list(range(len(keys))), list(keys)
    for n in range(1, 5):
        i = 0
        while i + 3 * n <= len(out):
            if keys[i : i + n] == keys[i + n : i + 2 * n] and keys[i : i + n] == keys[i + 2 * n : i + 3 * n]:
                end = i + n
                while end + n <= len(out) and keys[i : i + n] == keys[end : end + n]:
                    end += n
                del out[i + n : end]
                del keys[i + n : end]
            i += 1
    return out


class Rules(unittest.TestCase):
    def left(self, *keys):
        return [keys[k] for k in rules.collapse_loops(keys)]

    def test_document_examples(self):
        self.assertEqual(self.left(1, 1, 1, 2), [1, 2])
        self.assertEqual(self.left(1, 1), [1, 1])
        self.assertEqual(self.left(1, 2, 1, 2, 1, 2, 1), [1, 2, 1])
        self.assertEqual(self.left(1, 2, 1, 2, 1, 1, 2, 1, 1, 2, 1, 2), [1, 2, 1, 2, 1, 2])

    def test_loops_at_random(self):
        draw = random.Random(7)
        for _ in range(20000):
            keys = [draw.randrange(draw.choice((1, 2, 3))) for _ in range(draw.randrange(30))]
            self.assertEqual(rules.collapse_loops(keys), loops_by_the_rust(keys))

    def test_placing(self):
        self.assertEqual(rules.place([0, 1, 2, 5], [2, 0, 1]), ([0, 1, 2], [0, 0, 2]))
        self.assertEqual(rules.place([0, 1], [1, 4096, 3]), ([0, 1], [0, 1]))
        self.assertEqual(rules.place([], [1]), ([], []))
        self.assertEqual(rules.kept_words([1, 1, 1, 2], []), ([0, 3], [None, None]))
        self.assertEqual(rules.kept_words([1, 1, 1, 2], [1]), ([0], [0]))

    def test_levels(self):
        data = struct.pack("<f", 0.5) * 160 + bytes(640) + struct.pack("<f", 1.0) * 159
        levels = rules.levels_of(data)
        self.assertEqual(levels, [0.5, 0.0])
        self.assertEqual(rules.floor_of(rules.peak_of(levels)), 0.005)
        self.assertEqual(struct.pack(">d", rules.floor_of(rules.peak_of([]))).hex(), "3da5fd7fe1796496")
        self.assertTrue(math.isnan(rules.peak_of([1.0, math.nan, 2.0])))


class Writers(unittest.TestCase):
    def test_seconds_read_back(self):
        draw = random.Random(3)
        for t in [0.0, -0.0, 3.0, 100.0, 1e-7, 0.1 + 0.2, -7200.000000000001] + [draw.uniform(-8192, 8192) for _ in range(2000)]:
            text = writers.seconds(t)
            self.assertEqual(struct.pack("<d", float(text)), struct.pack("<d", t))
            self.assertNotIn("e", text.lower())

    def test_csv_and_labels(self):
        words = [Timed('say "a", b', 0.0, 0.5, None), Timed("two\tlines\n", 1.0, 1e-7, 3)]
        self.assertEqual(writers.csv_text(words), 'word,start,end,phrase\n"say ""a"", b",0,0.5,\n"two\tlines\n",1,0.0000001,3\n')
        self.assertEqual(writers.labels_text(words), '0\t0.5\tsay "a", b\n1\t0.0000001\ttwo lines \n')

    def check_tier(self, parts, duration):
        told = []
        made = writers.filled(writers.clipped("word", [Interval(a, b, "w") for a, b in parts], duration, told.append), duration)
        at = 0.0
        for part in made:
            self.assertEqual(part.start, at)
            self.assertLess(part.start, part.end)
            at = part.end
        self.assertEqual(at, duration)
        return [(p.start, p.end) for p in made if p.text], told

    def test_tiers(self):
        for parts, kept, messages in (
            ([], [], 0),
            ([(0.0, 2.0)], [(0.0, 2.0)], 0),
            ([(0.5, 1.0), (1.0, 1.5)], [(0.5, 1.0), (1.0, 1.5)], 0),
            ([(0.5, 1.2), (1.0, 1.5)], [(0.5, 1.0), (1.0, 1.5)], 1),
            ([(0.5, 1.6), (0.7, 0.9)], [(0.5, 0.7), (0.7, 0.9)], 1),
            ([(1.0, 1.5), (0.2, 0.4)], [(1.0, 1.5)], 1),
            ([(1.5, 1.0), (1.6, 1.7)], [(1.6, 1.7)], 1),
            ([(-1.0, 0.5), (1.5, 9.0), (3.0, 4.0)], [(0.0, 0.5), (1.5, 2.0)], 3),
            ([(0.3, 0.6), (0.3, 0.9)], [(0.3, 0.6), (0.6, 0.9)], 1),
            ([(math.nan, 0.5)], [], 1),
        ):
            with self.subTest(parts=parts):
                back, told = self.check_tier(parts, 2.0)
                self.assertEqual(back, kept)
                self.assertEqual(len(told), messages)

    def test_tiers_at_random(self):
        draw = random.Random(11)
        for _ in range(5000):
            self.check_tier([(draw.randrange(-3, 12) / 4, draw.randrange(-3, 12) / 4) for _ in range(draw.randrange(8))], draw.choice((1.0, 2.0)))

    def test_textgrid(self):
        spans = [Row(2, 'say "it"', Span(0.0, 0.5, 1)), Row(3, "", Span(0.5, 1.0, 1))]
        tiers = writers.tiers_of([Timed("a", 0.25, 0.5, 0)], spans, [(0, 16000)], 1.0, self.fail)
        text = writers.textgrid_text(tiers, 1.0)
        self.assertTrue(text.startswith('File type = "ooTextFile"\nObject class = "TextGrid"\n\nxmin = 0\nxmax = 1\ntiers? <exists>\nsize = 3\n'))
        self.assertIn('text = "say ""it"""', text)
        self.assertIn('        intervals [2]:\n            xmin = 0.25\n            xmax = 0.5\n            text = "a"\n', text)
        self.assertEqual([name for name, _ in tiers], ["words", "phrases", "pieces"])


class Pictures(unittest.TestCase):
    def drawn(self, duration, levels, pieces=(), words=(), spans=()):
        peak = rules.peak_of(levels)
        text = picture.svg_text("a & <b>", duration, levels, peak, rules.floor_of(peak), list(pieces), list(words), list(spans))
        xml.dom.minidom.parseString(text.encode("utf-8"))
        self.assertNotIn("<script", text)
        self.assertNotIn("nan", text.replace("NaN", ""))
        return text

    def test_odd_inputs(self):
        words = [Timed("<&\"'\x01\ufffe", 0.2, 0.1, None), Timed("b", -5.0, 9000.0, 2)]
        self.assertIn("a &amp; &lt;b&gt;", self.drawn(0.5, [0.1, 0.0, 0.001], [(0, 8000)], words, [Row(2, "x<y", Span(1.0, 0.0, 1))]))
        for levels in ([], [0.0], [math.nan], [math.inf], [1e-300, 1.0], [5e-324]):
            with self.subTest(levels=levels):
                self.drawn(0.01, levels, [(0, 160)], words)
        self.drawn(0.0, [])

    def test_boxes_in_a_row_stand_apart(self):
        draw = random.Random(5)
        boxes = sorted((a, a + draw.uniform(1, 90)) for a in (draw.uniform(0, 900) for _ in range(200)))
        rows, count = picture.rows_of(boxes)
        for r in range(count):
            row = [b for b, k in zip(boxes, rows) if k == r]
            self.assertTrue(all(a[1] < b[0] for a, b in zip(row, row[1:])))


if __name__ == "__main__":
    unittest.main()
