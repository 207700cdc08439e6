"""Job files: document 01's layout, its example, and each refusal for the layout."""
import math
import os
import struct
import sys
import tempfile
import unittest
from contextlib import redirect_stderr, redirect_stdout
from io import StringIO

sys.dont_write_bytecode = True
sys.path.insert(0, os.path.join(os.path.dirname(os.path.abspath(__file__)), ".."))
import jobfile  # noqa: E402
from jobfile import Job, Refused, Span, Word, faults, pack, unpack  # noqa: E402

EXAMPLE = Job([Word(0.0, 0.5, 4, 4, 1)], [], struct.pack("<f", 0.5) * 8000 + bytes(32000))


class Layout(unittest.TestCase):
    def test_document_example(self):
        data = pack(EXAMPLE)
        self.assertEqual(len(data), 24 + 28 + 4 * 16000)
        self.assertEqual(struct.unpack_from("<6I", data), (24, 1, 52, 0, 52, 16000))
        self.assertEqual(struct.unpack_from("<ddIII", data, 24), (0.0, 0.5, 4, 4, 1))
        self.assertEqual(unpack(data), EXAMPLE)

    def test_every_bit_of_a_sample_is_kept(self):
        job = Job([], [], bytes.fromhex("0100a07f") + bytes.fromhex("000080ff"))
        self.assertEqual(unpack(pack(job)), job)

    def test_spans(self):
        job = Job([Word(1.0, 2.0, 1, 2, 2**32 - 1)], [Span(0.0, 1.0, 1), Span(-0.0, 7200.0, 4096)], b"")
        back = unpack(pack(job))
        self.assertEqual(back, job)
        self.assertEqual(math.copysign(1, back.spans[1].start), -1)

    def test_samples_that_end_inside_one(self):
        with self.assertRaises(ValueError):
            pack(Job([], [], b"abc"))


class Refusals(unittest.TestCase):
    def refused(self, data):
        with self.assertRaises(Refused) as caught:
            unpack(data)
        return caught.exception.number

    def test_short_table(self):
        for n in (0, 1, 23):
            self.assertEqual(self.refused(bytes(n)), 5)

    def test_numbers_come_before_offsets(self):
        for words, spans, samples in ((513, 0, 0), (0, 65, 0), (0, 0, 960160)):
            self.assertEqual(self.refused(struct.pack("<6I", 0, words, 0, spans, 0, samples)), 4)

    def test_offsets(self):
        good = bytearray(pack(EXAMPLE))
        for at in (0, 8, 16):
            bad = bytearray(good)
            bad[at] ^= 1
            self.assertEqual(self.refused(bytes(bad)), 5)

    def test_length(self):
        good = pack(EXAMPLE)
        self.assertEqual(self.refused(good + b"\0"), 5)
        self.assertEqual(self.refused(good[:-1]), 5)

    def test_rows(self):
        nan, inf = float("nan"), float("inf")
        job = Job(
            [Word(0, nan, 1, 1, 0), Word(7200.0, -7200.0, 1000, 10000, 0), Word(7200.001, 0, 0, 10001, 0)],
            [Span(-inf, 0, 4097)],
            b"",
        )
        self.assertEqual([f[:3] for f in faults(job)], [(4, "span", 0), (1, "word", 0), (1, "word", 2), (1, "span", 0), (2, "word", 2), (2, "word", 2)])


class Show(unittest.TestCase):
    def shown(self, data):
        with tempfile.TemporaryDirectory() as folder:
            path = os.path.join(folder, "job")
            with open(path, "wb") as f:
                f.write(data)
            out, err = StringIO(), StringIO()
            with redirect_stdout(out), redirect_stderr(err):
                status = jobfile.main(["--show", path])
        return status, out.getvalue(), err.getvalue()

    def test_example(self):
        status, out, _ = self.shown(pack(EXAMPLE))
        self.assertEqual(status, 0)
        self.assertEqual(out, "1 word\n  word 0: 0.0 to 0.5 s, letters 4, units 4, key 1\n0 spans\n16,000 samples, 1.000 s, 100 frames, largest magnitude 0.5\n")

    def test_no_job(self):
        status, out, err = self.shown(b"RIFF")
        self.assertEqual((status, out), (2, ""))
        self.assertIn("refusal 5, the job file breaks its layout", err)

    def test_missing_file(self):
        err = StringIO()
        with redirect_stderr(err):
            self.assertEqual(jobfile.main(["--show", "/nowhere/job"]), 2)
        self.assertIn("No such file", err.getvalue())


if __name__ == "__main__":
    unittest.main()
