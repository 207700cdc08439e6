"""The command: its messages and its files, with small programs in the place of fitlist that answer what a test needs."""
import csv
import os
import shutil
import struct
import subprocess
import sys
import tempfile
import unittest

TOOLS = os.path.join(os.path.dirname(os.path.abspath(__file__)), "..")
COMMAND = os.path.join(TOOLS, "wordtimes")
ANSWER = "piece 0 16000\nword 0000000000000000 3FE0000000000000 -\n"


def wav(values, rate=16000):
    data = struct.pack(f"<{len(values)}h", *values)
    return struct.pack("<4sI4s4sIHHIIHH4sI", b"RIFF", 36 + len(data), b"WAVE", b"fmt ", 16, 1, 1, rate, 2 * rate, 2, 16, b"data", len(data)) + data


class Command(unittest.TestCase):
    def setUp(self):
        folder = tempfile.TemporaryDirectory()
        self.addCleanup(folder.cleanup)
        self.folder = folder.name
        self.file("a.wav", wav([16384] * 8000 + [0] * 8000))
        self.file("w.csv", "word,start,end\nyes,0,0.5\n")
        self.fitlist(ANSWER)

    def file(self, name, data):
        path = os.path.join(self.folder, name)
        with open(path, "wb") as f:
            f.write(data if isinstance(data, bytes) else data.encode("utf-8"))
        return path

    def fitlist(self, answer, status=0, read=True):
        """A program that answers this text."""
        self.file("answer", answer)
        path = self.file("fitlist", f"#!/bin/sh\n{'cat > job.read' if read else ':'}\ncat answer\nexit {status}\n")
        os.chmod(path, 0o755)

    def run_it(self, *more, words="w.csv", wav_name="a.wav"):
        command = [sys.executable, COMMAND, wav_name, words, "--fitlist", "./fitlist", "--out", "out", *more]
        done = subprocess.run(command, cwd=self.folder, stdout=subprocess.PIPE, stderr=subprocess.PIPE, universal_newlines=True, check=False)
        self.assertNotIn("Traceback", done.stderr)
        return done.returncode, done.stdout, done.stderr

    def text(self, name):
        with open(os.path.join(self.folder, "out", name), encoding="utf-8", newline="") as f:
            return f.read()

    def test_results(self):
        status, out, err = self.run_it("--job", "kept.job")
        self.assertEqual((status, err), (0, ""))
        self.assertTrue(out.startswith("1 of 1 word, 1 piece: "))
        self.assertEqual(sorted(os.listdir(os.path.join(self.folder, "out"))), ["a.TextGrid", "a.csv", "a.labels.txt", "a.svg"])
        self.assertEqual(self.text("a.csv"), "word,start,end,phrase\nyes,0,0.5,\n")
        self.assertEqual(self.text("a.labels.txt"), "0\t0.5\tyes\n")
        with open(os.path.join(self.folder, "kept.job"), "rb") as kept, open(os.path.join(self.folder, "job.read"), "rb") as read:
            job = kept.read()
            self.assertEqual(job, read.read())
        self.assertEqual(job[:52], struct.pack("<6I2d3I", 24, 1, 52, 0, 52, 16000, 0.0, 0.5, 3, 3, 0))

    def test_times_are_written_to_the_bit(self):
        self.fitlist("piece 0 16000\nword 8000000000000000 3FD3333333333334 -\n")
        self.assertEqual(self.run_it()[0], 0)
        row = list(csv.reader(self.text("a.csv").splitlines()))[1]
        self.assertEqual([struct.pack(">d", float(t)).hex() for t in row[1:3]], ["8000000000000000", "3fd3333333333334"])

    def test_texts_after_loops_and_placing(self):
        self.file("w.csv", "word,start,end\nNo,0,0.1\nno,0.1,0.2\nno!,0.2,0.3\nyes,0.3,0.4\nlost,0.4,0.5\n")
        self.file("s.csv", "start,end,count,text\n0,0.2,1,first\n0.2,1,1,\n")
        self.fitlist("piece 0 16000\nword 0000000000000000 3FC999999999999A 0\nword 3FD0000000000000 3FE0000000000000 1\n")
        status, out, err = self.run_it("--spans", "s.csv")
        self.assertEqual((status, err), (0, ""))
        self.assertTrue(out.startswith("2 of 5 words"))
        self.assertEqual(self.text("a.csv"), "word,start,end,phrase\nNo,0,0.2,0\nyes,0.25,0.5,1\n")
        self.assertIn('name = "phrases"', self.text("a.TextGrid"))

    def test_answers_that_do_not_fit(self):
        for answer, said in (
            ("piece 0 16000\n", "fitlist printed 0 words, and by document 01's rules on loops and placing 1 are left"),
            (ANSWER + ANSWER.split("\n")[1] + "\n", "fitlist printed 2 words"),
            (ANSWER.replace(" -", " 0"), "has the phrase 0, and by document 01's rule on placing it is -"),
            (ANSWER[:-1], "doesn't end with a line end"),
            ("", "fitlist printed 0 words"),
            (ANSWER.replace("3FE", "3fe"), "line 2 of fitlist's answer can't be read"),
            ("word 0000000000000000 3FE0000000000000 -\npiece 0 16000\n", "line 2"),
            ("refused 1\nrefused 1\n", "line 1"),
            ("nonsense\n", "line 1"),
        ):
            with self.subTest(answer=answer):
                self.fitlist(answer)
                status, _, err = self.run_it()
                self.assertEqual(status, 1)
                self.assertIn(said, err)
        self.assertFalse(os.path.exists(os.path.join(self.folder, "out")))

    def test_program_that_fails(self):
        self.fitlist("", status=3)
        self.assertEqual(self.run_it()[0], 1)
        self.fitlist("refused 4\n", read=False)
        self.assertEqual(self.run_it()[0], 2)
        for path in ("none", "out", "w.csv"):
            status, _, err = self.run_it("--fitlist", path)
            self.assertEqual(status, 2)
            self.assertIn(path, err)
        os.chmod(self.file("bad", b"\x7fELF nothing"), 0o755)
        self.assertEqual(self.run_it("--fitlist", "bad")[0], 2)

    def test_refusals_name_the_row(self):
        self.file("w.csv", "word,start,end,units\nyes,0,0.5,3\nno,nan,0.5,0\n")
        self.file("s.csv", "start,end,count\n0,1,5000\n7201,1,1\n")
        for number, lines in (
            (1, ["w.csv line 3 ('no'): start nan", "s.csv line 3: start 7201.0"]),
            (2, ["w.csv line 3 ('no'): units 0 isn't from 1 to 10,000"]),
            (4, ["s.csv line 2: count 5,000 is above 4,096"]),
            (5, ["the job file breaks its layout"]),
            (99, ["a number that document 01 has not"]),
        ):
            self.fitlist(f"refused {number}\n")
            status, _, err = self.run_it("--spans", "s.csv")
            self.assertEqual(status, 2)
            self.assertIn(f"refused the job with {number}:", err)
            for line in lines:
                self.assertIn(line, err)

    def test_overlap_is_said_and_only_the_textgrid_clipped(self):
        self.file("w.csv", "word,start,end\na,0,0.5\nb,0.25,0.75\n")
        self.fitlist("piece 0 16000\nword 0000000000000000 3FE0000000000000 -\nword 3FD0000000000000 3FE8000000000000 -\n")
        status, _, err = self.run_it()
        self.assertEqual(status, 0)
        self.assertIn("word 1 ('a', 0 to 0.5 s) is 0 to 0.25 s in the TextGrid", err)
        self.assertIn("a,0,0.5,\nb,0.25,0.75,\n", self.text("a.csv"))

    def test_no_file_that_is_read_is_written_over(self):
        self.file("a.csv", "word,start,end\nyes,0,0.5\n")
        status, _, err = self.run_it("--out", ".", words="a.csv")
        self.assertEqual(status, 2)
        self.assertIn("would be written over", err)
        self.assertEqual(self.run_it("--job", "./a.wav")[0], 2)
        self.assertIn("a result goes there too", self.run_it("--job", "out/a.svg")[2])

    def test_odd_file_names(self):
        for name in (b"a\xff.wav", "é &<.wav".encode(), b"-a.wav", b"noending"):
            os.link(os.path.join(self.folder, "a.wav"), os.path.join(os.fsencode(self.folder), name))
            self.assertEqual(self.run_it(wav_name=os.path.join(b".", name))[0], 0)

    def test_no_samples(self):
        self.file("a.wav", wav([]))
        self.fitlist(ANSWER.split("\n")[1] + "\n")
        status, _, err = self.run_it()
        self.assertEqual(status, 0)
        self.assertIn("has no TextGrid", err)

    def test_folder_that_cannot_be_made(self):
        status, _, err = self.run_it("--out", "w.csv")
        self.assertEqual(status, 2)
        self.assertIn("w.csv", err)
        self.assertEqual(self.run_it("--job", "none/job")[0], 2)

    def in_a_repository(self, rt):
        """Runs the command in a repository where nothing is built yet, with this script for rt; what it printed, and what rt was asked."""
        shutil.rmtree(os.path.join(self.folder, "bin"), ignore_errors=True)
        os.makedirs(os.path.join(self.folder, "bin"))
        os.makedirs(os.path.join(self.folder, "crates", "fitlist"), exist_ok=True)
        shutil.copytree(TOOLS, os.path.join(self.folder, "tools"), ignore=shutil.ignore_patterns("tests", "__pycache__"), dirs_exist_ok=True)
        if rt is not None:
            os.chmod(self.file("bin/rt", f"#!/bin/sh\necho \"$*\" >> ../../asked\n{rt}\n"), 0o755)
        path = os.path.join(self.folder, "bin") + ("" if rt is None else ":/usr/bin:/bin")
        done = subprocess.run([sys.executable, "tools/wordtimes", "a.wav", "w.csv", "--out", "out"], cwd=self.folder, env={**os.environ, "PATH": path}, stdout=subprocess.PIPE, stderr=subprocess.PIPE, universal_newlines=True, check=False)
        self.assertNotIn("Traceback", done.stderr)
        asked = os.path.join(self.folder, "asked")
        if not os.path.exists(asked):
            return done.returncode, done.stdout, done.stderr, []
        with open(asked, encoding="utf-8") as f:
            return done.returncode, done.stdout, done.stderr, f.read().splitlines()

    def test_a_program_that_is_not_built(self):
        rt = "echo 'refused 5'\necho 'rt: ok' >&2\nmkdir -p out\ncp ../../fitlist out/fitlist"
        status, out, err, asked = self.in_a_repository(rt)
        self.assertEqual((status, asked), (0, ["run"]))
        self.assertTrue(out.startswith("1 of 1 word, 1 piece: "), out)
        said, of_rt = err.splitlines()
        self.assertRegex(said, r"^wordtimes: the program fitlist isn't built: `rt run` in crates/fitlist proves and builds it now, once \(under .* on four cores\)$")
        self.assertEqual(of_rt, "rt: ok")
        status, _, err, asked = self.in_a_repository("exit 1")
        self.assertEqual((status, err, asked), (0, "", ["run"]))

    def test_a_program_that_is_not_proved(self):
        for rt, said in (("exit 1", "`rt run` in crates/fitlist failed: it ended with status 1"), ("exit 0", "`rt run` in crates/fitlist left no out/fitlist")):
            status, out, err, _ = self.in_a_repository(rt)
            self.assertEqual((status, out), (2, ""))
            self.assertIn(said, err)

    def test_without_the_toolchain(self):
        status, out, err, _ = self.in_a_repository(None)
        self.assertEqual((status, out), (2, ""))
        self.assertIn("isn't on the path", err)
        self.assertIn("the Rattle kit", err)

    def test_what_is_not_taken_is_said_before_the_program_is_built(self):
        self.file("a.wav", wav([0], rate=48000))
        status, _, err, asked = self.in_a_repository("exit 0")
        self.assertEqual((status, asked), (2, []))
        self.assertIn("48,000", err)

    def test_wrong_rate(self):
        self.file("a.wav", wav([0], rate=48000))
        status, out, err = self.run_it()
        self.assertEqual((status, out), (2, ""))
        self.assertIn("48,000", err)

    def test_arguments(self):
        done = subprocess.run([sys.executable, COMMAND, "--help"], stdout=subprocess.PIPE, universal_newlines=True, check=False)
        self.assertEqual(done.returncode, 0)
        self.assertIn("UTF-16", done.stdout)
        self.assertEqual(subprocess.run([sys.executable, COMMAND], stderr=subprocess.PIPE, check=False).returncode, 2)


if __name__ == "__main__":
    unittest.main()
