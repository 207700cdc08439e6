"""The tool that tries wrong readers on the stored runs, with a stand-in for `rt`."""
import os
import shutil
import subprocess
import sys
import tempfile
import unittest

TOOL = os.path.join(os.path.dirname(os.path.abspath(__file__)), "..", "wrong-readers")
CODE = "let head = read(from, table);\nlet rows = read(from, bodies);\n"
STDOUT = "one.job\ntwo.job\nrefused 5\nthree.job\n"
# Where the code has the word on the left, `rt try` does what stands on the right; the copy has no files that checks made.
RT = """#!/bin/sh
[ "$*" = "try --data one.job=data/one.job --data two.job=data/two.job -- two.job one.job" ] || exit 2
code=../job_io/src/lib.rt
[ -f data/two.job ] && [ ! -e ../job_io/out ] || exit 2
grep -q broken $code && { echo "rt: it does not compile" >&2; exit 2; }
echo "run=ended status=0" >&2
grep -q early $code && { printf 'one.job\\ntwo.job\\nrefused 4\\nthree.job\\n'; exit 0; }
cat stdout
"""


class WrongReaders(unittest.TestCase):
    def setUp(self):
        folder = tempfile.TemporaryDirectory()
        self.addCleanup(folder.cleanup)
        self.folder = folder.name
        os.makedirs(os.path.join(self.folder, "tools"))
        shutil.copy(TOOL, os.path.join(self.folder, "tools"))
        self.file("crates.txt", "job_io:\n")
        self.file("crates/job_io/src/lib.rt", CODE)
        self.file("crates/job_io/out/kept", "")
        self.file("crates/fitlist_runs/stdout", STDOUT)
        self.file("crates/fitlist_runs/args", "two.job\none.job\n")
        for job in ("one.job", "two.job"):
            self.file(f"crates/fitlist_runs/data/{job}", "")
        self.file("bin/rt", RT)
        os.chmod(os.path.join(self.folder, "bin", "rt"), 0o755)

    def file(self, name, text):
        path = os.path.join(self.folder, name)
        os.makedirs(os.path.dirname(path), exist_ok=True)
        with open(path, "w", encoding="utf-8") as f:
            f.write(text)

    def edit(self, name, new, old="let head = read(from, table);"):
        self.file(f"crates/job_io/wrong/{name}.edit", f"# A reader.\nfile: src/lib.rt\nold: {old}\nnew: {new}\n")

    def run_it(self, *names):
        path = os.path.join(self.folder, "bin") + os.pathsep + os.environ["PATH"]
        tool = [sys.executable, os.path.join(self.folder, "tools", "wrong-readers"), *names]
        done = subprocess.run(tool, stdout=subprocess.PIPE, encoding="utf-8", check=False, env={**os.environ, "PATH": path})
        return done.returncode, done.stdout.splitlines()

    def test_the_job_that_shows_a_reader(self):
        self.edit("soon", "early(); let head = read(from, table);")
        self.assertEqual(self.run_it(), (0, ["soon: shown by two.job", "wrong readers: 1 tried, 0 not shown"]))
        with open(os.path.join(self.folder, "crates/job_io/src/lib.rt"), encoding="utf-8") as f:
            self.assertEqual(f.read(), CODE)

    def test_a_reader_that_no_job_shows(self):
        self.edit("silent", "let head = late(from, table);")
        self.assertEqual(self.run_it(), (1, ["silent: no stored run shows it", "wrong readers: 1 tried, 1 not shown"]))

    def test_an_edit_that_does_not_fit(self):
        self.edit("old", "early();", old="gone")
        self.assertEqual(self.run_it()[1][0], "old: its old text stands 0 times in src/lib.rt")

    def test_a_program_that_does_not_build(self):
        self.edit("bad", "broken")
        status, lines = self.run_it()
        self.assertEqual((status, lines[0]), (1, "bad: rt try failed: rt: it does not compile"))

    def test_those_that_are_named(self):
        self.edit("soon", "early(); let head = read(from, table);")
        self.edit("silent", "let head = late(from, table);")
        self.assertEqual(self.run_it("soon")[0], 0)

    def test_none(self):
        self.assertEqual(self.run_it(), (1, ["wrong readers: 0 tried, 0 not shown"]))


if __name__ == "__main__":
    unittest.main()
