"""The tool that holds the wrong edits to the tree, on a small tree with messages of each kind."""
import os
import re
import shutil
import subprocess
import sys
import tempfile
import unittest

TOOL = os.path.join(os.path.dirname(os.path.abspath(__file__)), "..", "edits")
CODE = "fn one() -> u32 {\n    1\n}\nfn two() -> u32 {\n    let a = 1;\n    a + a\n}\n"
GOOD = "# one is not two\nfile: src/lib.rt\nold: let a = 1;\nnew: let a = 2;\n"
DIFFERS = "as printed, the two types differ only where one has `6` (expected), right after `Prim.Native.Nat.◌≤◌`, and the other has `7`"
FOLLOWS = "3 declarations that depend on `peak-is`, which was rejected, were not checked: peak-before, peak-none, peak-from"
NO_FIELD = "`returns`: record `Lts.Else1` has no field `if-b`"
BY_NAME = "refused, as it must be (only because a proof file names what the edit took away, so this says little of the contract: change a value and keep the names)"
BY_LIMIT = "refused, as it must be (only by a limit of the prover, which gave no verdict, so this says less of the contract: choose a change that it refuses sooner)"


class Tree(unittest.TestCase):
    def setUp(self):
        folder = tempfile.TemporaryDirectory()
        self.addCleanup(folder.cleanup)
        self.folder = folder.name
        self.file("crates/c/src/lib.rt", CODE)
        self.file("crates/c/specs/Lib.antt", "x : ℕ\nx = 1\n")
        self.file("crates/c/proofs/two/Answers.antt", "returns c = refl\n")

    def file(self, name, text):
        path = os.path.join(self.folder, name)
        os.makedirs(os.path.dirname(path), exist_ok=True)
        with open(path, "w", encoding="utf-8", newline="") as f:
            f.write(text)

    def edit(self, text, name="e", further=False):
        self.file(f"crates/c/{'further' if further else 'must-fail'}/{name}.edit", text)

    def tried(self, said, name="e", further=False):
        """What rt says of an edit that it tried."""
        self.file("target/further-edits/c" if further else "target/must-fail", f"== c proved\nrt: must-fail c/{name}.edit: {said}\n1 passed, 0 failed\n")

    def run_it(self, *more):
        done = subprocess.run([sys.executable, TOOL, *more, self.folder], stdout=subprocess.PIPE, stderr=subprocess.PIPE, encoding="utf-8", check=False)
        self.assertEqual(done.stderr, "")
        return done.returncode, done.stdout.splitlines()

    def wrong(self, text, what):
        """The edit is wrong, and this alone is said of it."""
        self.edit(text)
        status, lines = self.run_it("--text")
        self.assertEqual(status, 1)
        self.assertEqual(lines[:-1], [f"crates/c/must-fail/e.edit:{what}"])
        self.assertRegex(lines[-1], r"^edits: 1 edits, \d replacements, 1 wrong$")

    def good(self, text, pairs=1):
        self.edit(text)
        self.assertEqual(self.run_it("--text"), (0, [f"edits: 1 edits, {pairs} replacements, 0 wrong"]))


class Texts(Tree):
    def test_good(self):
        self.good(GOOD)

    def test_text_gone(self):
        self.wrong(GOOD.replace("let a = 1;", "let a = 9;"), "4: the old: text is not in src/lib.rt")

    def test_text_twice(self):
        self.wrong("file: src/lib.rt\nold: -> u32 {\nnew: -> u64 {\n", "3: the old: text is in src/lib.rt 2 times")

    def test_file_gone(self):
        self.wrong("file: src/gone.rt\nold: a\nnew: b\n", "3: no file src/gone.rt in the crate")

    def test_file_elsewhere(self):
        self.file("crates/c/args", "a\n")
        self.wrong("file: args\nold: a\nnew: b\n", "3: args is not under src/, specs/ or proofs/")
        self.wrong("file: src/../args\nold: a\nnew: b\n", "3: it names no file, or one outside the crate")

    def test_nothing_changes(self):
        self.wrong("file: src/lib.rt\nold: let a = 1;\nnew: let a = 1;\n", "3: the new: text is the old: text")

    def test_halves(self):
        self.wrong("file: src/lib.rt\nnew: b\n", "2: no old: text stands before this new: text")
        self.wrong(GOOD + "old: a + a\n", "6: the last old: text has no new: text")
        self.wrong("file: src/lib.rt\nold: a + a\nold: let a = 1;\nnew: let a = 2;\n", "3: the old: text before this one has no new: text")
        self.wrong("# nothing\n", " it replaces nothing")
        self.wrong(GOOD + "let b = 2;\n", "5: no comment, and no file:, old: or new: line")

    def test_spaces_count(self):
        self.good("file: src/lib.rt\nold:     1\nnew:     3\n")
        self.wrong("file: src/lib.rt\nold:      1\nnew:     3\n", "3: the old: text is not in src/lib.rt")
        self.wrong("file: src/lib.rt\nold: a + a \nnew: a\n", "3: the old: text is not in src/lib.rt")
        self.wrong("file: src/lib.rt\nold: a + a\nnew:  a + a\nold:  a + a \nnew: a\n", "5: the old: text is not in src/lib.rt")

    def test_no_new_text_and_no_last_newline(self):
        self.good("file: src/lib.rt\nold: let a = 1;\nnew:")

    def test_pairs_come_after_each_other(self):
        self.good(GOOD + "old: let a = 2;\nnew: let a = 3;\n", pairs=2)
        self.wrong(GOOD + "old: let a = 1;\nnew: let a = 3;\n", "6: the old: text is not in src/lib.rt")

    def test_two_files(self):
        self.good(GOOD + "file: specs/Lib.antt\nold: x = 1\nnew: x = 2\n", pairs=2)

    def test_further_edits_too(self):
        self.edit(GOOD)
        self.edit(GOOD.replace("let a = 1;", "gone"), "f", further=True)
        status, lines = self.run_it("--text")
        self.assertEqual(status, 1)
        self.assertEqual(lines, ["crates/c/further/f.edit:4: the old: text is not in src/lib.rt", "edits: 2 edits, 2 replacements, 1 wrong"])

    def test_a_file_that_no_tool_tries(self):
        self.edit(GOOD)
        self.file("crates/c/must-fail/further/e.edit", GOOD)
        status, lines = self.run_it("--text")
        self.assertEqual((status, lines[:-1]), (1, ["crates/c/must-fail/further/e.edit: no tool tries this file: it is no .edit right in must-fail/ or further/"]))

    def test_other_folder(self):
        shutil.rmtree(os.path.join(self.folder, "crates"))
        done = subprocess.run([sys.executable, TOOL, self.folder], stdout=subprocess.PIPE, stderr=subprocess.PIPE, check=False)
        self.assertEqual(done.returncode, 2)


class Messages(Tree):
    def one(self, said):
        """The group of an edit of which rt says this, and its line."""
        shutil.rmtree(os.path.join(self.folder, "target"), ignore_errors=True)
        self.edit(GOOD)
        self.tried(said)
        status, lines = self.run_it()
        name = None
        for line in lines:
            if m := re.match(r"(a fact fails|in a law|shape or name|unclear): \d+$", line):
                name = m.group(1)
            if line.startswith("  c/e: "):
                wrong = {"shape or name": ["crates/c/must-fail/e.edit: it is refused for its shape or a name"], "unclear": ["crates/c/must-fail/e.edit: what refuses it is unclear"]}.get(name, [])
                self.assertEqual((status, lines[-1 - len(wrong) : -1] if wrong else []), (len(wrong), wrong))
                self.assertEqual(lines[-1], f"edits: 1 edits, 1 replacements, {len(wrong)} wrong")
                return name, line.strip()
        self.fail(f"no line for the edit: {lines}")
        return None

    def at(self, file, message, line=7):
        return self.one(f"refused, as it must be: ./{file}:{line}:3: error: {message}")

    def group_of(self, message):
        return self.at("proofs/two/Answers.antt", message)[0]

    def test_line(self):
        self.assertEqual(self.at("proofs/two/Answers.antt", f"`returns`: {DIFFERS}"), ("a fact fails", f"c/e: proofs/two/Answers.antt:7: `returns`: {DIFFERS}"))

    def test_facts(self):
        for message in (
            f"`returns`: {DIFFERS}",
            "`returns`: as printed, the two types first differ where one has `lib.Ieee.le` (expected), right after `mathlib.Core.Path.◌≡◌ (`",
            "`returns`: as printed, the two sides first differ where one has `borrow.Fn.Args.args_v {n = 0} c.differ_in_lengt",
            "`loop-i-preserved`: computed as a goal is, one side reads `mathlib.Core.Path.◌≡◌ (snap_ends (Rattle.envelope.specs",
            "`loop-i-preserved`: expected type `Prim.Native.Nat.◌<◌ (?8 c) (?7 c)`, but this has type `Prim.Native.Nat.◌≤◌ c.lo",
            "`louder`: expected type `⊥`, but this has type `Scaled (pos t) reversed (fin s m e) (inf r)`",
            "`returns`: `omega`: the goal does not follow from what it read. All of that holds, and the goal fails, at `c",
            "`loop-i-preserved`: list the missing equation with its arguments, or rewrite by `rw` or `simp`",
            "`returns`: give a proof of that as the last argument, `rw L t` (`rw L ?` shows it as a hole's goal), or add what is missing to the list",
        ):
            with self.subTest(message=message):
                self.assertEqual(self.group_of(message), "a fact fails")

    def test_a_fact_in_a_law(self):
        self.assertEqual(self.at("proofs/Laws.antt", f"`law`: {DIFFERS}"), ("in a law", f"c/e: proofs/Laws.antt:7: `law`: {DIFFERS}"))
        self.assertEqual(self.at("proofs/Laws.antt", f"`law`: {NO_FIELD}")[0], "shape or name")

    def test_what_failed_of_a_law(self):
        self.file("crates/c/proofs/Laws.antt", "use a.B.{c}\n\n-- A law.\npub law : (a : ℕ)\n    → two a ≡ 2\nlaw a = refl\npub pair : A × B\npair = (refl,\n    refl)   -- both\nlong : A\nlong = cong f\n    (step refl)\n")
        for line, said in ((5, "its statement: "), (6, "its statement: "), (9, "its statement: "), (10, "its statement: "), (11, "a step of its proof: "), (12, "a step of its proof: "), (99, "")):
            with self.subTest(line=line):
                self.assertEqual(self.at("proofs/Laws.antt", f"`law`: {DIFFERS}", line), ("in a law", f"c/e: proofs/Laws.antt:{line}: {said}`law`: {DIFFERS}"))

    def test_not_proved_by_search(self):
        group, line = self.one("refused, as it must be: note: src/lib.rt:5:1: it is not proved that what the function ensures holds when it returns (`returns`); `search` gave up at one of its limits")
        self.assertEqual(group, "a fact fails")
        self.assertTrue(line.startswith("c/e: src/lib.rt:5: it is not proved that"))

    def test_shapes(self):
        for message in (
            "`returns-then-b`: `goal.returns-then-b`: module `Rattle.c.proofs.two.Goals` has no `returns-then-b` that can be named from here",
            NO_FIELD,
            "`invariant-loop-i`: this pattern needs a function (or path) type to bind, but the signature at this point is `Type 0`",
            "`returns`: this is applied to an argument but has type `Type 0`, which is not a function or extension (path) type",
            "`x` is not in scope: not a local variable, nor a definition admitted earlier",
            "`returns`: `omega`: the goal is not yet determined — it mentions ?6 (`_`)",
            "`returns`: `simp`: no equation of the list can be applied in `a + b`",
            "`returns`: `rw`: no occurrence of the path's left endpoint in the goal: write the family yourself",
            "`returns`: `.9`: this `×` type has 2 components",
            "the `(` at 14:25 is never closed (reached end of file)",
            "`returns`: expected type `Words`, but this has type `a ≡ b`",
        ):
            with self.subTest(message=message):
                self.assertEqual(self.group_of(message), "shape or name")

    def test_names_alone(self):
        said = "./proofs/two/Answers.antt:5:32: error: `returns-then-b`: module `Goals` has no `returns-then-b`"
        self.assertEqual(self.one(f"{BY_NAME}: {said}"), ("shape or name", f"c/e: {said}"))

    def test_definitions_are_no_facts(self):
        self.assertEqual(self.at("specs/Lib.antt", f"`x`: {DIFFERS}")[0], "shape or name")

    def test_unclear(self):
        message = "`returns`: `omega` stopped at a bound of its own: the goal has more than 100 parts"
        self.assertEqual(self.at("proofs/two/Answers.antt", message), ("unclear", f"c/e: proofs/two/Answers.antt:7: {message}"))
        self.assertEqual(self.one("refused, as it must be"), ("unclear", "c/e: no message"))
        self.assertEqual(self.one(f"{BY_LIMIT}: antt ran out of stack")[0], "unclear")
        self.assertEqual(self.group_of(FOLLOWS), "unclear")

    def test_quoted_terms_are_not_read(self):
        self.assertEqual(self.group_of("`returns`: something else in `that is not in scope` and in `the two types x`"), "unclear")
        self.assertEqual(self.group_of("`returns`: `simp`: something else of `a b`, at `c d`, before `e f` is not in scope"), "shape or name")

    def test_long_lines_are_cut(self):
        self.assertLess(len(self.at("proofs/two/Answers.antt", "`returns`: the two types differ " + "x" * 5000)[1]), 200)

    def test_not_tried(self):
        self.edit(GOOD)
        self.edit(GOOD, "f", further=True)
        status, lines = self.run_it()
        self.assertEqual(status, 0)
        self.assertIn("not tried: 2 (1 of the gate, 1 further); tried before their crate was last changed: 0", lines)

    def test_not_finished_is_not_tried(self):
        self.edit(GOOD)
        self.tried("NOT TRIED: its check was killed, most likely for memory, so nothing is known of it: run this again")
        status, lines = self.run_it()
        self.assertEqual(status, 0)
        self.assertIn("not tried: 1 (1 of the gate); tried before their crate was last changed: 0", lines)

    def test_earlier_text(self):
        self.edit(GOOD)
        for said in (f"refused, as it must be: ./proofs/two/Answers.antt:7:3: error: `returns`: {DIFFERS}", "NOT REFUSED: the crate is still proved with this edit"):
            for name in ("src/lib.rt", "specs/Lib.antt", "proofs/two/Answers.antt", "must-fail/e.edit"):
                with self.subTest(said=said, name=name):
                    self.tried(said)
                    os.utime(os.path.join(self.folder, "crates/c", name), (2**32, 2**32))
                    status, lines = self.run_it()
                    os.utime(os.path.join(self.folder, "crates/c", name), (0, 0))
                    self.assertEqual(status, 0)
                    self.assertIn("not tried: 0; tried before their crate was last changed: 1", lines)

    def test_not_refused(self):
        for said in ("NOT REFUSED: the crate is still proved with this edit", "BAD EDIT: it did not reach the prover; the first lines of what it said:"):
            with self.subTest(said=said):
                self.edit(GOOD)
                self.tried(said)
                status, lines = self.run_it()
                self.assertEqual(status, 1)
                self.assertIn(f"crates/c/must-fail/e.edit: {said}", lines)
                self.assertEqual(lines[-1], "edits: 1 edits, 1 replacements, 1 wrong")
                self.assertEqual(self.run_it("--text")[0], 0)

    def test_further_edits_stand_apart(self):
        said = f"refused, as it must be: ./proofs/two/Answers.antt:7:3: error: `returns`: {DIFFERS}"
        self.edit(GOOD, further=True)
        self.tried(said)
        self.assertIn("not tried: 1 (1 further); tried before their crate was last changed: 0", self.run_it()[1])
        self.tried(said, further=True)
        self.assertIn("tried: 1 (1 a fact fails, 0 in a law, 0 shape or name, 0 unclear, 0 not refused)", self.run_it()[1])

    def test_edits_of_proofs_are_wrong(self):
        self.edit(GOOD)
        self.edit("file: proofs/two/Answers.antt\nold: refl\nnew: sym refl\n", "p", further=True)
        wrong = ["crates/c/further/p.edit: it changes proofs/two/Answers.antt: an edit is of src/ or specs/", "edits: 2 edits, 2 replacements, 1 wrong"]
        self.assertEqual(self.run_it("--text"), (1, wrong))
        status, lines = self.run_it()
        self.assertEqual((status, lines[-2:]), (1, wrong))


if __name__ == "__main__":
    unittest.main()
