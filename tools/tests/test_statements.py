"""The tool that holds the documents to the tree, on a small tree."""
import os
import shutil
import subprocess
import sys
import tempfile
import unittest

TOOL = os.path.join(os.path.dirname(os.path.abspath(__file__)), "..", "statements")
ROW = "| a sentence | `twice` | `crates/c/specs/Twice.antt` |"
CALL = "| Rust, `two` | `twice` | `crates/c/specs/Twice.antt` | `two` | `crates/c/src/lib.rt` |"
WALK = "c::two\n  c::part::one, other            the first, then others\n"
PUBLIC = "| `c` | `two` | `twice` | `crates/c/specs/Twice.antt` | 3, 4 |"
PARTS = "| `c` | `part::one` |"
PROMISE = "| `two()` | `twice` | `three` (a remark with `a name`), `once` † |"
HEAD = "| crate | call | definition | its file | refusals |\n|---|---|---|---|---|\n"


class Documents(unittest.TestCase):
    def setUp(self):
        folder = tempfile.TemporaryDirectory()
        self.addCleanup(folder.cleanup)
        self.folder = folder.name
        os.makedirs(os.path.join(self.folder, "tools"))
        shutil.copy(TOOL, os.path.join(self.folder, "tools"))
        self.file("crates/c/src/lib.rt", "pub mod part;\npub fn two() -> u32 {\n    2\n}\n")
        self.file("crates/c/src/part.rt", "pub fn one() -> u32 {\n    1\n}\nfn other() {}\n")
        self.file("crates/c/specs/Twice.antt", "unfoldable pub twice : ℕ\ntwice = 2\n")
        self.edit("c", "three")
        self.edit("c", "once", part="specs/Twice.antt")
        self.documents()

    def file(self, name, text):
        path = os.path.join(self.folder, name)
        os.makedirs(os.path.dirname(path), exist_ok=True)
        with open(path, "w", encoding="utf-8") as f:
            f.write(text)

    def edit(self, crate, name, folder="must-fail", part="src/lib.rt"):
        self.file(f"crates/{crate}/{folder}/{name}.edit", f"file: {part}\nold: 2\nnew: 3\n")

    def second_crate(self):
        """A crate d like c, in one section with it."""
        self.file("crates/d/src/lib.rt", "pub fn too() -> u32 {\n    2\n}\n")
        self.edit("d", "three")
        self.edit("d", "four")

    def documents(self, row=ROW, call=CALL, walk=WALK, limits="", public=PUBLIC, parts=PARTS, section="`c`", promise=PROMISE, after=""):
        self.file("docs/STATEMENTS.md", f"| clause | name | file |\n|---|---|---|\n{row}\n")
        self.file(
            "docs/ARCHITECTURE.md",
            f"| crate | holds |\n|---|---|\n| `c` | two |\n\n| source | definition | its file | code | its file |\n|---|---|---|---|---|\n{call}\n\n```text\n{walk}```\n",
        )
        self.file("docs/LIMITS.md", f"| call | definition | file |\n|---|---|---|\n| `c::two` | `twice` | `crates/c/specs/Twice.antt` |\n\n{limits}\n")
        self.file(
            "docs/PROMISES.md",
            f"{HEAD}{public}\n\n| crate | unchecked parts |\n|---|---|\n{parts}\n\n## {section}\n\n| call | definition | refused edits |\n|---|---|---|\n{promise}\n{after}\n",
        )

    def run_it(self):
        done = subprocess.run([sys.executable, os.path.join(self.folder, "tools", "statements")], stdout=subprocess.PIPE, encoding="utf-8", check=False)
        return done.returncode, done.stdout.splitlines()

    def wrong(self, what):
        status, lines = self.run_it()
        self.assertEqual((status, lines[:-1]), (1, [what]))

    def test_a_tree_that_holds(self):
        status, lines = self.run_it()
        self.assertEqual((status, lines), (0, ["statements: 9 names in 3 files, 2 edits of the gate and 0 further ones, 0 wrong"]))

    def test_a_name_that_is_gone(self):
        self.documents(row=ROW.replace("`twice`", "`thrice`"))
        self.wrong("docs/STATEMENTS.md:3: thrice is not declared in crates/c/specs/Twice.antt")

    def test_a_row_without_a_file(self):
        self.documents(row="| a sentence | `twice` | nowhere |")
        self.wrong("docs/STATEMENTS.md:3: the row names no file")

    def test_code_that_is_gone(self):
        self.documents(call=CALL.replace("| `two` |", "| `too` |"))
        self.wrong("docs/ARCHITECTURE.md:7: too is not declared in crates/c/src/lib.rt")

    def test_a_file_that_is_gone(self):
        self.documents(call=CALL.replace("lib.rt", "lob.rt"))
        self.wrong("docs/ARCHITECTURE.md:7: no file crates/c/src/lob.rt")

    def test_a_path_of_a_walk(self):
        self.documents(walk=WALK.replace("part::one", "part::won"))
        self.wrong("docs/ARCHITECTURE.md:11: no c::part::won in the code")

    def test_a_crate_of_a_walk(self):
        self.documents(walk=WALK.replace("c::two", "d::two"))
        self.wrong("docs/ARCHITECTURE.md:10: no d::two in the code")

    def test_a_module_of_a_walk(self):
        self.documents(walk=WALK.replace("c::part", "c::port").replace(", other", ""))
        self.wrong("docs/ARCHITECTURE.md:11: no c::port::one in the code")

    def test_a_name_behind_a_path(self):
        self.documents(walk=WALK.replace("other ", "outer "))
        self.wrong("docs/ARCHITECTURE.md:11: outer is not declared in crates/c/src/part.rt")

    def test_a_path_in_a_sentence(self):
        self.documents(limits="See `c::part::too`.")
        self.wrong("docs/LIMITS.md:5: no c::part::too in the code")

    def test_a_module_in_a_sentence(self):
        self.documents(limits="See `c::part`.")
        self.assertEqual(self.run_it()[0], 0)
        self.documents(limits="See `d::part`.")
        self.wrong("docs/LIMITS.md:5: no d::part in the code")

    def test_an_edit_in_both_folders(self):
        self.edit("c", "three", "further")
        self.wrong("docs/PROMISES.md:14: the edit three of c is in must-fail/ and in further/")

    def test_an_edit_that_is_gone(self):
        self.documents(promise=PROMISE.replace("`three`", "`three`, `four`"))
        self.wrong("docs/PROMISES.md:13: no edit four of c")

    def test_an_edit_named_nowhere(self):
        self.edit("c", "four", "further")
        self.wrong("docs/PROMISES.md:14: the edit four of c is named nowhere")

    def test_marks(self):
        self.documents(promise=PROMISE.replace("`three`", "`three` ‡"))
        self.assertIn("docs/PROMISES.md:13: no further edit three of c", self.run_it()[1])
        self.documents(promise=PROMISE.replace("`three`", "`three` †"))
        self.wrong("docs/PROMISES.md:13: the edit three of c changes src/, and is marked †")
        self.documents(promise=PROMISE.replace(" †", ""))
        self.wrong("docs/PROMISES.md:13: the edit once of c changes no file of src/, and is not marked †")

    def test_a_public_call_that_requires(self):
        self.file("crates/c/src/lib.rt", "pub mod part;\n// It requires { nothing }.\npub fn two() -> u32 {\n    2\n}\nfn own()\n    requires { ⌜ a ⌝ }\n{\n}\n")
        self.assertEqual(self.run_it()[0], 0)
        self.file("crates/c/src/lib.rt", "pub mod part;\npub fn two() -> u32\n    requires { ⌜ a ⌝ }\n{\n    2\n}\n")
        self.wrong("docs/PROMISES.md:3: the public call c::two has a `requires`")

    def test_a_part_may_require(self):
        self.file("crates/c/src/part.rt", "pub fn one() -> u32\n    requires { ⌜ a ⌝ }\n{\n    1\n}\nfn other() {}\n")
        self.assertEqual(self.run_it()[0], 0)

    def test_a_function_of_its_crate_alone(self):
        self.file("crates/c/src/part.rt", "pub fn one() -> u32 {\n    1\n}\npub(crate) fn other() {}\n")
        self.assertEqual(self.run_it()[0], 0)
        self.documents(parts=PARTS.replace("`part::one`", "`part::one`, `part::other`"))
        self.wrong("docs/PROMISES.md:7: there is no pub fn c::part::other")

    def test_what_a_function_of_its_crate_requires(self):
        self.file("crates/c/src/lib.rt", "pub mod part;\npub fn two() -> u32 {\n    2\n}\npub(crate) fn own()\n    requires { ⌜ a ⌝ }\n{\n}\n")
        self.assertEqual(self.run_it()[0], 0)

    def test_a_function_in_neither_table(self):
        self.documents(parts="")
        self.wrong("docs/PROMISES.md:14: the pub fn c::part::one is neither a public call nor an unchecked part")

    def test_a_function_in_both_tables(self):
        self.documents(parts=PARTS.replace("`part::one`", "`part::one`, `two`"))
        self.wrong("docs/PROMISES.md:7: c::two is listed before")

    def test_a_listed_function_that_is_gone(self):
        self.documents(parts=PARTS.replace("`part::one`", "`part::one`, `part::other`"))
        self.wrong("docs/PROMISES.md:7: there is no pub fn c::part::other")

    def test_functions_for_c_in_one_row(self):
        self.file("crates/c/src/lib.rt", 'pub mod part;\n#[no_mangle]\npub extern "C" fn c_two() -> u32 {\n    2\n}\npub extern "C" fn c_three() {\n}\nfn two() {}\n')
        self.documents(public=PUBLIC.replace("`two`", "each `c_NAME`"), promise=PROMISE.replace("`two()`", "each `c_NAME`"))
        self.assertEqual(self.run_it()[0], 0)

    def test_the_order_of_refusals(self):
        self.documents(public=PUBLIC.replace("3, 4", "1, 4"))
        self.wrong("docs/PROMISES.md:3: the refusals of c::two are not in document 01's order")

    def test_a_public_call_with_one_edit(self):
        self.documents(promise=PROMISE.replace("`three`", "`once` †"), after="\nRefused edit: `three`.")
        self.wrong("docs/PROMISES.md:3: the row of c::two names fewer than two edits")

    def test_a_public_call_without_a_row(self):
        self.documents(promise="", after="Refused edits: `three`, `once` †.")
        self.wrong("docs/PROMISES.md:3: the public call c::two has no row with its edits")

    def test_edits_of_the_call_that_is_asked(self):
        row = "| `part::one` | the same | those of `two` |"
        self.documents(public=PUBLIC.replace("`two`", "`two`, `part::one`"), parts="", promise=PROMISE + "\n" + row)
        self.assertEqual(self.run_it()[0], 0)
        self.documents(public=PUBLIC.replace("`two`", "`two`, `part::one`"), parts="", promise=PROMISE + "\n" + row.replace("`two`", "`too`"))
        self.wrong("docs/PROMISES.md:3: the row of c::part::one names fewer than two edits")

    def test_a_name_counts_for_the_crate_of_its_row(self):
        self.second_crate()
        public = PUBLIC + "\n| `d` | `too` | `twice` | `crates/c/specs/Twice.antt` | none |"
        row = "\n| `too` | `twice` | `three`, `four` |"
        self.documents(public=public, section="`c`, `d`", promise=PROMISE + row)
        self.assertEqual(self.run_it()[0], 0)
        self.documents(public=public, section="`c`, `d`", promise=PROMISE + row.replace("`three`", "in `c::part`: `three`; `d/four`"))
        self.wrong("docs/PROMISES.md:16: the edit three of d is named nowhere")

    def test_a_sentence_says_its_crate(self):
        self.second_crate()
        parts = PARTS + "\n| `d` | `too` |"
        self.documents(parts=parts, section="`c`, `d`", after="\nRefused edits of `d`: `three`, `four`.")
        self.assertEqual(self.run_it()[0], 0)
        self.documents(parts=parts, section="`c`, `d`", after="\nRefused edits: `d/three`, `d/four`, `once` †.")
        self.wrong("docs/PROMISES.md:16: it is not said of which crate the edit once is")


if __name__ == "__main__":
    unittest.main()
