"""The command as a whole, in a small repository with two crates of six mutants each, over a command
`rt` that proves a function where its body adds the number in its name."""
import os
import re
import shutil
import subprocess
import tempfile
import unittest

from mutants.crates import ROOT, write

RT = r"""#!/usr/bin/env python3
import os, re, sys

if sys.argv[1] == "version":
    print("a toolchain")
if sys.argv[1] != "check":
    sys.exit()
crate = os.path.basename(os.getcwd())
proved = True
with open("src/lib.rt", encoding="utf-8") as it:
    found = re.findall(r"fn ([a-z]+(\d)\w*)\([^{]*\{[^}]*\}\n\{\n    n \+ (\d)\n\}", it.read())
for name, own, added in found:
    answers = f"proofs/{name}/Answers.antt"
    is_stubbed = os.path.exists(answers)
    if is_stubbed:
        print(f"./{answers}:3:1: error: `unasked`: no such goal")
    is_right = own == added or name.startswith("weak")
    if not is_right:
        print("note: src/lib.rt:1:1: it is not proved that what it ensures holds (`returns`)")
    proved = proved and is_right and not is_stubbed
    print(f"fn {crate}::{name}: {'proved' if is_right and not is_stubbed else 'not proved'}")
print("logic=proved" if proved else "logic=not-proved")
sys.exit(not proved)
"""


def source(names):
    return "\n".join(f"pub fn {it}(n: u8) -> u8\n    ensures {{ result ≡ n + {it[-1]} }}\n"
                     f"{{\n    n + {it[-1]}\n}}\n" for it in names)


def mutants(crate, names):
    return "\n".join(f"mutant: {it}_adds_nine\nfn: {crate}::{it}\nold: {it[-1]}\nnew: 9\n"
                     for it in names)


class Command(unittest.TestCase):
    def setUp(self):
        top = tempfile.TemporaryDirectory()
        self.addCleanup(top.cleanup)
        self.root, self.rt = f"{top.name}/repository", f"{top.name}/bin"
        os.makedirs(f"{self.root}/gate/mutants")
        for it in os.listdir(f"{ROOT}/gate/mutants"):
            if it.endswith(".py"):
                shutil.copy(f"{ROOT}/gate/mutants/{it}", f"{self.root}/gate/mutants/{it}")
        shutil.copy(f"{ROOT}/wrong", f"{self.root}/wrong")
        self.put(f"{self.rt}/rt", RT)
        os.chmod(f"{self.rt}/rt", 0o755)
        self.put(f"{self.root}/.gitignore", "out/\n")
        self.put(f"{self.root}/crates.txt", "one:\ntwo:\n")
        for crate in ("one", "two"):
            self.crate(crate, [f"plus{it}" for it in range(1, 7)])
        subprocess.run(["git", "init", "-q"], cwd=self.root, check=True)
        self.commit()

    def put(self, path, text):
        os.makedirs(os.path.dirname(path), exist_ok=True)
        write(path, text)

    def crate(self, crate, names):
        self.put(f"{self.root}/crates/{crate}/src/lib.rt", source(names))
        self.put(f"{self.root}/crates/{crate}/wrong/lib.edits", mutants(crate, names))

    def commit(self):
        who = ["-c", "user.name=it", "-c", "user.email=it@example.org"]
        for words in (["add", "-A"], [*who, "commit", "-q", "--allow-empty", "-m", "A state"]):
            subprocess.run(["git", *words], cwd=self.root, check=True)

    def run_with(self, *words):
        """The status of the command, and its lines."""
        path = {"PATH": f"{self.rt}:{os.environ['PATH']}", "WRONG_JOBS": "1"}
        ran = subprocess.run(["./wrong", *words], cwd=self.root, env={**os.environ, **path},
                             stdout=subprocess.PIPE, stderr=subprocess.STDOUT, text=True,
                             check=False)
        return ran.returncode, ran.stdout.splitlines()

    def rejected(self, lines):
        return {it[1] for it in (re.match(r"wrong: (\S+): rejected: ", it) for it in lines) if it}

    def test_all_in_time(self):
        status, lines = self.run_with("--minutes=60", "one", "two")
        self.assertEqual((status, lines[-1]), (0, "12 passed, 0 failed"), lines)
        self.assertEqual(len(self.rejected(lines)), 12)
        self.assertFalse([it for it in lines if "waits" in it])

    def test_a_contract_that_accepts_a_mutant(self):
        self.crate("one", ["plus1", "weak2"])
        status, lines = self.run_with("--minutes=60", "one", "two")
        self.assertEqual((status, lines[-1]), (1, "7 passed, 1 failed"), lines)
        self.assertTrue([it for it in lines
                         if "one/wrong/lib/weak2_adds_nine: FAILED: NOT REJECTED" in it])

    def test_runs_of_a_checkout_go_on(self):
        # (so little that each run has time for the first check of one group alone)
        status, lines = self.run_with("--minutes=0.0001", "one", "two")
        first = self.rejected(lines)
        crate, other = sorted(["one", "two"], key=lambda it: f"{it}/wrong/lib/plus1_adds_nine"
                              not in first)
        self.assertEqual((status, len(first), lines[-1]), (0, 6, "6 passed, 0 failed"), lines)
        self.assertEqual(lines[-2], "wrong: waits: 6 mutants out of date, neither passed nor "
                                    f"failed: {other} 6")
        self.assertTrue(all(it.startswith(f"{crate}/") for it in first))
        lines = self.run_with("--minutes=60", "one", "two")[1]
        self.assertTrue(all(it.startswith(f"{other}/") for it in self.rejected(lines)))
        self.assertEqual(lines[-2:], ["wrong: 6 mutants tried, 0 of them drawn; 6 not tried, since "
                                      "nothing that their verdict rests on has changed",
                                      "6 passed, 0 failed"])
        for words in (["one", "two"], ["--minutes=60", "one", "two"]):
            self.assertEqual(self.run_with(*words)[1][-1], "0 passed, 0 failed")

    def test_another_commit_in_a_fresh_checkout_tries_others(self):
        firsts = set()
        # (each commit's name decides between two crates, so that 40 of them do not all agree)
        for _ in range(40):
            lines = self.run_with("--plan", "--minutes=0.0001", "one", "two")[1]
            firsts.add(re.match(r"wrong: tries: (\w+) 6 ", lines[1])[1])
            if len(firsts) == 2:
                break
            self.commit()
        self.assertEqual(firsts, {"one", "two"})

    def test_own_text_first_and_named(self):
        self.run_with("--all", "one", "two")
        self.commit()
        self.put(f"{self.root}/crates/two/wrong/lib.edits",
                 mutants("two", ["plus1", "plus2"]).replace("new: 9", "new: 8"))
        self.put(f"{self.root}/crates/one/specs/Lib.antt", "pub mod One\n")
        self.commit()
        status, lines = self.run_with("--plan", "one", "two")
        self.assertEqual((status, lines[1:3]), (0, [
            "wrong: tries: two 2 (2 changed, 0 drawn), 37 s",
            "wrong: tries: one 6 (0 changed, 0 drawn), 98 s"]))
        status, lines = self.run_with("--minutes=0", "one", "two")
        self.assertEqual((status, lines[-4:]), (0, [
            "wrong: waits: two/wrong/lib/plus1_adds_nine: its own text or function has changed",
            "wrong: waits: two/wrong/lib/plus2_adds_nine: its own text or function has changed",
            "wrong: waits: 8 mutants out of date, neither passed nor failed: one 6, two 2",
            "0 passed, 0 failed"]))

    def test_all_of_a_crate_is_written(self):
        status, lines = self.run_with("--all", "one")
        self.assertEqual((status, lines[-1]), (0, "6 passed, 0 failed"), lines)
        with open(f"{self.root}/wrong.seen", encoding="utf-8") as it:
            self.assertRegex(it.read(), r"^one [0-9a-f]{40} a toolchain\n$")
        lines = self.run_with("--plan", "one", "two")[1]
        self.assertIn("has a commit of 1 of 2 crates", lines[0])
        self.assertEqual({it.rpartition(",")[0] for it in lines[1:-1]},
                         {"wrong: tries: one 6 (0 changed, 6 drawn)",
                          "wrong: tries: two 6 (0 changed, 0 drawn)"})

    def test_a_file_with_an_error(self):
        path = f"{self.root}/crates/one/wrong/lib.edits"
        text = mutants("one", ["plus1", "plus2"])
        self.put(path, text.replace("new: 9\n\n", "nwe: 9\n\n"))
        for words in (["--minutes=60", "one"], ["one"], ["--plan", "one"], ["--all", "one"]):
            status, lines = self.run_with(*words)
            self.assertEqual(status, 1)
            self.assertIn("wrong: one/wrong/lib/plus1_adds_nine: FAILED: crates/one/wrong/"
                          "lib.edits:4: a mutant has no such line: nwe: 9", lines)


if __name__ == "__main__":
    unittest.main()
