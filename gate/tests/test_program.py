"""Tests of gate/program: which build of a program is taken, and how one without a proof is made."""
import os
import shutil
import subprocess
import tempfile
import unittest

GATE = os.path.dirname(os.path.dirname(os.path.realpath(__file__)))
# What stands for the toolchain: `rt try` builds a program that copies its input in capitals, runs
# it in a folder of its own, and removes that; `rt run` writes it as the proved one.
RT = """#!/bin/sh
case $1 in
  try)
    mkdir -p "$TMPDIR/some/native" && cp ../../built "$TMPDIR/some/native/program" &&
      : >"$TMPDIR/some/native/stdin" && sleep 0.2 && rm -r "$TMPDIR/some" ;;
  run)
    mkdir -p out && cp ../../built out/linkinfo_tool ;;
esac
"""
BUILT = "#!/bin/sh\nexec tr a-z A-Z\n"


def write(path, text):
    os.makedirs(os.path.dirname(path), exist_ok=True)
    with open(path, "w", encoding="utf-8") as it:
        it.write(text)
    os.chmod(path, 0o755)


class TestProgram(unittest.TestCase):
    def setUp(self):
        kept = tempfile.TemporaryDirectory()
        self.addCleanup(kept.cleanup)
        self.top = os.path.realpath(kept.name)
        crate = f"{self.top}/crates/linkinfo_tool"
        write(f"{self.top}/crates.txt", "linkinfo_tool:\n")
        write(f"{crate}/src/main.rt", "fn main() {}\n")
        write(f"{crate}/stdin", "ab\n")
        write(f"{crate}/stdout", "AB\n")
        write(f"{self.top}/built", BUILT)
        write(f"{self.top}/bin/rt", RT)
        for name in ("run", "gate/program", "gate/libraries"):
            os.makedirs(os.path.dirname(f"{self.top}/{name}"), exist_ok=True)
            shutil.copy(f"{os.path.dirname(GATE)}/{name}", f"{self.top}/{name}")
        shutil.copytree(f"{GATE}/mutants", f"{self.top}/gate/mutants")

    def run_it(self, *arguments, path=""):
        env = {**os.environ, "PATH": path or f"{self.top}/bin:{os.environ['PATH']}"}
        return subprocess.run([f"{self.top}/run", *arguments], input="check\n", text=True, env=env,
                              capture_output=True, check=False)

    def test_built_without_a_proof_once(self):
        first = self.run_it()
        self.assertEqual((first.stdout, first.returncode), ("CHECK\n", 0))
        self.assertIn("building", first.stderr)
        self.assertIn("'./run --proved'", first.stderr)
        self.assertEqual(first.stderr.count("\n"), 1)
        self.assertEqual(os.listdir(f"{self.top}/out"), ["linkinfo_tool"])
        second = self.run_it()
        self.assertEqual(second.stdout, "CHECK\n")
        self.assertNotIn("building", second.stderr)

    def test_built_again_where_a_source_is_younger(self):
        self.run_it()
        os.utime(f"{self.top}/out/linkinfo_tool", (1, 1))
        self.assertIn("building", self.run_it().stderr)

    def test_another_output_than_the_stored_one(self):
        write(f"{self.top}/built", BUILT.replace("A-Z", "B-ZA"))
        ran = self.run_it()
        self.assertEqual((ran.stdout, ran.returncode), ("", 1))
        self.assertIn("does not write what", ran.stderr)
        self.assertEqual(os.listdir(f"{self.top}/out"), [])

    def test_no_program_built(self):
        write(f"{self.top}/bin/rt", "#!/bin/sh\necho 'error: here' >&2\nexit 1\n")
        ran = self.run_it()
        self.assertEqual((ran.stdout, ran.returncode), ("", 1))
        self.assertIn("error: here", ran.stderr)

    def test_proved(self):
        ran = self.run_it("--proved")
        self.assertEqual((ran.stdout, ran.stderr, ran.returncode), ("CHECK\n", "", 0))
        self.assertEqual(self.run_it().stderr, "")
        os.utime(f"{self.top}/crates/linkinfo_tool/out/linkinfo_tool", (1, 1))
        self.assertIn("not proved here", self.run_it().stderr)

    def test_status_of_the_program(self):
        write(f"{self.top}/built", "#!/bin/sh\ntr a-z A-Z\n[ $# = 0 ] || exit 3\n")
        self.assertEqual(self.run_it("given").returncode, 3)

    def test_without_the_toolchain(self):
        bin_without = f"{self.top}/plain"
        os.makedirs(bin_without)
        for name in ("bash", "dirname", "env", "python3", "readlink"):
            os.symlink(shutil.which(name), f"{bin_without}/{name}")
        ran = self.run_it(path=bin_without)
        self.assertEqual((ran.stdout, ran.returncode), ("", 127))
        self.assertIn("cargo run --manifest-path rust/Cargo.toml --example linkinfo", ran.stderr)
        self.assertIn("gate/crate_sources", ran.stderr)


if __name__ == "__main__":
    unittest.main()
