"""A small repository with two crates, `high` over `low`, and three mutants, which wrong.seen
names."""
import os
import subprocess
import tempfile
import unittest
from unittest import mock

from mutants import landing, seen
from mutants.crates import folder_of, write
from mutants.edits import edits_in

LOW = """/// Twice.
pub fn twice(n: u8) -> u16
    ensures { result ≡ 2 * n }
{
    2 * u16::from(n)
}

pub fn once(n: u8) -> u8
    ensures { result ≡ n }
{
    n
}
"""
HIGH = """pub fn four_times(n: u8) -> u16
    ensures { result ≡ 4 * n }
{
    2 * low::twice(n)
}
"""
# The mutants of a crate, by their names.
EDITS = {
    "low": {"twice": "fn: low::twice\nold: 2 * u16\nnew: 3 * u16\n",
            "once": "fn: low::once\nold: n\nnew: 0\n"},
    "high": {"four": "fn: high::four_times\nold: 2 *\nnew: 3 *\n"},
}


def in_one_file(mutants):
    return "\n".join(f"mutant: {name}\n{text}" for name, text in mutants.items())


class Repository(unittest.TestCase):
    def setUp(self):
        top = tempfile.TemporaryDirectory()
        self.addCleanup(top.cleanup)
        self.root = top.name
        for path, text in {
            "crates.txt": "low:\nhigh: low\n",
            "wrong": "the script\n",
            "gate/mutants/batches.py": "from . import steps\nfrom .quick import Quick\n",
            "gate/mutants/main.py": "the command\n",
            "gate/mutants/quick.py": "a module that judges\n",
            "gate/mutants/steps.py": "another\n",
            "crates/low/src/lib.rt": LOW,
            "crates/low/specs/Lib.antt": "-- A comment.\npub mod Two\n",
            "crates/high/src/lib.rt": HIGH,
            **{f"crates/{it}/wrong/lib.edits": in_one_file(EDITS[it]) for it in EDITS},
        }.items():
            self.put(path, text)
        self.git("init", "-q")
        self.commit()
        self.patch(seen, "ROOT", self.root)
        self.patch(seen, "SEEN", f"{self.root}/wrong.seen")
        self.patch(seen, "toolchain", lambda: "the toolchain")
        self.write_all()

    def patch(self, module, name, value):
        patch = mock.patch.object(module, name, value)
        patch.start()
        self.addCleanup(patch.stop)

    def write_all(self):
        """Names the present commit in wrong.seen for both crates."""
        return [seen.write_seen(it) for it in ("low", "high")]

    def put(self, path, text):
        os.makedirs(os.path.dirname(f"{self.root}/{path}"), exist_ok=True)
        write(f"{self.root}/{path}", text)

    def change(self, path, old, new):
        with open(f"{self.root}/{path}", encoding="utf-8") as it:
            text = it.read()
        self.assertIn(old, text)
        write(f"{self.root}/{path}", text.replace(old, new))

    def git(self, *words):
        who = ["-c", "user.name=it", "-c", "user.email=it@example.org"]
        subprocess.run(["git", *who, *words], cwd=self.root, check=True)

    def commit(self):
        self.git("add", "-A")
        self.git("commit", "-q", "-m", "A state")

    def edits(self):
        return [edit for it in ("low", "high")
                for edit in edits_in(it, folder_of(it, self.root))[0]]

    def plan(self, drawn=0, known=()):
        """What is tried at a landing that draws so many."""
        with mock.patch.object(landing, "DRAWN", drawn):
            return landing.Plan(self.edits(), known)

    def tried(self, drawn=0):
        """The names of the edits that are tried."""
        plan = self.plan(drawn)
        self.said = plan.said
        return sorted(it.form.name for group in plan.groups for it in group)
