import re
import subprocess
import unittest
from unittest import mock

from tests.test_tokens import REPOSITORY
from translator import items, layout, panics, proofs
from translator.source import Source


def functions_that_require(source):
    """The free functions of a source with a `requires`."""
    free = {index for index in items.free_words(source) if source.at(index) == "fn"}
    for index in source.words():
        if source.at(index) == "requires" and proofs.clause_end(source, index):
            function = panics.function_of(source, index)
            if function in free:
                yield source.at(function + 1)


# The calls at the root that require something of the caller. The crate's docs name them.
REQUIRING = {
    *("emit_nlas", "check_counted", "check_counted_of", "same_counted", "same_counted_of"),
}


class Root(unittest.TestCase):
    def test_calls_at_the_root_require_nothing(self):
        names = set()
        for file in ("lib.rs", "layers/messages/mod.rs"):
            text = (REPOSITORY / "rust/src" / file).read_text(encoding="utf-8")
            for group in re.findall(r"pub use [a-z_:]+::(\w+|\{[^}]*\});", text):
                names |= set(re.findall(r"\w+", group))
        known = {"check", "same", "canon", "canon_into", "VecLinkInfo", "message_len", "Capture"}
        self.assertLessEqual(known, names)
        required = set()
        for crate in layout.LIBRARY:
            for file in (REPOSITORY / "crates" / crate / "src").rglob("*.rt"):
                source = Source(file.read_text(encoding="utf-8"), str(file))
                required |= set(functions_that_require(source))
        self.assertIn("emit_nlas", required)
        self.assertEqual(names & required, REQUIRING)


class Package(unittest.TestCase):
    @classmethod
    def setUpClass(cls):
        cls.crates, read = [], layout.read_crate

        def remembered(*arguments):
            cls.crates.append(read(*arguments))
            return cls.crates[-1]

        with mock.patch.object(layout, "read_crate", remembered):
            cls.files = layout.package_files(REPOSITORY)

    def test_every_test_of_its_crates_is_translated(self):
        files = [file for file in REPOSITORY.glob("crates/*/src/**/*.rt")
                 if "linkinfo_build" not in file.parts]
        wanted = sum(file.read_text(encoding="utf-8").count("#[test]") for file in files)
        texts = [text for name, text in self.files.items() if name.startswith("tests/")]
        self.assertEqual(sum(text.count("#[test]") for text in texts), wanted)

    def test_every_file_says_its_source(self):
        for name, text in self.files.items():
            first = text.split("\n\n")[0]
            found = re.fullmatch(
                r"// @generated from (\S+)\s(?:// )?by rust/translate/run\.", first
            )
            self.assertTrue(found and (REPOSITORY / found.group(1)).is_file(), (name, first))
            self.assertLessEqual(max(map(len, first.split("\n"))), 100)

    def test_git_knows_the_generated_files(self):
        names = "".join(f"rust/{name}\n" for name in self.files)
        command = ["git", "check-attr", "--stdin", "linguist-generated"]
        run = subprocess.run(
            command, cwd=REPOSITORY, input=names, capture_output=True, text=True, check=True
        )
        self.assertEqual([line for line in run.stdout.splitlines() if ": set" not in line], [])

    def test_every_file_has_a_place(self):
        for crate in layout.LIBRARY:
            folder = f"src/layers/{layout.module_of(crate)}/"
            self.assertIn(folder + "mod.rs", self.files)

    def test_counts_of_what_is_put_in(self):
        libraries = [crate for crate in self.crates if crate.name in layout.LIBRARY]
        self.assertEqual(len(libraries), len(layout.LIBRARY))
        sources = [source for crate in libraries for source in crate.sources.values()]
        kinds = {kind.split(":")[0] for source in sources for kind in source.put}
        self.assertLessEqual(
            kinds,
            {"path", "import", "derive", "fallible call", "cast", "formatter", "octets"}
            | {"sign", "zeros", "multiple", "inline", "must_use", "flags", "panics", "docs"},
        )
