"""Whole files, parts of files, and what follows from no table any more."""
import pathlib
import subprocess
import sys
import tempfile
import unittest

sys.path.insert(0, str(pathlib.Path(__file__).resolve().parent.parent))

from generator import parts  # noqa: E402
from generator.parts import Part, Whole  # noqa: E402

TEXT = """fn a() {
    // Begin: written by tables/generate from tables/kinds (arms).
    old
    // End: written by tables/generate.
}
"""


class Parts(unittest.TestCase):
    def setUp(self):
        self.root = pathlib.Path(self.enterContext(tempfile.TemporaryDirectory()))
        (self.root / "a.rt").write_text(TEXT, encoding="utf-8")
        (self.root / ".gitattributes").write_text(
            "# Begin: written by tables/generate from tables/families.\n"
            "/lines.in linkinfo-generated\n/lines.in linguist-generated\n"
            "# End: written by tables/generate.\n", encoding="utf-8")
        subprocess.run(["git", "init", "-q", self.root], check=True)

    def files(self, *outputs):
        return parts.files(self.root, outputs)

    def test_a_part_takes_the_place_of_the_old_one(self):
        found = self.files(Part("a.rt", "kinds (arms)", "    new\n    er\n"))
        self.assertEqual(found, {"a.rt": TEXT.replace("    old\n", "    new\n    er\n")})

    def test_an_empty_line_before_the_end_stays(self):
        text = TEXT.replace("old\n", "old\n\n")
        (self.root / "a.rt").write_text(text, encoding="utf-8")
        self.assertEqual(self.files(Part("a.rt", "kinds (arms)", "    new\n\n"))["a.rt"],
                         text.replace("old", "new"))

    def test_a_part_that_is_missing_or_there_twice(self):
        for name, count in (("kinds", 0), ("kinds (arms)", 2)):
            (self.root / "a.rt").write_text(TEXT * 2, encoding="utf-8")
            with self.assertRaises(parts.Missing) as error:
                self.files(Part("a.rt", name, "new\n"))
            self.assertEqual(str(error.exception),
                             f"a.rt: {count} parts from tables/{name}, and not one")

    def test_a_whole_file_says_its_table(self):
        for path, first in (("b.rt", "// Written by tables/generate from tables/amt.\n"),
                            ("b.antt", "-- Written by tables/generate from tables/amt.\n"),
                            ("b.md", "<!-- Written by tables/generate from tables/amt. -->\n")):
            self.assertEqual(self.files(Whole(path, "amt", "text\n"))[path], f"{first}text\n")
        self.assertEqual(self.files(Whole("b.in", "", "text\n"))["b.in"], "text\n")

    def test_the_list_of_whole_files(self):
        outputs = [Whole("c.rt", "amt", ""), Part("a.rt", "kinds (arms)", ""),
                   Whole("b.in", "", "")]
        self.assertEqual(parts.attributes(outputs).text,
                         "/b.in linguist-generated\n/c.rt linguist-generated\n")

    def test_what_no_table_gives(self):
        for path in ("lines.in", "gone.rt", "kept.rt"):
            (self.root / path).write_text("// Written by tables/generate from tables/amt.\n",
                                          encoding="utf-8")
        outputs = [Whole("kept.rt", "amt", ""), Part(".gitattributes", "families", "")]
        self.assertEqual(parts.without_table(self.root, outputs),
                         (["gone.rt", "lines.in"], [("a.rt", "kinds (arms)")]))
        outputs += [Part("a.rt", "kinds (arms)", ""), Whole("lines.in", "", "")]
        self.assertEqual(parts.without_table(self.root, outputs), (["gone.rt"], []))


if __name__ == "__main__":
    unittest.main()
