"""Tests of what is stored and fetched, and of what is planted."""
import pathlib
import tempfile
import time
import unittest
from unittest import mock

from tables import evidence, fetch, headers, planted


def of_version(version, **numbers):
    """Evidence with one enum."""
    return evidence.Evidence(version, [headers.Group("if_link.h", numbers)], [], {}, [])


class Evidence(unittest.TestCase):
    """Headers that are stored and fetched."""
    KEPT = of_version("7.2-1", IFLA_FOO_ID=1, IFLA_FOO_KEY=2)

    def fetched(self, version, text):
        """What is taken where headers of this version and text can be fetched."""
        with tempfile.TemporaryDirectory() as folder:
            path = pathlib.Path(folder)
            (path / "if_link.h").write_text(text, encoding="utf-8")
            newest = (version, path) if version else None
            with mock.patch.object(fetch, "headers", return_value=newest), \
                    mock.patch.object(fetch, "is_newer", side_effect=lambda a, b: a > b):
                return evidence.with_fetched_headers(self.KEPT, ([], []))

    def test_newest(self):
        """Headers that are no older than those that are stored are taken; else it is said why
        not."""
        text = "enum { IFLA_FOO_UNSPEC, IFLA_FOO_ID };"
        given, said = self.fetched("7.3-1", text)
        self.assertEqual((given.version, given.numbers),
                         ("7.3-1", {"IFLA_FOO_UNSPEC": 0, "IFLA_FOO_ID": 1}))
        self.assertIn("those of 7.3-1 are taken; gate/tables/run --write stores them", said)
        self.assertEqual(self.fetched("7.2-1", text)[1], "those of 7.2-1 are taken")
        for version, why in (("7.1-1", "is newer than 7.1-1"), (None, "no headers could be")):
            given, said = self.fetched(version, text)
            self.assertEqual(given, self.KEPT)
            self.assertIn(why, said)
            self.assertIn("the stored list of 7.2-1", said)

    def test_altered(self):
        """A stored number that headers do not have is named; a new or a missing name is not."""
        self.assertEqual(evidence.altered(self.KEPT, of_version("7.3", IFLA_FOO_ID=1, NEW=5)), [])
        self.assertEqual(evidence.altered(self.KEPT, of_version("7.3", IFLA_FOO_KEY=3)), [
            "gate/tables/stored/headers.txt: IFLA_FOO_KEY is 3 in the headers of 7.3, not 2"])

    def test_stored(self):
        """What is stored is of one kernel, and has the attributes of the list itself."""
        texts = [path.read_text(encoding="utf-8") for path in evidence.STORED.values()]
        kept = evidence.stored()
        self.assertTrue(all(f" of Linux {kept.version}" in it.splitlines()[0] for it in texts))
        self.assertEqual(kept.numbers["IFLA_INFO_SLAVE_DATA"], 5)
        self.assertEqual(kept.calls["IFLA_VXLAN_LABEL"], ["get be32", "policy U32", "put be32"])


class Fetch(unittest.TestCase):
    """How a package is fetched."""

    def came(self, script, seconds):
        """What is said where the fetching script is this one."""
        with tempfile.TemporaryDirectory() as folder:
            path = pathlib.Path(folder) / "packages"
            path.write_text(f"#!/bin/sh\n{script}\n", encoding="utf-8")
            path.chmod(0o755)
            with mock.patch.object(fetch, "PACKAGES", path):
                return fetch.package(path.parent / "to", "suite", "name", seconds)

    def test_package(self):
        """It comes, does not come, or does not come in time, and then nothing goes on."""
        self.assertTrue(self.came('[ "$2 $3 $4" = "suite ^name$ name" ]', 60))
        self.assertFalse(self.came("exit 1", 60))
        began = time.monotonic()
        self.assertFalse(self.came("sleep 60 & wait", 0.2))
        self.assertLess(time.monotonic() - began, 30)


class Planted(unittest.TestCase):
    """How errors are planted."""

    def test_table(self):
        """Cells of rows are changed, by the name in the second column."""
        with tempfile.TemporaryDirectory() as folder:
            path = pathlib.Path(folder) / "it"
            path.write_text("# It\n\n1    ID   Id   U8\n      ID\n    2  KEY  Key  U8\n",
                            encoding="utf-8")
            planted.changed_table(path, [("ID", "layout", "Le32"), ("KEY", "type", "3")],
                                  planted.COLUMNS)
            self.assertEqual(path.read_text(encoding="utf-8"),
                             "# It\n\n1  ID  Id  Le32\n      ID\n    3  KEY  Key  U8\n")

    def test_edits(self):
        """Each name and number of a line is changed in turn, but for the type of a variant."""
        text = 'x\n(1, "id", Word(Words::Df)),\n'
        self.assertEqual([it for _, it in planted.edits(text, [(2, text[2:])])], [
            text.replace("1", "2"), text.replace("id", "idX"), text.replace("Word(", "WordX("),
            text.replace("Df", "DfX")])


if __name__ == "__main__":
    unittest.main()
