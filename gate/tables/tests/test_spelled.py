"""Tests of what tables/generate asks before it writes: names that are there, and can be in code."""
import pathlib
import shutil
import subprocess
import tempfile
import unittest

ROOT = pathlib.Path(__file__).resolve().parents[3]
# A table, a text in it, what is in its place, and the line that is said.
EDITS = [
    ("xfrm", "LINK              Link ", "LIMK              Link ",
     "tables/xfrm:8: the kernel's headers have no IFLA_XFRM_LIMK"),
    ("xfrm", "LINK              Link ", "LINK              link ",
     "tables/xfrm:8: link is no name of a variant"),
    ("xfrm", "Le32    link", "Le32    others", "tables/xfrm:8: others is no member"),
    ("xfrm", "HexOrZero", "Hexx", "tables/xfrm:10: Hexx is no format of docs/SHOW.md"),
    ("xfrm", "links   xfrm", "links   xfrmm",
     "tables/xfrm:1: xfrmm of its line `links` is no kind of tables/kinds"),
    ("ovpn", "links   ovpn (Other)", "links   ovpn",
     "tables/ovpn:1: ovpn of its line `links` is no kind of tables/kinds"),
    ("xfrm", "about   an", "note    an", "tables/xfrm:1: the head has no line `about`"),
    ("kinds", "\n2     dummy", "\n70000  dummy", "tables/kinds:4: code 70000 is not below 65,536"),
]


class Spelled(unittest.TestCase):
    def test_each(self):
        """Each is one line on standard error, with status 1, and nothing else is written."""
        with tempfile.TemporaryDirectory() as name:
            top = pathlib.Path(name)
            for folder in ("tables", "gate/tables"):
                shutil.copytree(ROOT / folder, top / folder)
            shutil.copytree(ROOT / "docs", top / "docs")
            shutil.copytree(ROOT / "gate/show", top / "gate/show")
            self.assertEqual(self.said(top), ("", "", 0))
            for table, old, new, said in EDITS:
                path = top / "tables" / table
                text = path.read_text(encoding="utf-8")
                self.assertEqual(text.count(old), 1, old)
                path.write_text(text.replace(old, new), encoding="utf-8")
                output, error, status = self.said(top)
                self.assertEqual((output, status), ("", 1))
                self.assertTrue(error.startswith(said) and error.count("\n") == 1, error)
                path.write_text(text, encoding="utf-8")

    def said(self, top):
        """What the command says in a folder."""
        ran = subprocess.run([top / "gate/tables/run", "--spelled"], capture_output=True, text=True,
                             check=False)
        return ran.stdout, ran.stderr, ran.returncode
