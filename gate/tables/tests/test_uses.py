"""The table of uses beside the calls of the kernel's drivers."""
import pathlib
import tempfile
import unittest

from tables import lists, rows, uses

TABLE = """# Uses

family  use       types
Bond    ReadOnly  1 23
Can     Command   7
"""


class Uses(unittest.TestCase):
    def test_the_use_of_each_type(self):
        with tempfile.TemporaryDirectory() as folder:
            (pathlib.Path(folder) / "uses").write_text(TABLE, encoding="utf-8")
            self.assertEqual(uses.read(pathlib.Path(folder)), {
                ("Bond", 1): "ReadOnly", ("Bond", 23): "ReadOnly", ("Can", 7): "Command"})

    def test_what_the_calls_say_otherwise(self):
        for use, said, wrong in [
                ("ReadWrite", ["get u8", "put u8"], False), ("ReadWrite", ["put u8"], True),
                ("ReadWrite", ["get u8", "policy U8"], True),
                ("ReadWrite", ["policy U8", "put u8"], False),
                ("ReadOnly", ["put u8"], False), ("ReadOnly", ["get u8", "put u8"], True),
                ("ReadOnly", ["policy U8"], True), ("Command", ["get u8"], False),
                ("Command", ["put u8"], True), ("NeverReturned", ["policy U8"], False),
                ("NeverReturned", ["get u8", "put u8"], True)]:
            with self.subTest(use=use, said=said):
                self.assertEqual(bool(uses.wrong(use, said)), wrong)

    def check(self, calls, known=""):
        row = rows.Row("tables/a:1", 1, "", ("IFLA_A",), ("A",), "U8", "", "a", "")
        family = rows.Family(("A",), "a", {}, (row,))
        return uses.check([family], calls, lists.Listed(known), {("A", 1): "ReadOnly"})

    def test_a_row_is_named_unless_it_is_known(self):
        self.assertEqual(self.check({"IFLA_A": ["put u8"]})[0], [])
        self.assertEqual(self.check({})[1]["not described"], 1)
        wrong, counts = self.check({"IFLA_A": ["get u8", "put u8"]})
        self.assertEqual((len(wrong), counts["agree"]), (1, 0))
        self.assertIn("tables/a:1: IFLA_A is ReadOnly in tables/uses", wrong[0])
        known = "IFLA_A  for a reason"
        self.assertEqual(self.check({"IFLA_A": ["get u8", "put u8"]}, known)[0], [])
        self.assertEqual(self.check({"IFLA_A": ["put u8"]}, known)[0],
                         ["gate/tables/not_as_used: IFLA_A does not differ"])
