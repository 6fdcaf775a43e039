"""Which libraries are built side by side, and how long the longest chain is."""
import importlib.machinery
import importlib.util
import os
import unittest

PATH = os.path.join(os.path.dirname(os.path.dirname(os.path.realpath(__file__))), "libraries")
LOADER = importlib.machinery.SourceFileLoader("libraries", PATH)
libraries = importlib.util.module_from_spec(importlib.util.spec_from_loader("libraries", LOADER))
LOADER.exec_module(libraries)

# `low` is below all, `left` and `right` are beside each other, and `top` is above both.
CRATES = {"low": [], "left": ["low"], "right": ["low"], "top": ["left", "right"]}


class Libraries(unittest.TestCase):
    def test_ready(self):
        ready = libraries.ready
        self.assertEqual(ready(CRATES, ["low", "left", "right", "top"], []), ["low"])
        self.assertEqual(ready(CRATES, ["left", "right", "top"], ["low"]), [])
        self.assertEqual(ready(CRATES, ["left", "right", "top"], []), ["left", "right"])
        self.assertEqual(ready(CRATES, ["right", "top"], ["left"]), ["right"])
        self.assertEqual(ready(CRATES, ["top"], ["right"]), [])
        self.assertEqual(ready(CRATES, ["top"], []), ["top"])

    def test_shares(self):
        seconds = {"low": 10, "left": 30, "right": 20}
        shares = libraries.shares
        self.assertEqual(shares(["low"], 4, seconds), {"low": 4})
        self.assertEqual(shares(["left", "right"], 4, seconds), {"left": 2, "right": 2})
        self.assertEqual(shares(["left", "right", "low"], 4, seconds),
                         {"left": 2, "right": 1, "low": 1})
        self.assertEqual(shares(["left"], 0, seconds), {"left": 1})

    def test_longest(self):
        seconds = {"low": 10, "left": 30, "right": 20, "top": 5}
        self.assertEqual(libraries.longest(CRATES, [*CRATES], seconds), 45)
        self.assertEqual(libraries.longest(CRATES, ["right", "top"], seconds), 25)
        self.assertEqual(libraries.longest(CRATES, ["top"], {}), libraries.OF_OTHERS)
        self.assertEqual(libraries.longest(CRATES, [], seconds), 0)

    def test_told_first(self):
        first = libraries.told_first
        crates = {**CRATES, "linkinfo_c": ["top"]}
        self.assertEqual(first(crates, "linkinfo_c", ["low", "left", "right"], 1.0),
                         "4 crates are not proved here: proving them takes about 5 minutes; "
                         "'make -C c RUST=1' needs no proof")

    def test_told(self):
        told = libraries.told
        self.assertEqual(told(CRATES, ["low"], ["left", "right", "top"], 1.0),
                         "proving low, 3 crates after that, about 5 minutes")
        self.assertEqual(told(CRATES, ["left", "right"], ["top"], 1.0),
                         "proving left, right, 1 crate after that, about 3 minutes")
        self.assertEqual(told(CRATES, ["top"], [], 0.5), "proving top, about a minute")


if __name__ == "__main__":
    unittest.main()
