"""What the tests of the rules share."""

import unittest

from translator.source import Source
from translator.tokens import tokens_of


def words(text):
    """The tokens of a text that count, with single spaces between them."""
    return " ".join(token.text for token in tokens_of(text) if token.counts)


class RuleTest(unittest.TestCase):
    """A test of one rule."""

    def assert_written(self, rule, text, wanted):
        """The rule writes the wanted text for the text, but for its layout."""
        source = Source(text, "case")
        rule(source)
        self.assertEqual(words(source.text()), words(wanted))

    def assert_kept(self, rule, text):
        """The rule changes nothing."""
        self.assert_written(rule, text, text)
