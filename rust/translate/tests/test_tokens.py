import pathlib
import unittest

from translator.source import Source, Unknown
from translator.tokens import tokens_of

REPOSITORY = pathlib.Path(__file__).resolve().parents[3]


class Tokens(unittest.TestCase):
    def kinds(self, text):
        return [(token.kind, token.text) for token in tokens_of(text) if token.kind != "space"]

    def test_nothing_is_lost(self):
        files = sorted(REPOSITORY.glob("crates/*/src/**/*.rt"))
        self.assertGreater(len(files), 100)
        for file in files:
            text = file.read_text(encoding="utf-8")
            self.assertEqual("".join(token.text for token in tokens_of(text)), text)

    def test_strings_and_characters(self):
        self.assertEqual(
            self.kinds("""b"a\\"}" 'x' b'\\n' '"' '\\u{7f}' 'a r#"q"x"#"""),
            [
                ("string", 'b"a\\"}"'),
                ("character", "'x'"),
                ("character", "b'\\n'"),
                ("character", "'\"'"),
                ("character", "'\\u{7f}'"),
                ("lifetime", "'a"),
                ("string", 'r#"q"x"#'),
            ],
        )

    def test_comments(self):
        kinds = [kind for kind, _ in self.kinds("//! a\n/// b\n// c\n//// d\n/* e /* f */ g */ h")]
        self.assertEqual(kinds, ["doc", "doc", "comment", "comment", "comment", "word"])

    def test_brackets(self):
        source = Source("f([a, '(', \"]\", {b}], c)", "case")
        self.assertEqual(source.at(source.close(1)), ")")
        self.assertEqual(source.close(1), len(source.kept) - 1)
        with self.assertRaises(Unknown):
            Source("f(a", "case").close(1)

    def test_lines_of_deleted_tokens_are_gone(self):
        source = Source("a\n  b\n\n  c d e\n", "case")
        source.delete(1, 2, "b")
        source.delete(3, 4, "d")
        self.assertEqual(source.text(), "a\n\n  c e\n")

    def test_comments_before_what_is_deleted_are_gone(self):
        source = Source("// x\n\n// a\n// b\nc;\n// d\ne;\n", "case")
        source.delete(0, 2, "c")
        self.assertEqual(source.text(), "// x\n\n// d\ne;\n")
