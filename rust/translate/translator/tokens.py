"""Cuts a source text into tokens. Nothing is lost: the tokens' texts, joined, are the text."""

import re

SPACE = re.compile(r"\s+")
WORD = re.compile(r"[A-Za-z_][A-Za-z0-9_]*")
NUMBER = re.compile(r"[0-9][A-Za-z0-9_]*(\.[0-9][A-Za-z0-9_]*)?")
LINE_COMMENT = re.compile(r"//[^\n]*")
RAW_STRING = re.compile(r'b?r(#*)"')
STRING = re.compile(r'b?"(?:[^"\\]|\\.)*"', re.S)
CHARACTER = re.compile(r"b?'(?:[^'\\\n]|\\(?:[^ux]|x[0-9A-Fa-f]{2}|u\{[0-9A-Fa-f_]+\}))'")
LIFETIME = re.compile(r"'[A-Za-z_][A-Za-z0-9_]*")


class Token:
    """A token: its kind, its text in the source, and what is written for it and beside it."""

    __slots__ = ("kind", "text", "before", "out", "after", "line", "index")

    def __init__(self, kind, text, line):
        self.kind = kind
        self.text = text
        self.before = ""
        self.out = text
        self.after = ""
        self.line = line
        self.index = 0

    @property
    def counts(self):
        """Whether rules see it: neither space nor a comment that is no doc comment."""
        return self.kind not in ("space", "comment")


def is_doc(comment):
    """Whether a line comment is a doc comment."""
    return comment.startswith(("///", "//!")) and not comment.startswith("////")


def block_comment_end(text, start):
    """The end of the block comment that begins at `start`; they nest."""
    depth, at = 0, start
    while True:
        if text.startswith("/*", at):
            depth, at = depth + 1, at + 2
        elif text.startswith("*/", at):
            depth, at = depth - 1, at + 2
            if depth == 0:
                return at
        elif at >= len(text):
            raise ValueError("a block comment without its end")
        else:
            at += 1


def next_token(text, at):
    """The kind and the end of the token at `at`."""
    if found := SPACE.match(text, at):
        return "space", found.end()
    if found := LINE_COMMENT.match(text, at):
        return ("doc" if is_doc(found.group()) else "comment"), found.end()
    if text.startswith("/*", at):
        return "comment", block_comment_end(text, at)
    if found := RAW_STRING.match(text, at):
        close = '"' + found.group(1)
        return "string", text.index(close, found.end()) + len(close)
    for kind, pattern in (
        ("string", STRING),
        ("character", CHARACTER),
        ("lifetime", LIFETIME),
        ("word", WORD),
        ("number", NUMBER),
    ):
        if found := pattern.match(text, at):
            return kind, found.end()
    return "mark", at + 1


def tokens_of(text):
    """The tokens of a text."""
    tokens, at, line = [], 0, 1
    while at < len(text):
        kind, end = next_token(text, at)
        tokens.append(Token(kind, text[at:end], line))
        tokens[-1].index = len(tokens) - 1
        line += text.count("\n", at, end)
        at = end
    return tokens
