"""Words of Rust and of Rattle: Rattle's are those of Rust, with others in clauses."""
import collections
import re

# A word, its line, and the comments between it and the word before. A path is one word.
Word = collections.namedtuple("Word", "text line comments")

PATTERN = re.compile(
    r"""
      //[^\n]* | /\*.*?\*/                           # a comment
    | b?r(\#*)".*?"\1 | b?"(?:[^"\\]|\\.)*"          # a string
    | b?'(?:[^'\\\n]|\\[^'\n]+|\\')'                 # a character
    | '?[A-Za-z_]\w*(?:::[A-Za-z_]\w*)*              # a name, a path, a lifetime
    | \d\w*(?:\.\d\w*)?                              # a number
    | ::|->|=> | \S
    """,
    re.S | re.X,
)
OPEN, CLOSE = ("(", "[", "{"), (")", "]", "}")


def words_of(text):
    words, comments, line, at = [], [], 1, 0
    for match in PATTERN.finditer(text):
        line += text.count("\n", at, match.start())
        at = match.start()
        if match.group().startswith(("//", "/*")):
            comments.append(Word(match.group().rstrip(), line, ()))
        else:
            words.append(Word(match.group(), line, tuple(comments)))
            comments = []
    return words + [Word("", line, tuple(comments))]


def texts(words, at, count):
    return [word.text for word in words[max(at, 0) : at + count]]


def closing(words, at):
    """The index of the bracket that closes the one at `at`."""
    depth = 0
    for index in range(at, len(words)):
        depth += (words[index].text in OPEN) - (words[index].text in CLOSE)
        if depth == 0:
            return index
    raise ValueError(f"line {words[at].line}: no bracket closes this one")


def item_end(words, at, ends):
    """The index after the first of `ends` that is in no bracket."""
    while words[at].text not in ends:
        at = closing(words, at) + 1 if words[at].text in OPEN else at + 1
    return at + 1


def without(words, start, end, is_item):
    """Without some words. The doc comments of an item go with it."""
    kept = [c for c in words[start].comments if not (is_item and c.text.startswith("///"))]
    following = words[end]._replace(comments=tuple(kept) + words[end].comments)
    return words[:start] + [following] + words[end + 1 :]


def visible_from(words, at):
    """The index of the `pub` or `pub(..)` of the item at `at`."""
    if words[at - 1].text == "pub":
        return at - 1
    return at - 4 if texts(words, at - 4, 2) == ["pub", "("] else at
