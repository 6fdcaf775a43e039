"""A source file as a list of tokens that rules delete, replace, and put text beside."""

import collections

from .tokens import tokens_of

CLOSING = {"(": ")", "[": "]", "{": "}"}


class Unknown(Exception):
    """A form that no rule knows."""


class Source:
    """A file: `kept` are the tokens that count and were not deleted. Indices go into `kept`."""

    def __init__(self, text, name):
        self.name = name
        self.tokens = tokens_of(text)
        self.deleted = collections.Counter()
        self.put = collections.Counter()
        self.kept = [t for t in self.tokens if t.counts]
        self.refresh()

    def refresh(self):
        """Forgets the deleted tokens. Each rule calls it once it has deleted."""
        self.kept = [t for t in self.kept if t.out]
        self.kept_words = None

    def at(self, index):
        """What is written for the token, or nothing outside the file."""
        return self.kept[index].out if 0 <= index < len(self.kept) else ""

    def kind(self, index):
        return self.kept[index].kind if 0 <= index < len(self.kept) else ""

    def is_word(self, index, *words):
        """Whether the token is a word, one of these if any are given."""
        return self.kind(index) == "word" and (not words or self.at(index) in words)

    def reads(self, index, *words):
        """Whether these tokens are at the index, one after another."""
        for k, word in enumerate(words, index):
            if self.at(k) != word:
                return False
        return True

    def is_path(self, index):
        """Whether `::` is at the index."""
        return self.reads(index, ":", ":")

    def unknown(self, index, what):
        """The error that names what no rule knows, and where."""
        line = self.kept[index].line if 0 <= index < len(self.kept) else 0
        text = " ".join(map(self.at, range(index, index + 8)))
        return Unknown(f"{self.name}:{line}: {what}: {text}")

    def close(self, index):
        """The index of the bracket that closes the one at the index."""
        wanted = []
        for at in range(index, len(self.kept)):
            text = self.at(at) if self.kind(at) == "mark" else ""
            if text in CLOSING:
                wanted.append(CLOSING[text])
            elif text and text in CLOSING.values():
                if wanted.pop() != text:
                    break
                if not wanted:
                    return at
        raise self.unknown(index, "a bracket that is not closed")

    def end_of(self, index, stops):
        """The index of the first of the stops, outside brackets, or of the bracket around."""
        while self.at(index) not in stops:
            if index >= len(self.kept):
                raise self.unknown(index - 1, "an item without an end")
            if self.kind(index) == "mark" and self.at(index) in CLOSING:
                index = self.close(index) + 1
            elif self.kind(index) == "mark" and self.at(index) in CLOSING.values():
                return index
            else:
                index += 1
        return index

    def words(self):
        """The indices of the words."""
        if self.kept_words is None:
            self.kept_words = [k for k, t in enumerate(self.kept) if t.kind == "word"]
        return self.kept_words

    def front(self, index):
        """The index of the first of the docs and `pub` right before the item at the index."""
        while index > 0:
            if self.kind(index - 1) == "doc" and self.at(index - 1).startswith("///"):
                index -= 1
            elif self.is_word(index - 1, "pub"):
                index -= 1
            else:
                return index
        return index

    def delete(self, start, end, kind):
        """Deletes the tokens from `start` up to `end`; counts one of a kind."""
        if start < end:
            first, last = self.kept[start].index, self.kept[end - 1].index
            self.delete_comments(self.comments_before(first), last)
        for token in self.kept[start:end]:
            token.out = ""
            self.close_gap(token.index)
        self.deleted[kind] += 1

    def comments_before(self, index):
        """The index of the first comment right before the token; each is alone on its line."""
        at = index
        while at > 1 and "\n" in self.tokens[at - 1].text and self.tokens[at - 1].kind == "space":
            if self.tokens[at - 1].text.count("\n") > 1 or self.tokens[at - 2].kind != "comment":
                break
            at -= 2
        return at

    def delete_comments(self, first, last):
        """Comments inside what is deleted, and right before it, speak of it."""
        for token in self.tokens[first:last]:
            if token.kind == "comment":
                token.out = ""

    def close_gap(self, index):
        """Of the spaces on both sides of a deleted token in its line, leaves one."""
        after = self.tokens[index + 1] if index + 1 < len(self.tokens) else None
        if after and after.kind == "space" and "\n" not in after.text:
            before = self.tokens[index - 1].out if index else ""
            if before == "" or before[-1] in " \n([{":
                after.out = ""

    def replace(self, index, text, kind):
        """Writes the text in place of the token."""
        self.kept[index].out = text
        self.put[f"{kind}: {text}"] += 1

    def put_before(self, index, text, kind):
        self.kept[index].before = text + self.kept[index].before
        self.put[f"{kind}: {text.strip()}"] += 1

    def put_after(self, index, text, kind):
        self.kept[index].after += text
        self.put[f"{kind}: {text.strip()}"] += 1

    def text(self):
        """What is written; a line of which everything was deleted is gone."""
        lines, line, deleted = [], "", False
        for token in self.tokens:
            deleted = deleted or not token.out
            pieces = (token.before + token.out + token.after).split("\n")
            for piece in pieces[:-1]:
                line += piece
                if line.strip() or not deleted:
                    lines.append(line.rstrip())
                line, deleted = "", False
            line += pieces[-1]
        return "\n".join(lines + [line] if line.strip() else lines).rstrip() + "\n"
