"""Laws: functions that do nothing, each there for its contract. They and their calls go."""
import re

from words import closing, texts, visible_from, without


def functions(words):
    """The functions outside all braces: the name, the first word, and the brackets of parameters
    and body. Generic parameters hold no parentheses."""
    at = 0
    while at < len(words):
        if words[at].text == "{":
            at = closing(words, at)
        elif words[at].text == "fn":
            opened = at
            while words[opened].text != "(":
                opened += 1
            body = opened
            while words[body].text not in ("{", ";"):
                body = closing(words, body) + 1 if words[body].text in "([" else body + 1
            yield words[at + 1].text, at, opened, body
            at = body - 1
        at += 1


def called(words, body):
    """The names that a body calls, one statement each; None where it does anything else."""
    at, end, names = body + 1, closing(words, body), []
    while at < end:
        after = call_end(words, at)
        if not after:
            return None
        names.append(words[at].text.split("::")[-1])
        at = after
    return names


def call_end(words, at):
    """The index after `path(..);` or `path::<..>(..);`, if that is at `at`. Arguments that may do
    something, by a call or an operator, are none."""
    start = at + 1
    if texts(words, start, 2) == ["::", "<"]:
        start = arguments_end(words, start + 1)
    if not re.match(r"[A-Za-z_]", words[at].text) or words[start].text != "(":
        return None
    end = closing(words, start)
    if any(re.fullmatch(r"[(?!=*+/]|-", text) for text in texts(words, start + 1, end - start - 1)):
        return None
    return end + 2 if words[end + 1].text == ";" else None


def arguments_end(words, at):
    """The index after the angle bracket that closes the one at `at`."""
    depth = 0
    while depth or words[at].text == "<":
        depth += {"<": 1, ">": -1}.get(words[at].text, 0)
        at += 1
        if not depth:
            break
    return at


class Laws:
    """The laws of all files: functions without a result and without `&mut`, which do nothing but
    call laws. Each is there for its contract. A call is one of a law where no other function has
    that name; `as` gives another name. Listed are laws that call a method which changes nothing."""

    def __init__(self, files, listed=()):
        self.listed, self.other_names = listed, {}
        every = []
        for words in files:
            every += [(name, self.calls(words, name, o, b)) for name, _, o, b in functions(words)]
            for at, word in enumerate(words):
                if word.text == "as" and words[at + 2].text in (",", ";", "}"):
                    self.other_names[words[at + 1].text] = words[at - 1].text.split("::")[-1]
        found = [(name, names) for name, names in every if names is not None]
        self.names = {name for name, _ in found}
        while out := {name for name, names in found if name in self.names and not self.know(names)}:
            self.names -= out
        others = {name for name, names in every if names is None or not self.know(names)}
        self.called = self.names - others
        self.called |= {a for a, name in self.other_names.items() if name in self.names}

    def calls(self, words, name, opened, body):
        """What a function calls that may be a law; None where it is none."""
        inside = texts(words, opened, body - opened)
        if words[body].text != "{" or "->" in inside or "mut" in inside:
            return None
        return [] if name in self.listed else called(words, body)

    def know(self, names):
        return all(n in self.names or self.other_names.get(n) in self.names for n in names)

    def defined(self, words, name, opened, body):
        names = self.calls(words, name, opened, body)
        return names is not None and self.know(names)


def without_laws(words, laws):
    """The words without laws, and without calls of them."""
    for name, at, opened, body in reversed(list(functions(words))):
        if laws.defined(words, name, opened, body):
            words = without(words, visible_from(words, at), closing(words, body) + 1, True)
    at = 1
    while at < len(words):
        name = words[at].text.split("::")[-1]
        if name in laws.called and words[at - 1].text in ("{", "}", ";") and call_end(words, at):
            words = without(words, at, call_end(words, at), False)
        else:
            at += 1
    return words
