"""The text of mutants.

A file crates/NAME/wrong/MODULE.edits has the mutants of a module, `lib` for that of the crate:

    mutant: NAME     letters, digits and _, once in the file
    fn: PATH         the function whose contract must reject the mutant, as the check prints it
    goal: NAME       a goal of that function that is not proved (`quick`); may be left out
    by: grind        the tactic that proves it for the correct body, where it is not `search`
    file: src/X.rt   the file that is changed, where it is not that of the function's module
    old: TEXT        text within a line, once in the body of that function
    new: TEXT        what the mutant has there

Further pairs of old and new may follow. Blank lines say nothing. The file wrong/control.edits has
correct bodies; a line `in: PATH` there names the function that is changed, where it is not that of
the line `fn:`. A file must-fail/NAME.edit, which the toolchain's gate reads, has one mutant in this
form, without a line `mutant:`.
"""
import re

MODULE = re.compile(r"wrong/(\w+)\.edits")
# (In wrong/, a mutant had such a file before modules had files. A commit that wrong.seen names may
# have them: once none has, the second alternative goes.)
SINGLE = re.compile(r"(must-fail|wrong/\w+)/([\w.-]+)\.edit")
CONTROL = "wrong/control"
LINE = re.compile(r"(fn|goal|by|in|file|old|new):(?: (.*)|)")


class Form:
    """A mutant as a file has it, from a line on."""

    def __init__(self, place, name, path, number):
        self.place, self.name, self.path, self.number = place, name, path, number
        self.words, self.source, self.old, self.pairs = {}, "", None, []
        # What is wrong first, with its file and line.
        self.error = ""

    def where(self, number=None):
        return f"{self.path}:{number or self.number}"

    def note(self, why, number=None):
        if why and not self.error:
            self.error = f"{self.where(number)}: {why}"

    def read(self, number, line):
        """Reads a line, and notes what is wrong with it."""
        found = LINE.fullmatch(line)
        if not found or line.endswith("\r"):
            self.note(f"a mutant has no such line: {line.strip()}", number)
            return
        word, text = found[1], found[2] or ""
        if word in ("old", "new"):
            self.note(self.take_text(word, text), number)
        else:
            self.note(self.take_word(word, text.strip()), number)

    def take_text(self, word, text):
        """Takes a line `old:` or `new:`. Returns what is wrong with it, or nothing."""
        if word == "old":
            why = "this line 'old:' follows another one" if self.old is not None else ""
            self.old = text
            return why or ("" if text else "the old text is empty")
        if self.old is None:
            return "this line 'new:' follows no line 'old:'"
        self.pairs.append((self.source, self.old, text))
        self.old = None
        return ""

    def take_word(self, word, text):
        """Takes a line of another word. Returns what is wrong with it, or nothing."""
        if self.old is not None:
            return f"this line '{word}:' is between the lines 'old:' and 'new:'"
        if not text:
            return f"this line '{word}:' says nothing"
        if word == "file":
            self.source = text
            return "" if re.fullmatch(r"src/[\w/]+\.rt", text) else f"no file of src/: {text}"
        if word in self.words:
            return f"a second line '{word}:'"
        if word == "by" and "goal" not in self.words:
            return "this line 'by:' follows no line 'goal:'"
        if word == "in" and self.place != CONTROL:
            return f"a line 'in:' is in {CONTROL}.edits alone"
        self.words[word] = text
        return ""

    def end(self, number):
        """Notes what is missing at the last line. A file that no pair names is that of the
        function's module."""
        if self.old is not None:
            self.note("a line 'old:' without a line 'new:' after it", number)
        for word, has in (("fn:", "fn" in self.words), ("old:", self.pairs)):
            if not has:
                self.note(f"the mutant has no line '{word}'")
        own = f"src/{module_of(self.words.get('fn', ''))}.rt"
        self.pairs = [(path or own, old, new) for path, old, new in self.pairs]


def module_of(function):
    """The module of a function, by its path."""
    inside = function.split("::")[1:-1]
    return inside[0] if inside else "lib"


def forms_of(path, text):
    """The mutants of the file of this path, or None where no such file has mutants."""
    module, single = MODULE.fullmatch(path), SINGLE.fullmatch(path)
    if not module and not single:
        return None
    place = single[1] if single else f"wrong/{module[1]}"
    forms = [Form(place, single[2], path, 1)] if single else []
    last = 1
    for number, line in enumerate(text.split("\n"), 1):
        if module and line.startswith("mutant:"):
            if forms:
                forms[-1].end(last)
            forms.append(named_form(place, line, path, number, forms))
        elif line.strip():
            if not forms:
                forms.append(Form(place, "", path, number))
                forms[0].note("the first line is no line 'mutant:'")
            forms[-1].read(number, line)
        last = number if line.strip() else last
    if not forms:
        forms.append(Form(place, "", path, 1))
        forms[0].note("the file has no mutant")
    forms[-1].end(last)
    return forms


def named_form(place, line, path, number, others):
    """The mutant that begins with this line, in a file with these others before it."""
    name = line.removeprefix("mutant:").strip()
    form = Form(place, name, path, number)
    if not re.fullmatch(r"\w+", name):
        form.note(f"a mutant's name has letters, digits and _ alone: {name}")
    twins = [it.number for it in others if it.name == name]
    if twins:
        form.note(f"a mutant of this name is at line {twins[0]}")
    return form


def forms_in(folder, path):
    """The mutants of a file of a crate's folder, or None where no such file has mutants."""
    try:
        return forms_of(path, folder.read(path))
    except UnicodeDecodeError as why:
        form = Form(path.rpartition(".")[0], "", path, 1)
        form.note("it is not UTF-8", why.object[: why.start].count(b"\n") + 1)
        return [form]
