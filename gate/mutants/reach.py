"""Which files of a crate the verdict on a function rests on.

One file uses what another file of its crate has only where it names that file in a path from the
root of the crate or of its specifications and proofs, or calls a macro of it, or where a type or a
trait that it uses has an impl there. So a change that no contract hides, as that of a constant, has
no effect on functions of files that do not reach it.
"""
import functools
import re

from .sources import closing

# A path that begins in the crate, in sources and their attributes, or in specifications and proofs.
PATH = re.compile(r"\b(?:crate(?:::\w+)+|Rattle(?:\.\w+)+)")
# What sources and proofs of this repository do not have, and `PATH` does not read.
UNREAD = re.compile(r"\b(?:super|self)::|\bcrate::\{|\bRattle\.\w+\.(?:specs|proofs)\.\{")
MODULE = re.compile(r"^(?:pub(?:\([^)]*\))? )?mod (\w+);", re.M)
USE = re.compile(r"^ *(?:pub(?:\([^)]*\))? |ghost )?use [^;]*;", re.M)
MACRO = re.compile(r"^ *(?:pub(?:\([^)]*\))? )?macro_rules! (\w+)", re.M)
ITEM = re.compile(r"\b(?:fn|const|static|type|struct|enum|trait|macro_rules!) (\w+)")
IMPL = re.compile(r"^(?:unsafe )?impl\b([^{;]*)", re.M)


class Reach:
    """The files of a crate, each with those that it reaches."""

    def __init__(self, crate, folder):
        self.crate = crate
        files = [it for name in ("src", "specs", "proofs") for it in folder.files(name)]
        self.texts = {it: folder.read(it) for it in files if not it.startswith("src/tests")}
        self.macros = [(name, it) for it in self.texts for name in MACRO.findall(self.texts[it])]
        self.impls = [(named, it) for it in self.texts for named in self.has_impls_of(it)]
        # (else a path does not say which file it names)
        self.is_read = not any(it.startswith("src/") and it.count("/") > 1 or UNREAD.search(text)
                               for it, text in self.texts.items())
        self.reached = {}

    def rests_on(self, function, changed, added=""):
        """The files that the verdict on a function rests on, where an edit changes these files and
        adds this text."""
        *inside, name = function.split("::")[1:]
        home = f"src/{inside[0]}.rt" if inside else "src/lib.rt"
        if not self.is_read or home not in self.texts:
            return {*self.texts}
        law = self.law_text(home, name)
        proofs = "/".join(["proofs", *inside[:1], *[name] * bool(law), ""])
        begin = {it for it in self.texts if it.startswith(proofs)} | {*changed}
        begin |= self.named_in(home, law) if law else {home}
        begin |= self.named_in(home, added)
        # (attributes of the root and of the function's file are read, whatever it names)
        return {"src/lib.rt", home}.union(*map(self.reached_from, begin))

    def law_text(self, path, name):
        """The text of a function in this file with an empty body, which names no other item of the
        file, or nothing. A check of it reads only what that text names, and attributes of the
        file."""
        text = self.texts[path]
        found = re.search(rf"^(?:#\[.*\]\n)*pub fn {name}\(\)\n(?:    .*\n)*{{}}$", text, re.M)
        if not found or "#![tactic(auto," in text or text[: found.start()].endswith(")]\n"):
            return ""
        others = {*ITEM.findall(text)} - {name}
        return "" if others.intersection(names_of(found[0])) else found[0]

    def reached_from(self, path):
        """A file and all that it reaches."""
        if path not in self.reached:
            reached, left = set(), [path]
            while left:
                it = left.pop()
                if it in self.texts and it not in reached:
                    reached.add(it)
                    left += [*self.named_in(it), *(at for named, at in self.impls if named == it)]
            self.reached[path] = reached
        return self.reached[path]

    def named_in(self, path, text=None):
        """The files that this one names, all of it, or a text of it with the imports that the text
        uses."""
        whole = self.texts[path]
        named = whole if text is None else "\n".join([text, *used_by(text, whole)])
        called = {*re.findall(r"\b(\w+)!", named)} - {*MACRO.findall(whole)}
        files = [it for name, it in self.macros if name in called]
        files += [f"src/{it}.rt" for it in MODULE.findall(named) if path.endswith(".rt")]
        return {it for it in [*files, *map(self.file_of, PATH.findall(named))] if it}

    def has_impls_of(self, path):
        """The files whose types, or traits of types of any file, have impls in this one."""
        text, found = self.texts[path] if path.endswith(".rt") else "", set()
        for head in IMPL.findall(text):
            after = head[closing(head, 0) + 1 :] if head.startswith("<") else head
            kind = re.match(r"\W*(?:mut )?(\w+)", after.rpartition(" for ")[2])
            own = rf"^(?:pub(?:\([^)]*\))? )?(?:struct|enum) {kind[1] if kind else ''}\b"
            if not kind or not re.search(own, text, re.M):
                found |= self.named_in(path, head)
        return found

    def file_of(self, path):
        """The file that a path names, or nothing where it names none of this crate."""
        crate, *inside = re.findall(r"\w+", path)
        if crate == "Rattle":
            crate, *inside = inside
        if crate not in ("crate", self.crate) or not inside:
            return ""
        if inside[0] == "specs" and inside[1:2] in (["declared"], ["contracts"]):
            inside = inside[2:]
        elif inside[0] in ("specs", "proofs"):
            ends = ["/".join(inside[:end]) + ".antt" for end in range(len(inside), 1, -1)]
            return next((it for it in ends if it in self.texts), "")
        # (what the crate passes on is named in its root, which names all modules)
        module = f"src/{inside[0]}.rt" if inside else ""
        return module if module in self.texts else "src/lib.rt"


def names_of(text):
    return {*re.findall(r"\w+", text)}


def used_by(text, whole):
    """The imports of a file that a text of it uses: by the names in braces, or at the end."""
    words, used = names_of(text), []
    for it in USE.findall(whole):
        names = it[it.index("{") :] if "{" in it else re.split(r"::|\.", it)[-1]
        if "*" in names or words.intersection(names_of(names)):
            used.append(it)
    return used


@functools.cache
def reach_of(crate, folder):
    """The files of the crate in a folder, which is that of one lane: its files are as they were,
    but while a check runs."""
    return Reach(crate, folder)
