"""The differences between the words of a source and those of its file."""
import re

from imports import take_imports
from words import CLOSE, OPEN, Word, closing, texts


def without_layout(words):
    """`=> { expression }` as `=> expression,`, and no comma before a closing bracket."""
    made, at = [], 0
    while at < len(words):
        made.append(words[at])
        at += 1
        if made[-1].text == "=>" and at < len(words) and words[at].text == "{":
            end = closing(words, at)
            inside = words[at + 1 : end]
            if inside and ";" not in top(inside):
                made += without_layout(inside) + [Word(",", words[end].line, ())]
                at = end + 1 + (end + 1 < len(words) and words[end + 1].text == ",")
    follows = [word.text for word in made[1:]] + [""]
    return [w for w, f in zip(made, follows) if not (w.text == "," and f in CLOSE + (">",))]


def top(words):
    """The texts that are in no bracket."""
    found, at = [], 0
    while at < len(words):
        found.append(words[at].text)
        at = closing(words, at) + 1 if words[at].text in OPEN else at + 1
    return found


def differences(old, new, context=2):
    """The runs of words in which two lists differ: pairs (of `old`, of `new`). Put in place of each
    other they make one list of the other: nothing is left out, whatever the choice of runs. So many
    equal words as `context` end a run."""
    i = j = 0
    runs = []
    while i < len(old) or j < len(new):
        if i < len(old) and j < len(new) and old[i].text == new[j].text:
            i, j = i + 1, j + 1
            continue
        k, l = rejoin(old, i, new, j, context)
        runs.append((old[i:k], new[j:l]))
        i, j = k, l
    return runs


def rejoin(old, i, new, j, context):
    """The nearest indices where the lists agree again, or their ends."""
    for total in range(1, 600):
        for k in range(i, min(i + total, len(old)) + 1):
            l = j + total - (k - i)
            a = texts(old, k, context)
            if l <= len(new) and a and a == texts(new, l, context):
                return k, l
    return len(old), len(new)


def compare(left, right, paths, crate):
    """The differences between the words of a source and of its file: of the code with its imports,
    and of the comments. An import that is gone is none: what needs it does not compile."""
    sides = []
    homes = {path: home for path, home in paths.items() if home.startswith("core::")}
    for words, where in ((left, paths), (right, {**homes, "linkinfo": "crate"})):
        code, names = take_imports(words, where, crate if words is left else None)
        sides.append((without_layout(code), {name.text: name for name in names}, prose(words)))
    (code, names, comments), (new_code, new_names, new_comments) = sides
    found = differences(code, new_code)
    found += [([], [new_names[name]]) for name in new_names if name not in names]
    return found, differences(comments, new_comments, context=6)


# A link to an item, and the line that says where it goes: to what has the name of the link.
LINK = re.compile(r"\[(`[\w:]+`)\]")
DESTINATION = re.compile(r"//[/!] \[`(?:\w+::)*(\w+)`\]: crate::(?:\w+::)*\1")


def prose(words):
    """The words of the comments; how they are broken into lines is not looked at. A link counts as
    its text: rustdoc rejects one that goes nowhere."""
    comments = [comment for word in words for comment in word.comments]
    return [
        Word(text, comment.line, ())
        for comment in comments
        if not DESTINATION.fullmatch(comment.text)
        for text in LINK.sub(r"\1", re.sub(r"^//[/!]?", "", comment.text)).split()
    ]


def origin(words):
    """What the first line of a file, or the first two, says of its source; and the words without
    these comments."""
    comments = words[0].comments
    count = 0
    while count < len(comments) and not comments[count].text.startswith(("///", "//!")):
        count += 1
    first = words[0]._replace(comments=comments[count:])
    return " ".join(comment.text[3:] for comment in comments[:count]), [first, *words[1:]]
