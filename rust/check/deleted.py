"""What a translation deletes: each kind as this program itself reads it in Rattle's syntax.

Every other word must be in the crate."""
import collections
import re

from words import OPEN, closing, item_end, texts, visible_from, without


def deletion(words, at):
    """What begins at `at` and has no place in Rust: its kind and its words, from and to before."""
    return deleted_proof(words, at) or deleted_of_rattle(words, at)


def deleted_proof(words, at):
    """Ghost items, clauses, attributes of proofs, and what a contract sees of a type."""
    text, before = words[at].text, words[at - 1].text if at else ""
    following = words[at + 1].text if at + 1 < len(words) else ""
    if text == "ghost" and re.fullmatch(r"\w+", following):
        # `ghost use ..;`, `ghost name = {..};`, `ghost name : {..};`, or a field of that form.
        ends = (";",) if following == "use" else (";", ",")
        return "ghost item", at - (before == "pub"), item_end(words, at, ends)
    if text in ("requires", "ensures", "invariant"):
        # `{ .. }`, `name { .. }` or `*name { .. }` follows.
        start = at + 1 + (following == "*")
        start += words[start].text != "{"
        if words[start].text == "{":
            return "clause", at, closing(words, start) + 1
    if text == "#":
        start = at + 1 + (following == "!")
        if words[start].text == "[" and words[start + 1].text in ("tactic", "cycle"):
            return "attribute of proof", at, closing(words, start) + 1
    if text == "impl" and before in ("", ";", "}", "]"):
        # `Model` is what a contract sees. Rust derives an explicit `Clone` without a bound on a
        # type of the layer: the derive is listed as put in.
        body = item_end(words, at, ("{",)) - 1
        head = texts(words, at, body - at)
        is_derived = "for" in head and "where" not in head
        if is_derived and head[head.index("for") - 1] in ("Model", "Clone"):
            return "impl " + head[head.index("for") - 1], at, closing(words, body) + 1
    return None


def deleted_of_rattle(words, at):
    """What Rattle's language and library have and Rust's do not."""
    text = words[at].text
    if texts(words, at, 7) == ["#", "[", "unsafe", "(", "no_mangle", ")", "]"]:
        # The symbol is that of the file of pointers, which calls this function.
        return "symbol of C", at, at + 7
    if texts(words, at, 3) == ["extern", '"C"', "fn"]:
        return "symbol of C", at, at + 2
    if text == "Drop":
        return deleted_drop(words, at)
    if texts(words, at, 2) == ["final", "fn"]:
        return "final", at, at + 1
    if text == "<" and texts(words, at - 2, 2) == ["fn", "fmt"]:
        # The type of the writer of `fmt`, which Rust's `Formatter` does not have.
        return "type of a writer", at, item_end(words, at, (">",))
    if texts(words, at, 3) == ["in", "alloc", ";"]:
        return "allocator or runtime", at, at + 3
    if texts(words, at, 9) == ["let", "alloc", "=", "rt", ".", "alloc", "(", ")", ";"]:
        return "allocator or runtime", at, at + 9
    if text in HANDED:
        return deleted_argument(words, at)
    return None


def deleted_drop(words, at):
    """`Drop` as a bound or in a derive: a type that may be dropped. Every type of Rust may."""
    before, after = words[at - 1].text, words[at + 1].text
    opened = at
    while words[opened].text not in OPEN:
        opened -= 1
    if before == "+" or (before == ":" and after != "+"):
        return "Drop", at - 1, at + 1
    if before == ":":
        return "Drop", at, at + 2
    if texts(words, at - 4, 7) == ["#", "[", "derive", "(", "Drop", ")", "]"]:
        return "Drop", at - 4, at + 3
    if texts(words, opened - 1, 2) == ["derive", "("]:
        return "Drop", at - (before == "," and after != ","), at + 1 + (after == ",")
    return None


# The allocator, and the runtime of tests and of the program, with the types of their parameters.
HANDED = ("alloc", "_alloc", "rt", "_rt")
TYPES = [
    *([":", "Global"], [":", "ident"], [":", "HostRuntime"], [":", "&", "HostRuntime"]),
    [":", "&", "impl", "Abort"],
]


def deleted_argument(words, at):
    """A parameter or a field `alloc: Global`, `rt: HostRuntime` or like these; an argument `alloc`,
    `self.alloc`, `&rt` or `rt.alloc()`; the first one of a macro, `rt;`."""
    start, end = at - (words[at - 1].text in ("$", "&")), at + 1
    start -= 2 * (texts(words, at - 2, 3) == ["self", ".", "alloc"])
    start -= 4 * (texts(words, at - 4, 4) == ["pub", "(", "crate", ")"])
    end += next((len(of) for of in TYPES if texts(words, end, len(of)) == of), 0)
    end += 4 * (texts(words, end, 4) == [".", "alloc", "(", ")"])
    before, after = words[start - 1].text, words[end].text
    if (before, after) == ("(", ";"):
        return "allocator or runtime", start, end + 1
    if before not in ("(", ",", "{") or after not in (",", ")"):
        return None
    start -= after == ")" and before == ","
    return "allocator or runtime", start, end + (after == ",")


def delete_all(words):
    """The words that are left, and how many deletions there were of each kind."""
    counts = collections.Counter()
    at = 0
    while at < len(words):
        found = deletion(words, at)
        if not found:
            at += 1
            continue
        kind, start, end = found
        counts[kind] += 1
        words = without(words, start, end, kind == "ghost item" or kind.startswith("impl"))
        at = start
    return words, counts


def without_macros(words, names):
    """The words without the macros that are listed: nothing that is left expands them."""
    at = 0
    while at < len(words):
        if texts(words, at, 2) == ["macro_rules", "!"] and words[at + 2].text in names:
            start = at - 4 if texts(words, at - 4, 4) == ["#", "[", "macro_export", "]"] else at
            words = without(words, start, closing(words, at + 3) + 1, True)
            at = start
        at += 1
    return words


def without_modules(target, words, empty):
    """The words without `mod name;` of a file of which nothing is left."""
    folder = re.sub(r"(/mod|/main|/lib)?\.rs$", "", target)
    at = 0
    while at < len(words):
        if words[at].text == "mod" and f"{folder}/{words[at + 1].text}.rs" in empty:
            start = visible_from(words, at)
            words = without(words, start, at + 3, True)
            at = start
        at += 1
    return words
