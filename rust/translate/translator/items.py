"""Where items are in a source: functions, impls and traits, with their docs and attributes."""

ITEM_ENDS = ("", ";", "{", "}", ",", "]", ")", "pub")


def begins_item(source, index):
    """Whether an item, a field or a statement may begin at the index."""
    return source.at(index - 1) in ITEM_ENDS or source.kind(index - 1) == "doc"


def item_front(source, index):
    """The first index of the docs, attributes and `pub` of an item."""
    while True:
        if source.at(index - 1) == "]":
            index -= 1
            while source.at(index) != "#":
                index -= 1
        elif source.front(index) != index:
            index = source.front(index)
        else:
            return index


def function_parts(source, index):
    """Of the `fn` at the index: the index of its `(`, and that of the `{` of its body, or None."""
    at = index + 2
    if source.at(at) == "<":
        depth = 0
        while True:
            depth += (source.at(at) == "<") - (source.at(at) == ">" and source.at(at - 1) != "-")
            at += 1
            if depth == 0:
                break
    body = source.end_of(source.close(at) + 1, ("{", ";"))
    return at, body if source.at(body) == "{" else None


def free_words(source):
    """The indices of the words outside all braces."""
    depth = 0
    for index in range(len(source.kept)):
        if source.kind(index) == "mark":
            depth += (source.at(index) == "{") - (source.at(index) == "}")
        elif depth == 0 and source.kind(index) == "word":
            yield index


def impl_head(source, index):
    """Of the `impl` at the index: the trait and the type, by their names, and the index of `{`."""
    body = source.end_of(index, ("{",))
    words = [source.at(k) for k in range(index + 1, body)]
    if "for" not in words:
        return None, None, body
    middle = words.index("for")
    end = words.index("where") if "where" in words else len(words)
    return outer_name(words[:middle]), outer_name(words[middle + 1 : end]), body


def outer_name(words):
    """The last name of a path that is outside angle brackets: `Parseable` of `Parseable<T>`."""
    depth, name = 0, None
    for at, word in enumerate(words):
        if word == "<":
            depth += 1
        elif word == ">" and words[at - 1] != "-":
            depth -= 1
        elif depth == 0 and (word[0].isalpha() or word[0] == "_") and word not in ("mut", "dyn"):
            name = word
    return name


def traits(source):
    """The ranges of the bodies of traits."""
    for index in source.words():
        if source.at(index) == "trait" and source.kind(index + 1) == "word":
            body = source.end_of(index, ("{",))
            yield range(body, source.close(body))


def functions(sources):
    """The names of all functions of these files."""
    return {
        source.at(index + 1)
        for source in sources
        for index in source.words()
        if source.at(index) == "fn"
    }


def methods(sources):
    """The names of those that are called as methods: whose first parameter is `self`."""
    names = set()
    for source in sources:
        for index in source.words():
            if source.at(index) == "fn" and source.kind(index + 1) == "word":
                start, _ = function_parts(source, index)
                first = [source.at(k) for k in range(start + 1, start + 5)]
                if "self" in first[: 1 + sum(w in ("&", "mut") or w[:1] == "'" for w in first)]:
                    names.add(source.at(index + 1))
    return names


def methods_of_traits(sources):
    """The methods of each trait that these files define."""
    found = {}
    for source in sources:
        for body in traits(source):
            word = next(k for k in range(body.start, 0, -1) if source.at(k) == "trait")
            found[source.at(word + 1)] = {source.at(k + 1) for k in body if source.at(k) == "fn"}
    return found
