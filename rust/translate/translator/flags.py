"""Sets of flags by the crate `bitflags` 2: the table is a constant, and a call makes a flag."""


def name_flag_tables(source):
    """`fn flags<'a>() -> &'a [..] { T }` is `const FLAGS: &'static [..] = T;`."""
    for index in source.words():
        if not source.reads(index, "fn", "flags", "<", "'a", ">", "(", ")", "-", ">", "&", "'a"):
            continue
        body = source.end_of(index, ("{",))
        source.replace(index, "const", "flags")
        source.replace(index + 1, "FLAGS", "flags")
        source.put_after(index + 1, ":", "flags")
        source.delete(index + 2, index + 9, "fn flags")
        source.replace(index + 10, "'static", "flags")
        end = source.close(body)
        source.replace(body, "=", "flags")
        source.replace(end, ";", "flags")
    source.refresh()


def make_flags(source):
    """`Flag { name: a, value: b }` is `Flag::new(a, b)`."""
    for index in source.words():
        if not source.reads(index, "Flag", "{", "name", ":"):
            continue
        end = source.close(index + 1)
        value = source.end_of(index + 2, (",",)) + 1
        source.replace(index + 1, "(", "flags")
        source.put_before(index + 1, "::new", "flags")
        source.delete(index + 2, index + 4, "fields of Flag")
        source.delete(value, value + 2, "fields of Flag")
        source.replace(end, ")", "flags")
    source.refresh()


def read_flag_tables(source):
    """`T::flags()` is `T::FLAGS`."""
    for index in source.words():
        if source.reads(index, "flags", "(", ")") and source.is_path(index - 2):
            source.replace(index, "FLAGS", "flags")
            source.delete(index + 1, index + 3, "fn flags")
    source.refresh()
