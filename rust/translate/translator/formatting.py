"""Rust's forms of six things that it or its library has another way."""


def name_formatters(source):
    """`fmt` is generic over its writer in Rattle; Rust's `Formatter` has a lifetime instead."""
    for index in source.words():
        if not source.reads(index, "fn", "fmt", "<"):
            continue
        writer = source.at(index + 3)
        end = source.end_of(index + 3, (">",)) + 1
        source.delete(index + 2, end, "writer of fmt")
        for at in range(end, source.end_of(end, ("{",))):
            if source.reads(at, "Formatter", "<", writer, ">"):
                source.replace(at + 2, "'_", "formatter")
    source.refresh()


def name_octets(source):
    """`Ipv4Addr::from_octets` is newer than the oldest compiler; `from` is the same."""
    for index in source.words():
        if source.at(index) == "from_octets" and source.is_path(index - 2):
            source.replace(index, "from", "octets")


# Methods of integers that are newer than the oldest compiler, and those of `compat`.
SIGNS = {"cast_unsigned": "to_unsigned", "cast_signed": "to_signed"}


def name_signs(source):
    """`i32::cast_unsigned` and `u32::cast_signed`: the number of the same bits."""
    for index in source.words():
        if source.at(index) in SIGNS and source.at(index - 1) == ".":
            source.replace(index, SIGNS[source.at(index)], "sign")


def name_formatter_attributes(source):
    """`#[rattlefmt::skip]` is for the formatter, which Rust calls `rustfmt`."""
    for index in source.words():
        if source.at(index) == "rattlefmt" and source.at(index - 1) == "[":
            source.replace(index, "rustfmt", "layout")


def name_zeros(source):
    """`fill(0)` is a call of `memset` in Rust, also for the few bytes of a padding."""
    for index in source.words():
        if source.reads(index, "fill", "(", "0", ")") and source.at(index - 1) == ".":
            source.replace(index, "fill_zeros", "zeros")
            source.delete(index + 2, index + 3, "number of fill")
    source.refresh()


def name_multiples(source):
    """`next_multiple_of(4)` compares in Rust: LLVM does not see that adding three and clearing two
    bits is the same."""
    for index in source.words():
        if source.reads(index, "next_multiple_of", "(", "4", ")") and source.at(index - 1) == ".":
            source.replace(index, "next_multiple_of_four", "multiple")
            source.delete(index + 2, index + 3, "number of next_multiple_of")
    source.refresh()
