"""The names of numbers and flags in the code, beside stored lines that have what `ip` prints.

words.rt of crates/linkinfo_view has the names of numbers and flags of attributes, and words.txt a
line for each; message.rt of crates/linkinfo_print has those of the flags of a link, and
link_flags.txt a line for each.
"""
import json
import re
from collections import namedtuple

import inputs

# Which names, a number or a flag's value (None for a line that is not of one name), the object and
# the member that `ip` prints for a list, and its value.
Line = namedtuple("Line", "names number section member value list")

SET = re.compile(r"^ +(?:Words|Flags)::(\w+) => (\w+)\((?:number|place)\),$", re.M)
FUNCTION = re.compile(r"^fn (\w+)\((?:number: u64|place: u32)\).*?^}$", re.M | re.S)
WORD = re.compile(r'^ +(\w+) => Some\("[^"]+"\),$', re.M)
FLAG = re.compile(r'^ +\(\d+, \w+, (\w+), "[^"]+"\),$', re.M)
LINK_FLAG = re.compile(r'^ +\w+ => \("([^"]+)", (\w+)\),$', re.M)
SECTIONS = {"info_data": inputs.IFLA_INFO_DATA, "info_slave_data": inputs.IFLA_INFO_SLAVE_DATA}


def in_words(code):
    """The names of words.rt: which names, and the number or the flag's value."""
    bodies = {it.group(1): it.group() for it in FUNCTION.finditer(code)}
    found = []
    for names, function in SET.findall(code):
        body = bodies[function]
        found += [(names, int(it, 0)) for it in WORD.findall(body) + FLAG.findall(body)]
    if len(found) != len(re.findall(r'^ +[\w(].*"[^"]+"\)', code, re.M)):
        raise ValueError("a name of words.rt was not found")
    return set(found)


def fields(text):
    """The fields of the lines that are no comments."""
    return [it.split() for it in text.splitlines() if it and not it.startswith("#")]


def lines(text):
    """The lines of words.txt."""
    return [Line(names, None if number == "-" else int(number, 0), section, member,
                 json.loads(value), bytes.fromhex(contents))
            for names, number, section, member, value, contents in fields(text)]


def numbers(payload):
    """The numbers that a payload can be: in both byte orders, and those of a pair."""
    for part in (payload, payload[:4], payload[4:]):
        yield from (int.from_bytes(part, it) for it in ("little", "big"))


def has_number(line):
    """Whether an attribute of the line's list has the number."""
    for (_, kind), data in inputs.elements(line.list, "<HH", 4):
        if kind == SECTIONS[line.section]:
            for _, payload in inputs.elements(data, "<HH", 4):
                if line.number in numbers(payload):
                    return True
    return False


def unlike_words(code, text):
    """What of words.txt is not as words.rt has it, a sentence each."""
    stored = [it for it in lines(text) if it.number is not None]
    ours, theirs = in_words(code), {(it.names, it.number) for it in stored}
    for names, number in sorted(ours ^ theirs):
        where = "words.rt" if (names, number) in ours else "words.txt"
        yield f"only {where} has a name of {names} for {number:#x}"
    for it in stored:
        if not has_number(it):
            yield f"a list of {it.names} does not have {it.number:#x}"


def link_flags(text):
    """The lines of link_flags.txt: the flags of a link, and their names."""
    return [(int(flags, 0), json.loads(names)) for flags, names in fields(text)]


def unlike_link_flags(code, text):
    """What of link_flags.txt is not as message.rt has it, a sentence each."""
    stored = dict(link_flags(text))
    flags = LINK_FLAG.findall(code)
    if len(flags) != int(re.search(r"^const FLAG_COUNT: usize = (\d+);$", code, re.M).group(1)):
        yield "a flag of message.rt was not found"
    for name, flag in flags:
        if name not in stored.get(int(flag, 0), ()):
            yield f"no line has {name} alone"
