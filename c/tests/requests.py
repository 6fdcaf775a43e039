#!/usr/bin/env python3
"""requests.py FORMAT.md REPLIES [REQUESTS]: of each request in a file of gate/kernel/replies-*, the
first attribute that the kernel's reply does not meet, as lines for requests.c. They are computed
from the bytes, which are canonical, and from the names of kinds in FORMAT.md. With a third
argument, requests.txt, they are written there in place of those that it has."""
import re
import sys

KIND, DATA, PORT_KIND, PORT_DATA = 1, 2, 4, 5
SETS = {"vlanqosmapping"}
MARK = "# Requests of gate/kernel/requests."


def families(path):
    """The families of data by kind and by port kind, where the data is a list of attributes."""
    with open(path, encoding="utf-8") as page:
        rows, names = page.read().split("## Names")
    names = names.split("## Numbers")[0]
    links, ports = re.split(r"The\s+port\s+kinds\s+are", names)
    of_links = dict(re.findall(r"(?m)^\| `(\w+)` \| \w+ \| \w+ \| (\w+) \|", links))
    of_ports = dict(re.findall(r"`(\w+)`\s+(\w+)", ports.split("\n\n")[0]))
    lists = {DATA: {name: family.lower() for name, family in of_links.items()
                    if family not in ("Veth", "Vxcan")},
             PORT_DATA: {name: family.lower() + ("" if family == "Vrf" else "port")
                         for name, family in of_ports.items()}}
    tables = re.findall(r"(?ms)^### `(\w+)`\n(.*?)(?=^### |\Z)",
                        rows.split("## Rows of the typed layer")[1])
    for family, table in tables:
        for number, inner in re.findall(r"(?m)^\| (\d+) \|.*\| Nested (\w+)", table):
            lists[family.lower(), int(number)] = inner.lower()
    return lists


def in_order(string):
    """The attributes of a list: type, offset and payload of each."""
    offset = 0
    while offset < len(string):
        length = int.from_bytes(string[offset:offset + 2], "little")
        kind = int.from_bytes(string[offset + 2:offset + 4], "little") & 0x3fff
        yield kind, offset, string[offset + 4:offset + length]
        offset += (length + 3) // 4 * 4


def attributes(string):
    """The attributes of a list by type: offset and payload of the last one of each, in order."""
    found = {}
    for kind, offset, payload in in_order(string):
        found.pop(kind, None)
        found[kind] = (offset, payload)
    return found


def unmet_member(have, want, family, base):
    """The first attribute of a set that another one has not, in the form of a line."""
    members = {(kind, payload) for kind, _, payload in in_order(have)}
    for kind, offset, payload in in_order(want):
        if (kind, payload) not in members:
            return f"{family} {kind} {base[1] + offset} -"
    return "met"


def first_unmet(lists, have, want, family="linkinfo", base=(0, 0)):
    """The first attribute of a list that another one does not meet, in the form of a line."""
    if family in SETS:
        return unmet_member(have, want, family, base)
    had, wanted = attributes(have), attributes(want)
    for kind, (offset, payload) in wanted.items():
        there, other = had.get(kind, (None, None))
        if other == payload:
            continue
        inner = lists.get((family, kind))
        if family == "linkinfo" and kind in lists:
            names = [of.get(kind - 1, (0, b""))[1] for of in (had, wanted)]
            inner = lists[kind].get(names[1].rstrip(b"\0").decode())
            inner = inner if names[0] == names[1] else None
        if inner and other is not None:
            places = (base[0] + there + 4, base[1] + offset + 4)
            found = first_unmet(lists, other, payload, inner, places)
            if found != "met":
                return found
            continue
        where = "-" if there is None else base[0] + there
        return f"{family} {kind} {base[1] + offset} {where}"
    return "met"


def lines(lists, path):
    """The lines: of each accepted request the reply after it, and of a change that before it. Of
    links that are only asked for there is none."""
    with open(path, encoding="ascii") as file:
        replies = [line.split() for line in file if len(line.split()) > 3]
    number, before = 0, None
    for name, verb, sent, reply in (words[:4] for words in replies):
        if verb not in ("create", "change") or sent == "-":
            continue
        number = number + 1 if verb == "change" else 0
        title = f"{name} {verb}" + (f" {number}" if number else "")
        if reply[0] == "E":
            continue
        request, after = bytes.fromhex(sent), bytes.fromhex(reply)
        if verb == "change":
            yield f"{before[0]}\t{title}\t{first_unmet(lists, before[1], request)}\n"
        yield f"{title}\t{title}\t{first_unmet(lists, after, request)}\n"
        before = (title, after)


def main():
    """Writes the lines."""
    found = list(lines(families(sys.argv[1]), sys.argv[2]))
    if len(sys.argv) < 4:
        sys.stdout.writelines(found)
        return
    with open(sys.argv[3], encoding="ascii") as file:
        head = file.read().split(MARK)[0]
    with open(sys.argv[3], "w", encoding="ascii") as file:
        file.write(head + MARK + "\n")
        file.writelines(found)


main()
