"""show.py HEX [WANTED]: the attributes in the contents of IFLA_LINKINFO, and the first one of a
request that they do not meet. Status 0 where they meet it, or nothing is wanted.

(linkinfo_same is for two requests, or two canonical encodings: it is false for a request and the
link that the kernel made for it, to which it adds attributes.)

LINKINFO_LIBRARY names the library where it is not installed.
"""
import ctypes
import os
import re
import sys
from ctypes import POINTER, Structure
from ctypes import c_bool, c_char_p, c_int64, c_size_t, c_uint8, c_uint16, c_uint32, c_uint64

# linux/if_link.h and linux/netlink.h
IFLA_INFO_DATA, IFLA_INFO_XSTATS, IFLA_INFO_SLAVE_DATA = 2, 3, 5
NLA_TYPE_MASK, NLA_HDRLEN = 0x3FFF, 4
# LINKINFO_VALUE_LIST
VALUE_LIST = 10

library = ctypes.CDLL(os.environ.get("LINKINFO_LIBRARY", "liblinkinfo.so.0"))


class Error(Structure):
    _fields_ = [("family", c_uint16), ("type", c_uint16), ("cause", c_uint32)]

    def __str__(self):
        text = ctypes.create_string_buffer(37)
        library.linkinfo_error_text(self, text, len(text))
        return text.value.decode()


class ErrorAt(Structure):
    _fields_ = [("error", Error), ("place", c_size_t)]


class Unmet(Structure):
    _fields_ = [
        ("error", Error),
        ("rejected", c_uint32),
        ("family", c_uint16),
        ("type", c_uint16),
        ("want", c_size_t),
        ("have", c_size_t),
        ("met", c_bool),
        ("is_present", c_bool),
    ]


class Item(Structure):
    _fields_ = [
        ("place", c_size_t),
        ("length", c_size_t),
        ("raw_type", c_uint16),
        ("kind", c_uint16),
        ("port_kind", c_uint16),
    ]


class Value(Structure):
    _fields_ = [
        ("number", c_uint64),
        ("signed_number", c_int64),
        ("length", c_size_t),
        ("octets", c_uint8 * 16),
        ("first", c_uint32),
        ("second", c_uint32),
        ("value_type", c_uint32),
        ("list_kind", c_uint16),
        ("truth", c_bool),
    ]


class Attribute(Structure):
    _fields_ = [
        ("place", c_size_t),
        ("length", c_size_t),
        ("value", Value),
        ("raw_type", c_uint16),
        ("shape", c_uint16),
    ]


class ListResult(Structure):
    _fields_ = [("error", Error), ("place", c_size_t), ("count", c_size_t)]


def declare(name, result, *arguments):
    call = getattr(library, name)
    call.restype, call.argtypes = result, arguments


declare("linkinfo_check_at", ErrorAt, c_char_p, c_size_t)
declare("linkinfo_first_unmet", Unmet, c_char_p, c_size_t, c_char_p, c_size_t)
declare("linkinfo_items", ListResult, c_char_p, c_size_t, POINTER(Item), c_size_t)
declare("linkinfo_values", ListResult, c_char_p, c_size_t, c_uint16, POINTER(Attribute), c_size_t)
declare("linkinfo_family_name", c_size_t, c_uint16, c_char_p, c_size_t)
declare("linkinfo_kind_name", c_size_t, c_uint16, c_char_p, c_size_t)
declare("linkinfo_port_kind_name", c_size_t, c_uint16, c_char_p, c_size_t)
declare("linkinfo_error_text", c_size_t, Error, c_char_p, c_size_t)


def items_of(given):
    items = (Item * (len(given) // 4))()
    found = library.linkinfo_items(given, len(given), items, len(items))
    return items[: found.count]


def show_attributes(payload, kind, begin, indent):
    """The attributes in data of a kind, or in a nested list, and in the lists in them. The payload
    is at the offset `begin` of the whole list."""
    attributes = (Attribute * (len(payload) // 4))()
    found = library.linkinfo_values(payload, len(payload), kind, attributes, len(attributes))
    for attribute in attributes[: found.count]:
        place = attribute.place + NLA_HDRLEN
        inside = payload[place : place + attribute.length]
        number = attribute.raw_type & NLA_TYPE_MASK
        at = f"{' ' * indent}{begin + attribute.place}"
        print(f"{at}: type {number}{value_of(attribute, inside)}")
        if attribute.value.value_type == VALUE_LIST:
            list_kind = attribute.value.list_kind or kind
            show_attributes(inside, list_kind, begin + place, indent + 2)


def show_data(given, item):
    """The attributes in data or port data."""
    kinds = {IFLA_INFO_DATA: item.kind, IFLA_INFO_SLAVE_DATA: item.port_kind}
    kind = kinds.get(item.raw_type & NLA_TYPE_MASK, 0)
    begin = item.place + NLA_HDRLEN
    show_attributes(given[begin : begin + item.length], kind, begin, 2)


def value_of(attribute, payload):
    """A value, as the shape of its attribute means it: enum linkinfo_value_type."""
    value = attribute.value
    match value.value_type:
        case 1:
            return f" = {value.number}"
        case 2:
            return f" = {value.signed_number}"
        case 3 | 4:
            return f" = {str(value.truth).lower()}"
        case 5:
            return f' = "{payload[: value.length].decode()}"'
        case 6 | 7 | 8:
            return f" = {bytes(value.octets[: value.length]).hex(' ')}"
        case 9:
            return f" = {value.first}, {value.second}"
    return f", {attribute.length} bytes"


def kind_of(item):
    """The kind of the link, or of the port, whose data or statistics the item is."""
    text = ctypes.create_string_buffer(32)
    kind = item.raw_type & NLA_TYPE_MASK
    if kind in (IFLA_INFO_DATA, IFLA_INFO_XSTATS):
        library.linkinfo_kind_name(item.kind, text, len(text))
    if kind == IFLA_INFO_SLAVE_DATA:
        library.linkinfo_port_kind_name(item.port_kind, text, len(text))
    return f" of {text.value.decode()}" if text.value else ""


def is_rejected(whose, given):
    """Prints the error of a list, where it has one."""
    at = library.linkinfo_check_at(given, len(given))
    if at.error.cause:
        print(f"{whose}{at.error} at byte {at.place}")
    return bool(at.error.cause)


def is_as_wanted(have, want):
    """Whether the link has all that is wanted; prints the first attribute that it has not."""
    unmet = library.linkinfo_first_unmet(have, len(have), want, len(want))
    if unmet.met:
        print("as wanted")
        return True
    family = ctypes.create_string_buffer(32)
    library.linkinfo_family_name(unmet.family, family, len(family))
    found = f"and another one at byte {unmet.have}" if unmet.is_present else "and none"
    attribute = f"{family.value.decode()} {unmet.type} at byte {unmet.want}"
    print(f"not as wanted: {attribute} of what is wanted, {found}")
    return False


def main(given, wanted=None):
    if is_rejected("", given) or (wanted is not None and is_rejected("wanted: ", wanted)):
        return 1
    for item in items_of(given):
        kind = item.raw_type & NLA_TYPE_MASK
        print(f"{item.place}: type {kind}, {item.length} bytes{kind_of(item)}")
        show_data(given, item)
    return 0 if wanted is None or is_as_wanted(given, wanted) else 1


if __name__ == "__main__":
    texts = sys.argv[1:]
    is_hex = all(re.fullmatch("([0-9a-fA-F]{2})*", text) for text in texts)
    if len(texts) not in (1, 2) or not is_hex:
        print("usage: show HEX [WANTED]", file=sys.stderr)
        sys.exit(2)
    sys.exit(main(*map(bytes.fromhex, texts)))
