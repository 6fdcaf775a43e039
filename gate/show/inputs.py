"""Inputs made as the kernel's headers say: lists, netlink messages (include/uapi/linux/netlink.h,
rtnetlink.h, if_link.h), and captures of an nlmon device in the format of pcap. And what any bytes
say as messages, or as a capture, by the same headers."""
import struct

RTM_NEWLINK, RTM_DELLINK, RTM_NEWADDR, NLMSG_DONE = 16, 17, 20, 3
NLM_F_MULTI = 2
IFLA_IFNAME, IFLA_MTU, IFLA_LINKINFO = 3, 4, 18
IFLA_INFO_KIND, IFLA_INFO_DATA, IFLA_INFO_SLAVE_KIND, IFLA_INFO_SLAVE_DATA = 1, 2, 4, 5
NLA_F_NESTED = 0x8000
ARPHRD_NETLINK, LINKTYPE_NETLINK, NETLINK_ROUTE, NETLINK_GENERIC = 824, 253, 0, 16


def attribute(kind, payload):
    """A `struct nlattr` with its payload and padding."""
    return struct.pack("<HH", 4 + len(payload), kind) + payload + bytes(-len(payload) % 4)


def message(kind, payload, flags=0):
    """A `struct nlmsghdr` with its payload and padding."""
    header = struct.pack("<IHHII", 16 + len(payload), kind, flags, 1, 0)
    return header + payload + bytes(-len(payload) % 4)


def link(kind, index, flags, name, info=None, message_flags=0):
    """A message of a link: `struct ifinfomsg`, a name, an MTU and link info."""
    body = struct.pack("<BxHiII", 0, 1, index, flags, 0)
    body += attribute(IFLA_IFNAME, name + b"\0") + attribute(IFLA_MTU, struct.pack("<I", 1500))
    if info is not None:
        body += attribute(IFLA_LINKINFO, info)
    return message(kind, body, message_flags)


def packet(netlink, family=NETLINK_ROUTE):
    """A packet of an nlmon device: its header of 16 bytes, and what was sent."""
    return struct.pack(">HH10xH", 4, ARPHRD_NETLINK, family) + netlink


def record(order, seconds, fraction, data, original=None):
    """A record of a capture."""
    length = len(data) if original is None else original
    return struct.pack(f"{order}IIII", seconds, fraction, len(data), length) + data


def capture(records, order="<", magic=0xa1b2c3d4, link_type=LINKTYPE_NETLINK):
    """A capture file."""
    return struct.pack(f"{order}IHHiIII", magic, 2, 4, 0, 0, 262144, link_type) + b"".join(records)


VXLAN = (attribute(IFLA_INFO_KIND, b"vxlan\0")
         + attribute(IFLA_INFO_DATA | NLA_F_NESTED,
                     attribute(1, struct.pack("<I", 42)) + attribute(15, struct.pack(">H", 4789))
                     + attribute(5, b"\x40")))
# a vlan that is a port of a bridge, in state 3 (forwarding)
PORT = (attribute(IFLA_INFO_KIND, b"vlan\0")
        + attribute(IFLA_INFO_DATA, attribute(1, struct.pack("<H", 7)))
        + attribute(IFLA_INFO_SLAVE_KIND, b"bridge\0")
        + attribute(IFLA_INFO_SLAVE_DATA, attribute(1, b"\x03")))
# a payload of `IFLA_VXLAN_ID` that is too short
REJECTED = (attribute(IFLA_INFO_KIND, b"vxlan\0")
            + attribute(IFLA_INFO_DATA, attribute(1, b"\x2a\0")))
# a kind that no terminal should see
HOSTILE = attribute(IFLA_INFO_KIND, b"\x1b[2J\\\x07\xc3\xa9\0") + attribute(0x4007, b"\x01\x02")

UP = 0x1 | 0x2 | 0x1000 | 0x40 | 0x10000
DUMP = (link(RTM_NEWLINK, 1, 0x1 | 0x8 | 0x40 | 0x10000, b"lo", None, NLM_F_MULTI)
        + link(RTM_NEWLINK, 7, UP, b"vx0", VXLAN, NLM_F_MULTI)
        + message(RTM_NEWADDR, bytes(8))
        + link(RTM_DELLINK, 8, 0x1 | 0x2 | 0x1000, b"v\x1b7", PORT)
        + message(NLMSG_DONE, bytes(4), NLM_F_MULTI))
DUMP_TEXT = """\
1: lo <LOOPBACK,UP,LOWER_UP>
7: vx0 <BROADCAST,MULTICAST,UP,LOWER_UP>: vxlan
    id 42
    port 4789
    ttl 64
Deleted 8: v\\x1b7 <NO-CARRIER,BROADCAST,MULTICAST,UP>: vlan
    id 7
    port of bridge
        state forwarding
"""
DUMP_JSON = [
    {"deleted": False, "flags": ["LOOPBACK", "UP", "LOWER_UP"], "ifindex": 1, "ifname": "lo"},
    {"deleted": False, "flags": ["BROADCAST", "MULTICAST", "UP", "LOWER_UP"], "ifindex": 7,
     "ifname": "vx0",
     "linkinfo": {"info_kind": "vxlan", "info_data": {"id": 42, "port": 4789, "ttl": 64}}},
    {"deleted": True, "flags": ["NO-CARRIER", "BROADCAST", "MULTICAST", "UP"], "ifindex": 8,
     "ifname": "v\\x1b7",
     "linkinfo": {"info_kind": "vlan", "info_data": {"id": 7}, "info_slave_kind": "bridge",
                  "info_slave_data": {"state": "forwarding"}}},
]
# a link with such a kind and such a name
HOSTILE_LINK = link(RTM_NEWLINK, 9, UP, b"\x9b1m\\", HOSTILE)
HOSTILE_JSON = {"deleted": False, "flags": ["BROADCAST", "MULTICAST", "UP", "LOWER_UP"],
                "ifindex": 9, "ifname": r"\x9b1m\x5c",
                "linkinfo": {"info_kind": r"\x1b[2J\x5c\x07\xc3\xa9",
                             "others": [{"hex": "0102", "type": 0x4007}]}}


def pcap(order, magic, fraction):
    """A capture with a packet of each kind, and the offsets of its records."""
    data = [packet(DUMP), packet(message(16, bytes(4)), NETLINK_GENERIC), packet(DUMP)[:60],
            packet(link(RTM_NEWLINK, 9, 0, b"bad", REJECTED)), packet(DUMP)]
    records, places, place = [], [], 24
    for number, it in enumerate(data):
        original = len(packet(DUMP)) if number == 2 else None
        records.append(record(order, 1700000000 + number, fraction, it, original))
        places.append(place)
        place += 16 + len(it)
    return capture(records, order, magic), places


# ---- what any bytes say

# The type of an attribute without its two flag bits (`NLA_TYPE_MASK`).
NLA_TYPE_MASK = 0x3fff
# Of the first four bytes of a capture: the byte order, and the nanoseconds of a fraction's unit.
MAGIC = {b"\xd4\xc3\xb2\xa1": ("<", 1000), b"\x4d\x3c\xb2\xa1": ("<", 1),
         b"\xa1\xb2\xc3\xd4": (">", 1000), b"\xa1\xb2\x3c\x4d": (">", 1)}



class Damaged(Exception):
    """A header that is cut short, or a length that it does not allow."""


def elements(data, header, least):
    """What `struct nlmsghdr` and `struct nlattr` frame: the values of each header, and its payload,
    which ends at the length that is the header's first value. The next header is at the next
    multiple of four."""
    place = 0
    while place < len(data):
        if len(data) - place < least:
            raise Damaged
        values = struct.unpack_from(header, data, place)
        if not least <= values[0] <= len(data) - place:
            raise Damaged
        yield values, data[place + least:place + values[0]]
        place += -(-values[0] // 4) * 4


def shown(name):
    """A name as printable ASCII: each other byte, and the backslash, is escaped."""
    return "".join(chr(it) if 0x20 <= it < 0x7f and it != 0x5c else f"\\x{it:02x}" for it in name)


def links(data, time=None):
    """What messages say, in order: a value for each link, without its flags, with the contents of
    IFLA_LINKINFO as bytes; or None for an error, after which nothing follows."""
    try:
        for (_, kind, _, _, _), payload in elements(data, "<IHHII", 16):
            if kind not in (RTM_NEWLINK, RTM_DELLINK):
                continue
            if len(payload) < 16:
                raise Damaged
            attributes = {kind & NLA_TYPE_MASK: value
                          for (_, kind), value in elements(payload[16:], "<HH", 4)}
            value = {"deleted": kind == RTM_DELLINK,
                     "ifindex": struct.unpack_from("<i", payload, 4)[0]}
            if IFLA_IFNAME in attributes:
                value["ifname"] = shown(attributes[IFLA_IFNAME].removesuffix(b"\0"))
            if IFLA_LINKINFO in attributes:
                value["linkinfo"] = attributes[IFLA_LINKINFO]
            if time is not None:
                value["time"] = time
            yield value
    except Damaged:
        yield None


def captured(file):
    """The same of a capture. A damaged record ends it; a packet that is cut short, or of another
    device, is an error; those of other families are skipped."""
    if len(file) < 24 or file[:4] not in MAGIC:
        yield None
        return
    order, unit = MAGIC[file[:4]]
    if struct.unpack_from(f"{order}I", file, 20)[0] & 0xffff != LINKTYPE_NETLINK:
        yield None
        return
    place = 24
    while place < len(file):
        if len(file) - place < 16:
            yield None
            return
        seconds, fraction, length, original = struct.unpack_from(f"{order}IIII", file, place)
        data = file[place + 16:place + 16 + length]
        if len(data) < length:
            yield None
            return
        place += 16 + length
        if length < max(original, 16):
            yield None
            continue
        device, family = struct.unpack_from(">2xH10xH", data)
        if device != ARPHRD_NETLINK:
            yield None
        elif family == NETLINK_ROUTE:
            yield from links(data[16:], f"{seconds}.{fraction * unit:09}")
