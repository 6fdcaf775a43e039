/* Link messages in the bytes of a netlink socket: worked messages, whose offsets are counted by
 * hand; each of their prefixes, with each bit flipped and from each cursor, by the rules of the
 * kernel's headers (messages.h); and the links of this machine. The bytes end where a mapping
 * does. */
#define _DEFAULT_SOURCE
#include "linkinfo.h"
#include "messages.h"
#include <stdio.h>
#include <stdlib.h>
#include <sys/mman.h>
#include <sys/socket.h>
#include <sys/time.h>
#include <unistd.h>

#define CHECK(condition) \
  do { \
    if (!(condition)) { \
      fprintf(stderr, "%s:%d: %s\n", __FILE__, __LINE__, #condition); \
      exit(1); \
    } \
  } while (0)

enum { ROOM = 1 << 16 };

_Static_assert(sizeof(struct linkinfo_message_error) == 16, "message error");
_Static_assert(offsetof(struct linkinfo_message_error, length) == 8, "message_error.length");
_Static_assert(offsetof(struct linkinfo_message_error, cause) == 12, "message_error.cause");
_Static_assert(sizeof(struct linkinfo_link) == 80, "link");
_Static_assert(offsetof(struct linkinfo_link, place) == 16, "link.place");
_Static_assert(offsetof(struct linkinfo_link, next) == 24, "link.next");
_Static_assert(offsetof(struct linkinfo_link, name_place) == 32, "link.name_place");
_Static_assert(offsetof(struct linkinfo_link, name_length) == 40, "link.name_length");
_Static_assert(offsetof(struct linkinfo_link, list_place) == 48, "link.list_place");
_Static_assert(offsetof(struct linkinfo_link, list_length) == 56, "link.list_length");
_Static_assert(offsetof(struct linkinfo_link, index) == 64, "link.index");
_Static_assert(offsetof(struct linkinfo_link, flags) == 68, "link.flags");
_Static_assert(offsetof(struct linkinfo_link, status) == 72, "link.status");
_Static_assert(offsetof(struct linkinfo_link, event) == 76, "link.event");
_Static_assert(offsetof(struct linkinfo_link, has_name) == 78, "link.has_name");
_Static_assert(offsetof(struct linkinfo_link, has_list) == 79, "link.has_list");

static uint8_t *end;

/* The bytes at the end of a mapping. */
static uint8_t *at_end(const uint8_t *bytes, size_t length) {
  if (length == 0) return end;
  return memcpy(end - length, bytes, length);
}

/* Two links, a message without a meaning, the end of a dump, and a link without its padding. */
static const uint8_t dump[] = {
    /* offset 0, struct nlmsghdr: length 60, RTM_NEWLINK, NLM_F_MULTI, sequence 1, port 2 */
    60, 0, 0, 0, 16, 0, 2, 0, 1, 0, 0, 0, 2, 0, 0, 0,
    /* struct ifinfomsg: AF_UNSPEC, ARPHRD_ETHER, index 7, IFF_UP and IFF_BROADCAST, no change */
    0, 0, 1, 0, 7, 0, 0, 0, 3, 0, 0, 0, 0, 0, 0, 0,
    /* 32: IFLA_IFNAME (3) "vr0" with its NUL; 40: IFLA_MTU (4) 1500 */
    8, 0, 3, 0, 'v', 'r', '0', 0, 8, 0, 4, 0, 0xdc, 5, 0, 0,
    /* 48: IFLA_LINKINFO (18) with NLA_F_NESTED: IFLA_INFO_KIND (1) "vrf" with its NUL */
    12, 0, 18, 0x80, 8, 0, 1, 0, 'v', 'r', 'f', 0,
    /* 60: length 47, RTM_DELLINK, no flags, sequence 1, port 2 */
    47, 0, 0, 0, 17, 0, 0, 0, 1, 0, 0, 0, 2, 0, 0, 0,
    /* index -2, flags 0x80000000 */
    0, 0, 1, 0, 0xfe, 0xff, 0xff, 0xff, 0, 0, 0, 0x80, 0, 0, 0, 0,
    /* 92: IFLA_IFNAME "a" with its NUL; 100: "bcd" without one, and a byte of padding */
    6, 0, 3, 0, 'a', 0, 0, 0, 7, 0, 3, 0, 'b', 'c', 'd', 0,
    /* 108: length 16, NLMSG_NOOP (1) */
    16, 0, 0, 0, 1, 0, 0, 0, 0, 0, 0, 0, 0, 0, 0, 0,
    /* 124: length 20, NLMSG_DONE (3), with the result 0 */
    20, 0, 0, 0, 3, 0, 2, 0, 1, 0, 0, 0, 2, 0, 0, 0, 0, 0, 0, 0,
    /* 144: length 41, RTM_NEWLINK, index 1, no flags */
    41, 0, 0, 0, 16, 0, 0, 0, 0, 0, 0, 0, 0, 0, 0, 0,
    0, 0, 0, 0, 1, 0, 0, 0, 0, 0, 0, 0, 0, 0, 0, 0,
    /* 176: IFLA_LINKINFO without contents; 180: IFLA_IFNAME, a NUL alone */
    4, 0, 18, 0, 5, 0, 3, 0, 0};

static struct linkinfo_link link_of(size_t place, size_t next, uint16_t event, int32_t index,
                                    uint32_t flags) {
  struct linkinfo_link link;
  memset(&link, 0, sizeof link);
  link.status = LINKINFO_LINK_FOUND;
  link.place = place;
  link.next = next;
  link.event = event;
  link.index = index;
  link.flags = flags;
  return link;
}

static struct linkinfo_link with_name(struct linkinfo_link link, size_t place, size_t length) {
  link.has_name = true;
  link.name_place = place;
  link.name_length = length;
  return link;
}

static struct linkinfo_link with_list(struct linkinfo_link link, size_t place, size_t length) {
  link.has_list = true;
  link.list_place = place;
  link.list_length = length;
  return link;
}

static struct linkinfo_link no_link(size_t length) {
  struct linkinfo_link link;
  memset(&link, 0, sizeof link);
  link.next = length;
  return link;
}

static void is(const uint8_t *bytes, size_t length, size_t cursor, struct linkinfo_link wanted) {
  struct linkinfo_link link = linkinfo_next_link(bytes, length, cursor);
  CHECK(equal_links(&link, &wanted));
}

static struct linkinfo_link first_link(void) {
  struct linkinfo_link link = link_of(0, 60, LINKINFO_EVENT_NEW, 7, 3);
  return with_list(with_name(link, 36, 3), 52, 8);
}

static struct linkinfo_link second_link(size_t next) {
  return with_name(link_of(60, next, LINKINFO_EVENT_DELETED, -2, 0x80000000u), 104, 3);
}

static struct linkinfo_link last_link(void) {
  struct linkinfo_link link = link_of(144, 185, LINKINFO_EVENT_NEW, 1, 0);
  return with_list(with_name(link, 184, 0), 180, 0);
}

/* Each message of the dump, once, and then the end, as often as it is asked for. */
static void whole(void) {
  const uint8_t *bytes = at_end(dump, sizeof dump);
  size_t all = sizeof dump;
  CHECK(all == 185);
  is(bytes, all, 0, first_link());
  is(bytes, all, 60, second_link(108));
  is(bytes, all, 108, last_link());
  is(bytes, all, 124, last_link());
  is(bytes, all, 144, last_link());
  is(bytes, all, 185, no_link(185));
  for (size_t more = 0; more < 20; more++) is(bytes, all, all + more, no_link(all));
  is(bytes, all, SIZE_MAX, no_link(all));
  is(NULL, 0, 0, no_link(0));
  is(NULL, 0, 1, no_link(0));
  size_t cursor = 0, links = 0;
  struct linkinfo_link link;
  while ((link = linkinfo_next_link(bytes, all, cursor)).status == LINKINFO_LINK_FOUND) {
    CHECK(linkinfo_check(bytes + link.list_place, link.list_length).cause == 0);
    cursor = link.next;
    links++;
  }
  CHECK(links == 3 && link.status == LINKINFO_LINK_END);
  CHECK(memcmp(bytes + 36, "vr0", 3) == 0 && memcmp(bytes + 104, "bcd", 3) == 0);
}

static void fails(const uint8_t *bytes, size_t length, size_t cursor, size_t place,
                  uint32_t cause, size_t at, uint32_t size) {
  is(bytes, length, cursor, rejected_by_rules(place, length, cause, at, size));
}

/* What each prefix of the dump has, by its length. */
static void prefixes(void) {
  for (size_t length = 0; length <= sizeof dump; length++) {
    const uint8_t *bytes = at_end(dump, length);
    if (length == 0)
      is(bytes, length, 0, no_link(0));
    else if (length < 16)
      fails(bytes, length, 0, 0, LINKINFO_MESSAGE_CAUSE_HEADER, 0, 0);
    else if (length < 60)
      fails(bytes, length, 0, 0, LINKINFO_MESSAGE_CAUSE_LONG, 0, 60);
    else
      is(bytes, length, 0, first_link());
    if (length == 60)
      is(bytes, length, 60, no_link(60));
    else if (length > 60 && length < 76)
      fails(bytes, length, 60, 60, LINKINFO_MESSAGE_CAUSE_HEADER, 60, 0);
    else if (length >= 76 && length < 107)
      fails(bytes, length, 60, 60, LINKINFO_MESSAGE_CAUSE_LONG, 60, 47);
    else if (length >= 107)
      is(bytes, length, 60, second_link(length == 107 ? 107 : 108));
    if (length == 107 || length == 108 || length == 124 || length == 144)
      is(bytes, length, 108, no_link(length));
    else if (length > 108 && length < 124)
      fails(bytes, length, 108, 108, LINKINFO_MESSAGE_CAUSE_HEADER, 108, 0);
    else if (length > 124 && length < 140)
      fails(bytes, length, 108, 124, LINKINFO_MESSAGE_CAUSE_HEADER, 124, 0);
    else if (length >= 140 && length < 144)
      fails(bytes, length, 108, 124, LINKINFO_MESSAGE_CAUSE_LONG, 124, 20);
    else if (length > 144 && length < 160)
      fails(bytes, length, 108, 144, LINKINFO_MESSAGE_CAUSE_HEADER, 144, 0);
    else if (length >= 160 && length < 185)
      fails(bytes, length, 108, 144, LINKINFO_MESSAGE_CAUSE_LONG, 144, 41);
  }
}

/* The dump with one byte changed. */
static const uint8_t *changed(size_t at, uint8_t byte) {
  uint8_t *bytes = at_end(dump, sizeof dump);
  bytes[at] = byte;
  return bytes;
}

/* Each cause, and the messages that are not looked into. */
static void causes(void) {
  size_t all = sizeof dump;
  fails(dump, 67, 60, 60, LINKINFO_MESSAGE_CAUSE_HEADER, 60, 0);
  fails(changed(60, 15), all, 60, 60, LINKINFO_MESSAGE_CAUSE_SHORT, 60, 15);
  fails(changed(60, 0), all, 60, 60, LINKINFO_MESSAGE_CAUSE_SHORT, 60, 0);
  fails(changed(60, 126), all, 60, 60, LINKINFO_MESSAGE_CAUSE_LONG, 60, 126);
  fails(changed(63, 255), all, 60, 60, LINKINFO_MESSAGE_CAUSE_LONG, 60, 0xff00002fu);
  fails(changed(60, 31), all, 60, 60, LINKINFO_MESSAGE_CAUSE_LINK_HEADER, 60, 31);
  fails(changed(60, 16), all, 60, 60, LINKINFO_MESSAGE_CAUSE_LINK_HEADER, 60, 16);
  fails(changed(92, 3), all, 60, 60, LINKINFO_MESSAGE_CAUSE_ATTRIBUTE, 92, 0);
  fails(changed(40, 21), all, 0, 0, LINKINFO_MESSAGE_CAUSE_ATTRIBUTE, 40, 0);
  fails(changed(0, 50), all, 0, 0, LINKINFO_MESSAGE_CAUSE_ATTRIBUTE, 48, 0);
  /* a message of the length of struct ifinfomsg, without attributes: the next one is at 92, whose
   * length is 0x00030006 */
  is(changed(60, 32), all, 60, link_of(60, 92, LINKINFO_EVENT_DELETED, -2, 0x80000000u));
  fails(changed(60, 32), all, 92, 92, LINKINFO_MESSAGE_CAUSE_LONG, 92, 0x30006);
  /* NLMSG_ERROR, RTM_GETLINK and RTM_NEWADDR in place of RTM_NEWLINK: the first message is skipped,
   * also where its attributes are cut short */
  is(changed(4, 2), all, 0, second_link(108));
  is(changed(4, 18), all, 0, second_link(108));
  is(changed(4, 20), all, 0, second_link(108));
  is(changed(5, 1), all, 0, second_link(108));
  uint8_t *bytes = at_end(dump, all);
  bytes[4] = 2;
  bytes[40] = 21;
  is(bytes, all, 0, second_link(108));
  /* the result of an error begins the end */
  bytes = at_end(dump, all);
  bytes[60] = 15;
  struct linkinfo_link link = linkinfo_next_link(bytes, all, 60);
  CHECK(link.status == LINKINFO_LINK_REJECTED);
  is(bytes, all, link.next, no_link(all));
}

/* Names and lists: absent, empty, with and without a NUL, twice, and with the flag bits of
 * types. */
static void parts(void) {
  static const uint8_t header[] = {0, 0, 0, 0, 16, 0, 0, 0, 0, 0, 0, 0, 0, 0, 0, 0,
                                   0, 0, 0, 0, 9,  0, 0, 0, 1, 0, 0, 0, 0, 0, 0, 0};
  static const struct {
    uint8_t attributes[24];
    size_t length, name_place, name_length, list_place, list_length;
    bool has_name, has_list;
  } all[] = {
      {{0}, 0, 0, 0, 0, 0, false, false},
      {{8, 0, 4, 0, 1, 0, 0, 0}, 8, 0, 0, 0, 0, false, false},
      {{4, 0, 3, 0}, 4, 36, 0, 0, 0, true, false},
      {{5, 0, 3, 0, 0}, 5, 36, 0, 0, 0, true, false},
      {{6, 0, 3, 0, 0, 0}, 6, 36, 1, 0, 0, true, false},
      {{5, 0, 3, 0, 'x'}, 5, 36, 1, 0, 0, true, false},
      {{8, 0, 3, 0, 'x', 0, 'y', 0}, 8, 36, 3, 0, 0, true, false},
      {{6, 0, 3, 0x40, 'x', 0}, 6, 36, 1, 0, 0, true, false},
      {{4, 0, 18, 0}, 4, 0, 0, 36, 0, false, true},
      {{5, 0, 18, 0, 0}, 5, 0, 0, 36, 1, false, true},
      {{8, 0, 18, 0xc0, 4, 0, 9, 0}, 8, 0, 0, 36, 4, false, true},
      {{6, 0, 18, 0, 1, 2, 0, 0, 5, 0, 18, 0x80, 7}, 13, 0, 0, 44, 1, false, true},
      {{6, 0, 3, 0, 'x', 0, 0, 0, 4, 0, 3, 0}, 12, 44, 0, 0, 0, true, false},
      {{4, 0, 18, 0, 4, 0, 3, 0, 4, 0, 1, 0}, 12, 40, 0, 36, 0, true, true},
      /* types 3 and 18 in the high byte */
      {{4, 0, 0, 3, 4, 0, 0, 18}, 8, 0, 0, 0, 0, false, false},
  };
  for (size_t i = 0; i < sizeof all / sizeof *all; i++) {
    uint8_t bytes[sizeof header + sizeof all->attributes];
    size_t length = sizeof header + all[i].length;
    memcpy(bytes, header, sizeof header);
    memcpy(bytes + sizeof header, all[i].attributes, all[i].length);
    bytes[0] = (uint8_t)length;
    struct linkinfo_link wanted = link_of(0, length, LINKINFO_EVENT_NEW, 9, 1);
    if (all[i].has_name) wanted = with_name(wanted, all[i].name_place, all[i].name_length);
    if (all[i].has_list) wanted = with_list(wanted, all[i].list_place, all[i].list_length);
    is(at_end(bytes, length), length, 0, wanted);
  }
}

/* Each prefix of the dump, and each with one bit flipped, from each cursor, by the rules. Of an
 * attribute that is found the bytes are there, and the calls end. */
static void by_rules(const uint8_t *bytes, size_t length) {
  for (size_t cursor = 0; cursor <= length + 1; cursor++) {
    struct linkinfo_link link = linkinfo_next_link(bytes, length, cursor),
                         wanted = next_by_rules(bytes, length, cursor);
    CHECK(equal_links(&link, &wanted));
    CHECK(link.next <= length && link.name_place + link.name_length <= length &&
          link.list_place + link.list_length <= length);
    CHECK(link.status != LINKINFO_LINK_FOUND || link.next >= cursor + 32);
  }
}

static void every_bit(void) {
  for (size_t length = 0; length <= sizeof dump; length++) by_rules(at_end(dump, length), length);
  for (size_t bit = 0; bit < 8 * sizeof dump; bit++) {
    uint8_t *bytes = at_end(dump, sizeof dump);
    bytes[bit / 8] ^= (uint8_t)(1u << (bit % 8));
    by_rules(bytes, sizeof dump);
  }
}

/* The links of this machine, as a socket returns them, where it may be opened. */
static void of_this_machine(void) {
  struct {
    struct nlmsghdr header;
    struct ifinfomsg info;
  } request = {.header = {.nlmsg_len = sizeof request,
                          .nlmsg_type = RTM_GETLINK,
                          .nlmsg_flags = NLM_F_REQUEST | NLM_F_DUMP}};
  struct timeval second = {.tv_sec = 1};
  int descriptor = socket(AF_NETLINK, SOCK_RAW, NETLINK_ROUTE);
  if (descriptor < 0 ||
      setsockopt(descriptor, SOL_SOCKET, SO_RCVTIMEO, &second, sizeof second) != 0 ||
      send(descriptor, &request, sizeof request, 0) != (ssize_t)sizeof request) {
    printf("messages: no netlink socket here\n");
    if (descriptor >= 0) close(descriptor);
    return;
  }
  size_t links = 0, lists = 0;
  for (int done = 0; !done;) {
    uint8_t *bytes = end - ROOM / 2;
    ssize_t got = recv(descriptor, bytes, ROOM / 2, 0);
    if (got <= 0) break;
    size_t length = (size_t)got, cursor = 0;
    bytes = memmove(end - length, bytes, length);
    for (struct nlmsghdr header; cursor + sizeof header <= length;
         cursor += NLMSG_ALIGN(header.nlmsg_len)) {
      memcpy(&header, bytes + cursor, sizeof header);
      done |= header.nlmsg_type == NLMSG_DONE || header.nlmsg_type == NLMSG_ERROR;
    }
    struct linkinfo_link link;
    for (cursor = 0;; cursor = link.next) {
      struct linkinfo_link wanted = next_by_rules(bytes, length, cursor);
      link = linkinfo_next_link(bytes, length, cursor);
      CHECK(equal_links(&link, &wanted) && link.status != LINKINFO_LINK_REJECTED);
      if (link.status == LINKINFO_LINK_END) break;
      CHECK(link.event == LINKINFO_EVENT_NEW && link.has_name && link.name_length > 0);
      CHECK(linkinfo_check(bytes + link.list_place, link.list_length).cause == 0);
      links++;
      lists += link.has_list;
    }
  }
  close(descriptor);
  printf("messages: %zu links of this machine, %zu with link info\n", links, lists);
}

/* The sentence of an error, in buffers of every length. */
static void says(struct linkinfo_message_error error, size_t place, const char *wanted) {
  size_t length = strlen(wanted);
  for (size_t room = 0; room <= length + 3; room++) {
    char *buffer = (char *)end - room;
    memset(buffer, 0x5a, room);
    CHECK(linkinfo_message_error_text(error, place, buffer, room) == length);
    size_t shown = room == 0 ? 0 : length < room - 1 ? length : room - 1;
    CHECK(memcmp(buffer, wanted, shown) == 0 && (room == 0 || buffer[shown] == 0));
    for (size_t i = shown + 1; i < room; i++) CHECK(buffer[i] == 0x5a);
  }
}

static void sentences(void) {
  size_t all = sizeof dump;
  struct linkinfo_link link = linkinfo_next_link(dump, 67, 60);
  says(link.error, link.place, "message at offset 60: its header is cut short");
  link = linkinfo_next_link(changed(60, 15), all, 60);
  says(link.error, link.place,
       "message at offset 60: its length 15 is less than that of its header");
  link = linkinfo_next_link(changed(60, 126), all, 60);
  says(link.error, link.place,
       "message at offset 60: its length 126 exceeds the bytes that are left");
  link = linkinfo_next_link(changed(60, 31), all, 60);
  says(link.error, link.place, "message at offset 60: its length 31 has no room for ifinfomsg");
  link = linkinfo_next_link(changed(92, 3), all, 60);
  says(link.error, link.place, "message at offset 60: invalid attribute header, at offset 92");
  link = linkinfo_next_link(dump, all, 0);
  says(link.error, link.place, "");
  struct linkinfo_message_error most = {SIZE_MAX, UINT32_MAX, LINKINFO_MESSAGE_CAUSE_ATTRIBUTE};
  says(most, SIZE_MAX,
       "message at offset 18446744073709551615: invalid attribute header, "
       "at offset 18446744073709551615");
  most.cause = LINKINFO_MESSAGE_CAUSE_LONG;
  says(most, SIZE_MAX,
       "message at offset 18446744073709551615: its length 4294967295 exceeds the bytes that are "
       "left");
  most.cause = LINKINFO_MESSAGE_CAUSE_ATTRIBUTE + 1;
  says(most, 0, "");
}

int main(void) {
  size_t page = (size_t)sysconf(_SC_PAGESIZE);
  uint8_t *memory =
      mmap(NULL, ROOM + page, PROT_READ | PROT_WRITE, MAP_PRIVATE | MAP_ANONYMOUS, -1, 0);
  CHECK(memory != MAP_FAILED && mprotect(memory + ROOM, page, PROT_NONE) == 0);
  end = memory + ROOM;
  whole();
  prefixes();
  causes();
  parts();
  every_bit();
  sentences();
  of_this_machine();
  return 0;
}
