/* A libFuzzer target: every call over two strings, each at the end of a mapping. */
#define _DEFAULT_SOURCE
#include "linkinfo.h"
#include "messages.h"
#include "values.h"
#include <string.h>
#include <sys/mman.h>
#include <unistd.h>

#define CHECK(condition) \
  do { \
    if (!(condition)) __builtin_trap(); \
  } while (0)

enum { ROOM = 1 << 16, COUNTERS = 1 << 14 };

/* The library has no coverage counters. So the fuzzer counts results instead: errors, and
 * attributes with their kinds. */
__attribute__((section("__libfuzzer_extra_counters"))) static uint8_t counters[COUNTERS];

static void seen(unsigned a, unsigned b, unsigned c) {
  counters[(a * 977u + b * 131u + c) % COUNTERS] = 1;
}

static uint8_t *guarded(void) {
  size_t page = (size_t)sysconf(_SC_PAGESIZE);
  uint8_t *memory =
      mmap(NULL, ROOM + page, PROT_READ | PROT_WRITE, MAP_PRIVATE | MAP_ANONYMOUS, -1, 0);
  CHECK(memory != MAP_FAILED && mprotect(memory + ROOM, page, PROT_NONE) == 0);
  return memory + ROOM;
}

/* The attributes in a nested list: their number is that of its elements. */
static void nested(const uint8_t *bytes, size_t length, uint16_t list_kind) {
  static struct linkinfo_valued_attribute values[ROOM / 4];
  struct linkinfo_list_result found = linkinfo_values(bytes, length, list_kind, values, ROOM / 4);
  CHECK(found.count <= length / 4 && found.place <= length);
  CHECK((found.error.cause == 0) == (found.place == length));
  for (size_t i = 0; i < found.count; i++) {
    CHECK(values[i].place + 4 + values[i].length <= length);
    CHECK(values[i].value.list_kind == 0);
    seen(list_kind, values[i].raw_type % 64, values[i].value.value_type);
  }
}

static void inside(const uint8_t *bytes, size_t length, uint16_t kind) {
  static struct linkinfo_attribute attributes[ROOM / 4];
  struct linkinfo_list_result found =
      linkinfo_attributes(bytes, length, kind, attributes, ROOM / 4);
  CHECK(found.count <= length / 4 && found.place <= length);
  static struct linkinfo_valued_attribute values[ROOM / 4];
  CHECK(linkinfo_values(bytes, length, kind, values, ROOM / 4).count == found.count);
  for (size_t i = 0; i < found.count; i++) {
    const uint8_t *payload = bytes + attributes[i].place + 4;
    struct linkinfo_value wanted =
        value_by_rules(attributes[i].shape, payload, attributes[i].length);
    CHECK(values[i].place == attributes[i].place && values[i].shape == attributes[i].shape);
    uint16_t list_kind = values[i].value.list_kind;
    if (list_kind != 0) nested(payload, attributes[i].length, list_kind);
    if (attributes[i].shape == LINKINFO_SHAPE_NESTED) {
      CHECK(list_kind > LINKINFO_LIST_KIND_V6);
      wanted.list_kind = list_kind;
    }
    CHECK(equal_values(&values[i].value, &wanted));
    CHECK(attributes[i].place + 4 + attributes[i].length <= length &&
          (attributes[i].is_number || attributes[i].number == 0));
    seen(500u + kind, attributes[i].raw_type % 64, attributes[i].shape);
  }
}

/* The attribute at an offset is of this family and type. */
static void stands_at(const uint8_t *bytes, size_t length, size_t offset, uint16_t family,
                      uint16_t type) {
  struct linkinfo_placed_value found = linkinfo_value_at(bytes, length, offset);
  CHECK(found.is_found && found.family == family && found.attribute.place == offset);
  CHECK((found.attribute.raw_type & 0x3fff) == type);
  CHECK(offset + 4 + found.attribute.length <= length);
}

static struct linkinfo_error one(const uint8_t *bytes, size_t length) {
  static struct linkinfo_item items[ROOM / 4];
  static char text[37];
  struct linkinfo_error error = linkinfo_check(bytes, length);
  struct linkinfo_error_at placed = linkinfo_check_at(bytes, length);
  struct linkinfo_count_result count = linkinfo_count(bytes, length);
  struct linkinfo_list_result found = linkinfo_items(bytes, length, items, ROOM / 4);
  CHECK(error.cause <= LINKINFO_CAUSE_ADDRESS_KIND || error.cause == LINKINFO_CAUSE_DEPTH);
  CHECK(memcmp(&placed.error, &error, sizeof error) == 0 &&
        memcmp(&count.error, &error, sizeof error) == 0 && count.count <= length / 4);
  CHECK(linkinfo_error_text(error, text, sizeof text) == strlen(text) &&
        (text[0] != 0) == (error.cause != 0));
  CHECK(found.count <= length / 4 && found.place <= length &&
        (error.cause != 0 || (found.error.cause == 0 && found.place == length)));
  struct linkinfo_inner_error inner = linkinfo_check_inner(bytes, length);
  CHECK(memcmp(&inner.error, &error, sizeof error) == 0 && inner.place == placed.place);
  CHECK((linkinfo_error_message(error, inner.inner, text, sizeof text) > 0) == (error.cause != 0));
  CHECK(inner.inner >= inner.place && inner.inner <= length);
  if (error.cause != 0) {
    CHECK(linkinfo_check(bytes, placed.place).cause == 0);
    for (size_t more = 1; more <= 8 && placed.place + more <= length; more++)
      CHECK(linkinfo_check(bytes, placed.place + more).cause != 0);
  }
  if (error.cause != 0 && error.family != LINKINFO_FAMILY_FRAME)
    stands_at(bytes, length, inner.inner, error.family, error.type);
  seen(error.cause, error.family, error.type % 64);
  for (size_t i = 0; i < found.count; i++) {
    CHECK(items[i].place + 4 + items[i].length <= length);
    uint16_t type = items[i].raw_type & 0x3fff;
    stands_at(bytes, length, items[i].place, LINKINFO_FAMILY_LINKINFO, type);
    if (type == 2 || type == 5)
      inside(bytes + items[i].place + 4, items[i].length,
             type == 2 ? items[i].kind : items[i].port_kind);
    seen(100u + items[i].kind, items[i].raw_type % 64,
         items[i].length < 64 ? (unsigned)items[i].length : 64);
  }
  return error;
}

static bool equal_unmet(const struct linkinfo_unmet *a, const struct linkinfo_unmet *b) {
  return memcmp(&a->error, &b->error, sizeof a->error) == 0 && a->rejected == b->rejected &&
         a->family == b->family && a->type == b->type && a->want == b->want &&
         a->have == b->have && a->met == b->met && a->is_present == b->is_present;
}

/* With bonds, bridges and their like opaque: what is accepted without is accepted, its canonical
 * encoding is that of the one that is written, and what is equivalent stays so. */
static void opaque(const uint8_t *a, size_t a_length, const uint8_t *b, size_t b_length,
                   struct linkinfo_error x, struct linkinfo_error y, bool same) {
  struct linkinfo_inner_error found = linkinfo_check_inner_opaque(a, a_length);
  CHECK(found.inner >= found.place && found.inner <= a_length);
  CHECK(x.cause != 0 || found.error.cause == 0);
  struct linkinfo_count_result count = linkinfo_count_opaque(a, a_length);
  CHECK(memcmp(&count.error, &found.error, sizeof count.error) == 0);
  CHECK(count.count <= a_length / 4);
  CHECK(x.cause != 0 || count.count <= linkinfo_count(a, a_length).count);
  struct linkinfo_same_result verbatim = linkinfo_same_opaque(a, a_length, b, b_length);
  struct linkinfo_difference differ = linkinfo_first_difference_opaque(a, a_length, b, b_length);
  struct linkinfo_unmet unmet = linkinfo_first_unmet_opaque(a, a_length, b, b_length);
  CHECK(verbatim.rejected == differ.rejected && verbatim.same == differ.same);
  struct linkinfo_unmet next = linkinfo_next_unmet_opaque(a, a_length, b, b_length, 0);
  CHECK(verbatim.rejected == unmet.rejected && (!verbatim.same || unmet.met));
  CHECK(equal_unmet(&next, &unmet));
  for (; next.rejected == 0 && !next.met; unmet = next) {
    next = linkinfo_next_unmet_opaque(a, a_length, b, b_length, unmet.want + 1);
    CHECK(next.rejected == 0 && (next.met || next.want > unmet.want));
  }
  CHECK(x.cause != 0 || y.cause != 0 || (verbatim.rejected == 0 && (!verbatim.same || same)));
  static uint8_t written[2 * ROOM], again[2 * ROOM], once[2 * ROOM];
  struct linkinfo_canon_result canon =
      linkinfo_canon_opaque(a, a_length, written, sizeof written);
  CHECK(memcmp(&canon.error, &found.error, sizeof canon.error) == 0);
  if (x.cause != 0 || canon.status != LINKINFO_CANON_WRITTEN) return;
  struct linkinfo_canon_result both = linkinfo_canon(written, canon.length, again, sizeof again);
  struct linkinfo_canon_result typed = linkinfo_canon(a, a_length, once, sizeof once);
  CHECK(both.status == typed.status && both.length == typed.length);
  CHECK(typed.status != LINKINFO_CANON_WRITTEN || memcmp(again, once, typed.length) == 0);
}

/* The canonical encoding of a list: none where the list is rejected. Else it is its own canonical
 * encoding and equivalent to the list, and the length that is needed is that which is written. */
static size_t canonical(const uint8_t *bytes, size_t length, struct linkinfo_error error,
                        uint8_t *buffer) {
  static uint8_t again[2 * ROOM];
  struct linkinfo_canon_result canon = linkinfo_canon(bytes, length, buffer, 2 * ROOM),
                               none = linkinfo_canon(bytes, length, NULL, 0);
  CHECK(memcmp(&canon.error, &error, sizeof error) == 0 && none.length == canon.length &&
        (canon.status == LINKINFO_CANON_REFUSED) == (error.cause != 0));
  CHECK(canon.status != LINKINFO_CANON_SHORT &&
        none.status == (canon.status == LINKINFO_CANON_WRITTEN && canon.length > 0
                            ? LINKINFO_CANON_SHORT
                            : canon.status));
  if (canon.status != LINKINFO_CANON_WRITTEN) return SIZE_MAX;
  CHECK(linkinfo_check(buffer, canon.length).cause == 0 &&
        linkinfo_same(bytes, length, buffer, canon.length).same);
  CHECK(linkinfo_canon(buffer, canon.length, again, sizeof again).length == canon.length &&
        memcmp(again, buffer, canon.length) == 0);
  return canon.length;
}

/* The link messages of the bytes of a socket, one after another, by the rules of the kernel's
 * headers; and what is read at a cursor inside a message. */
static void messages(const uint8_t *bytes, size_t length) {
  struct linkinfo_link link, wanted;
  char text[97];
  size_t cursor = 0;
  do {
    link = linkinfo_next_link(bytes, length, cursor);
    wanted = next_by_rules(bytes, length, cursor);
    CHECK(equal_links(&link, &wanted));
    CHECK(link.next <= length && (link.status != LINKINFO_LINK_FOUND || link.next > cursor));
    CHECK(link.name_place + link.name_length <= length &&
          link.list_place + link.list_length <= length);
    CHECK((linkinfo_message_error_text(link.error, link.place, text, sizeof text) > 0) ==
          (link.status == LINKINFO_LINK_REJECTED));
    seen(800u + link.status, link.event * 4u + link.has_name * 2u + link.has_list,
         link.error.cause);
    cursor = link.next;
  } while (link.status == LINKINFO_LINK_FOUND);
  for (cursor = 1; cursor < length; cursor *= 3) {
    link = linkinfo_next_link(bytes, length, cursor);
    wanted = next_by_rules(bytes, length, cursor);
    CHECK(equal_links(&link, &wanted));
  }
}

/* The attributes of a request that are not met, one after another: in order, each from each offset
 * after the one before it. */
static void unmets(const uint8_t *a, size_t a_length, const uint8_t *b, size_t b_length,
                   struct linkinfo_unmet first) {
  struct linkinfo_unmet unmet = linkinfo_next_unmet(a, a_length, b, b_length, 0);
  CHECK(equal_unmet(&unmet, &first));
  size_t from = 0;
  for (; unmet.rejected == 0 && !unmet.met;
       unmet = linkinfo_next_unmet(a, a_length, b, b_length, from)) {
    CHECK(unmet.want >= from && unmet.want + 4 <= b_length && unmet.family != 0);
    for (size_t step = 1; from < unmet.want; from += step, step *= 2) {
      struct linkinfo_unmet between = linkinfo_next_unmet(a, a_length, b, b_length, from);
      CHECK(equal_unmet(&between, &unmet));
    }
    stands_at(b, b_length, unmet.want, unmet.family, unmet.type);
    if (unmet.is_present) stands_at(a, a_length, unmet.have, unmet.family, unmet.type);
    from = unmet.want + 1;
  }
  CHECK(unmet.rejected == first.rejected);
  unmet = linkinfo_next_unmet(a, a_length, b, b_length, b_length);
  CHECK(unmet.rejected == first.rejected && unmet.met == (first.rejected == 0));
}

int LLVMFuzzerTestOneInput(const uint8_t *data, size_t size) {
  static uint8_t *first_end, *second_end;
  if (!first_end) {
    first_end = guarded();
    second_end = guarded();
  }
  if (size < 2 || size > ROOM) return 0;
  size_t cut = data[0] + 256u * data[1], rest = size - 2;
  if (cut > rest) cut = rest;
  uint8_t *a = first_end - cut, *b = second_end - (rest - cut);
  memcpy(a, data + 2, cut);
  memcpy(b, data + 2 + cut, rest - cut);
  messages(a, cut);
  struct linkinfo_error x = one(a, cut), y = one(b, rest - cut);
  struct linkinfo_same_result same = linkinfo_same(a, cut, b, rest - cut),
                              swapped = linkinfo_same(b, rest - cut, a, cut);
  CHECK(same.rejected == (x.cause != 0   ? 1u
                          : y.cause != 0 ? 2u
                                       : 0u) &&
        memcmp(&same.error, x.cause != 0 ? &x : &y, sizeof x) == 0);
  CHECK(same.same == swapped.same && (!same.same || same.rejected == 0));
  CHECK(linkinfo_same(a, cut, a, cut).same == (x.cause == 0));
  struct linkinfo_difference differ = linkinfo_first_difference(a, cut, b, rest - cut);
  CHECK(differ.rejected == same.rejected && differ.same == same.same);
  CHECK(memcmp(&differ.error, &same.error, sizeof differ.error) == 0);
  CHECK((differ.family != 0) == (differ.rejected == 0 && !differ.same));
  CHECK(differ.is_in_first ? differ.first + 4 <= cut : differ.first == 0);
  CHECK(differ.is_in_second ? differ.second + 4 <= rest - cut : differ.second == 0);
  if (differ.is_in_first) stands_at(a, cut, differ.first, differ.family, differ.type);
  else if (differ.is_in_second)
    stands_at(b, rest - cut, differ.second, differ.family, differ.type);
  seen(700u, differ.family, differ.type % 64);
  struct linkinfo_unmet unmet = linkinfo_first_unmet(a, cut, b, rest - cut);
  CHECK(unmet.rejected == same.rejected &&
        memcmp(&unmet.error, &same.error, sizeof unmet.error) == 0);
  CHECK(!unmet.met || (unmet.rejected == 0 && unmet.family == 0 && !unmet.is_present));
  CHECK(unmet.met || unmet.rejected != 0 || (unmet.family != 0 && unmet.want + 4 <= rest - cut));
  CHECK(unmet.is_present ? unmet.have + 4 <= cut : unmet.have == 0);
  if (unmet.family != 0) stands_at(b, rest - cut, unmet.want, unmet.family, unmet.type);
  if (unmet.is_present) stands_at(a, cut, unmet.have, unmet.family, unmet.type);
  unmets(a, cut, b, rest - cut, unmet);
  for (size_t offset = cut; offset < cut + 4; offset++)
    CHECK(!linkinfo_value_at(a, cut, offset).is_found);
  CHECK(linkinfo_first_unmet(a, cut, a, cut).met == (x.cause == 0) && (!same.same || unmet.met));
  seen(900u, unmet.family, unmet.type % 64);
  opaque(a, cut, b, rest - cut, x, y, same.same);
  static uint8_t first[2 * ROOM], second[2 * ROOM];
  size_t of_a = canonical(a, cut, x, first), of_b = canonical(b, rest - cut, y, second);
  if (of_a != SIZE_MAX && of_b != SIZE_MAX)
    CHECK(same.same == (of_a == of_b && memcmp(first, second, of_a) == 0));
  seen(7, 7, same.same);
  return 0;
}
