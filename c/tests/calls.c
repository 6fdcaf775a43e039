/* Every call over the strings of a file and over other arguments: null pointers, no bytes, arrays
 * and buffers of every length. The bytes that a call reads or writes end where a mapping does, and
 * guard bytes precede them. */
#define _DEFAULT_SOURCE
#include "linkinfo.h"
#include "messages.h"
#include "strings.h"
#include "values.h"
#include <sys/mman.h>
#include <unistd.h>

#define CHECK(condition) \
  do { \
    if (!(condition)) { \
      fprintf(stderr, "%s:%d: %s\n", __FILE__, __LINE__, #condition); \
      exit(1); \
    } \
  } while (0)

enum { ROOM = 1 << 16, GUARD = 0xa5, GUARDS = 64 };

/* The layout of the structs, which the compilers of every language must use. */
_Static_assert(sizeof(struct linkinfo_error) == 8 && offsetof(struct linkinfo_error, type) == 2 &&
                   offsetof(struct linkinfo_error, cause) == 4,
               "error");
_Static_assert(sizeof(struct linkinfo_error_at) == 16 &&
                   offsetof(struct linkinfo_error_at, place) == 8,
               "error at");
_Static_assert(sizeof(struct linkinfo_same_result) == 16 &&
                   offsetof(struct linkinfo_same_result, rejected) == 8 &&
                   offsetof(struct linkinfo_same_result, same) == 12,
               "same");
_Static_assert(sizeof(struct linkinfo_canon_result) == 24 &&
                   offsetof(struct linkinfo_canon_result, status) == 8 &&
                   offsetof(struct linkinfo_canon_result, length) == 16,
               "canon");
_Static_assert(sizeof(struct linkinfo_count_result) == 16 &&
                   offsetof(struct linkinfo_count_result, count) == 8,
               "count");
_Static_assert(sizeof(struct linkinfo_list_result) == 24 &&
                   offsetof(struct linkinfo_list_result, place) == 8 &&
                   offsetof(struct linkinfo_list_result, count) == 16,
               "list_result");
_Static_assert(sizeof(struct linkinfo_item) == 24 && offsetof(struct linkinfo_item, length) == 8 &&
                   offsetof(struct linkinfo_item, raw_type) == 16 &&
                   offsetof(struct linkinfo_item, kind) == 18 &&
                   offsetof(struct linkinfo_item, port_kind) == 20,
               "item");
_Static_assert(sizeof(struct linkinfo_attribute) == 32 &&
                   offsetof(struct linkinfo_attribute, length) == 8 &&
                   offsetof(struct linkinfo_attribute, number) == 16 &&
                   offsetof(struct linkinfo_attribute, raw_type) == 24 &&
                   offsetof(struct linkinfo_attribute, shape) == 26 &&
                   offsetof(struct linkinfo_attribute, is_number) == 28,
               "attribute");
_Static_assert(sizeof(struct linkinfo_unmet) == 40, "unmet");
_Static_assert(offsetof(struct linkinfo_unmet, rejected) == 8, "unmet.rejected");
_Static_assert(offsetof(struct linkinfo_unmet, family) == 12, "unmet.family");
_Static_assert(offsetof(struct linkinfo_unmet, type) == 14, "unmet.type");
_Static_assert(offsetof(struct linkinfo_unmet, want) == 16, "unmet.want");
_Static_assert(offsetof(struct linkinfo_unmet, have) == 24, "unmet.have");
_Static_assert(offsetof(struct linkinfo_unmet, met) == 32, "unmet.met");
_Static_assert(offsetof(struct linkinfo_unmet, is_present) == 33, "unmet.is_present");
_Static_assert(sizeof(struct linkinfo_inner_error) == 24, "inner error");
_Static_assert(offsetof(struct linkinfo_inner_error, place) == 8, "inner_error.place");
_Static_assert(offsetof(struct linkinfo_inner_error, inner) == 16, "inner_error.inner");
_Static_assert(sizeof(struct linkinfo_difference) == 40, "difference");
_Static_assert(offsetof(struct linkinfo_difference, rejected) == 8, "difference.rejected");
_Static_assert(offsetof(struct linkinfo_difference, family) == 12, "difference.family");
_Static_assert(offsetof(struct linkinfo_difference, type) == 14, "difference.type");
_Static_assert(offsetof(struct linkinfo_difference, first) == 16, "difference.first");
_Static_assert(offsetof(struct linkinfo_difference, second) == 24, "difference.second");
_Static_assert(offsetof(struct linkinfo_difference, same) == 32, "difference.same");
_Static_assert(offsetof(struct linkinfo_difference, is_in_first) == 33, "is_in_first");
_Static_assert(offsetof(struct linkinfo_difference, is_in_second) == 34, "is_in_second");
_Static_assert(sizeof(struct linkinfo_value) == 56, "value");
_Static_assert(offsetof(struct linkinfo_value, signed_number) == 8, "value.signed_number");
_Static_assert(offsetof(struct linkinfo_value, length) == 16, "value.length");
_Static_assert(offsetof(struct linkinfo_value, octets) == 24, "value.octets");
_Static_assert(offsetof(struct linkinfo_value, first) == 40, "value.first");
_Static_assert(offsetof(struct linkinfo_value, second) == 44, "value.second");
_Static_assert(offsetof(struct linkinfo_value, value_type) == 48, "value.value_type");
_Static_assert(offsetof(struct linkinfo_value, list_kind) == 52, "value.list_kind");
_Static_assert(offsetof(struct linkinfo_value, truth) == 54, "value.truth");
_Static_assert(sizeof(struct linkinfo_valued_attribute) == 80, "valued attribute");
_Static_assert(offsetof(struct linkinfo_valued_attribute, length) == 8, "valued.length");
_Static_assert(offsetof(struct linkinfo_valued_attribute, value) == 16, "valued.value");
_Static_assert(offsetof(struct linkinfo_valued_attribute, raw_type) == 72, "valued.raw_type");
_Static_assert(offsetof(struct linkinfo_valued_attribute, shape) == 74, "valued.shape");

/* The end of ROOM bytes, followed by a page that cannot be accessed. */
static uint8_t *guarded(void) {
  size_t page = (size_t)sysconf(_SC_PAGESIZE);
  uint8_t *memory =
      mmap(NULL, ROOM + page, PROT_READ | PROT_WRITE, MAP_PRIVATE | MAP_ANONYMOUS, -1, 0);
  CHECK(memory != MAP_FAILED && mprotect(memory + ROOM, page, PROT_NONE) == 0);
  return memory + ROOM;
}

static uint8_t *input_end, *output_end;

static const uint8_t *at_end(const uint8_t *bytes, size_t length) {
  if (length == 0) return input_end;
  return memcpy(input_end - length, bytes, length);
}

/* The last `size` bytes before the end, filled with guard bytes, as are the GUARDS bytes before
 * them. */
static void *room_of(size_t size) {
  memset(output_end - size - GUARDS, GUARD, size + GUARDS);
  return output_end - size;
}

static void guards_stand(size_t size) {
  for (size_t i = 1; i <= GUARDS; i++) CHECK(output_end[-(ptrdiff_t)size - (ptrdiff_t)i] == GUARD);
}

static int is_none(struct linkinfo_error error) {
  return error.family == 0 && error.type == 0 && error.cause == 0;
}

/* Whether the header says that the cause is returned. */
static int is_returned(uint32_t cause) {
  return cause <= LINKINFO_CAUSE_ADDRESS_KIND || cause == LINKINFO_CAUSE_DEPTH;
}

static int equal(struct linkinfo_error a, struct linkinfo_error b) {
  return a.family == b.family && a.type == b.type && a.cause == b.cause;
}

/* Whether no pair of attributes is named. */
static int no_pair(const struct linkinfo_difference *difference) {
  return difference->family == 0 && difference->type == 0 && difference->first == 0 &&
         difference->second == 0 && !difference->is_in_first && !difference->is_in_second;
}

/* Whether no attribute of a request is named. */
static int no_attribute(const struct linkinfo_unmet *unmet) {
  return unmet->family == 0 && unmet->type == 0 && unmet->want == 0 && unmet->have == 0 &&
         !unmet->is_present;
}

static void no_bytes(void) {
  CHECK(is_none(linkinfo_check(NULL, 0)));
  struct linkinfo_error_at placed = linkinfo_check_at(NULL, 0);
  CHECK(is_none(placed.error) && placed.place == 0);
  struct linkinfo_same_result same = linkinfo_same(NULL, 0, NULL, 0);
  CHECK(is_none(same.error) && same.rejected == 0 && same.same);
  struct linkinfo_inner_error inner = linkinfo_check_inner(NULL, 0);
  CHECK(is_none(inner.error) && inner.place == 0 && inner.inner == 0);
  struct linkinfo_difference difference = linkinfo_first_difference(NULL, 0, NULL, 0);
  CHECK(is_none(difference.error) && difference.rejected == 0 && difference.same);
  CHECK(no_pair(&difference));
  struct linkinfo_unmet unmet = linkinfo_first_unmet(NULL, 0, NULL, 0);
  CHECK(unmet.met && no_attribute(&unmet) && unmet.rejected == 0 && is_none(unmet.error));
  struct linkinfo_count_result count = linkinfo_count(NULL, 0);
  CHECK(is_none(count.error) && count.count == 0);
  CHECK(strcmp(linkinfo_version(), LINKINFO_VERSION_STRING) == 0);
  struct linkinfo_list_result found = linkinfo_items(NULL, 0, NULL, 0);
  CHECK(is_none(found.error) && found.count == 0 && found.place == 0);
  struct linkinfo_canon_result canon = linkinfo_canon(NULL, 0, NULL, 0);
  CHECK(is_none(canon.error) && canon.status == LINKINFO_CANON_WRITTEN && canon.length == 0);
  inner = linkinfo_check_inner_opaque(NULL, 0);
  CHECK(is_none(inner.error) && inner.place == 0 && inner.inner == 0);
  same = linkinfo_same_opaque(NULL, 0, NULL, 0);
  CHECK(is_none(same.error) && same.rejected == 0 && same.same);
  difference = linkinfo_first_difference_opaque(NULL, 0, NULL, 0);
  CHECK(is_none(difference.error) && difference.same && no_pair(&difference));
  unmet = linkinfo_first_unmet_opaque(NULL, 0, NULL, 0);
  CHECK(is_none(unmet.error) && unmet.met && no_attribute(&unmet));
  unmet = linkinfo_next_unmet(NULL, 0, NULL, 0, 1);
  CHECK(is_none(unmet.error) && unmet.met && no_attribute(&unmet) && unmet.rejected == 0);
  unmet = linkinfo_next_unmet_opaque(NULL, 0, NULL, 0, SIZE_MAX);
  CHECK(is_none(unmet.error) && unmet.met && no_attribute(&unmet) && unmet.rejected == 0);
  canon = linkinfo_canon_opaque(NULL, 0, NULL, 0);
  CHECK(is_none(canon.error) && canon.status == LINKINFO_CANON_WRITTEN && canon.length == 0);
  struct linkinfo_link link = linkinfo_next_link(NULL, 0, 0);
  CHECK(link.status == LINKINFO_LINK_END && link.next == 0);
  CHECK(linkinfo_message_error_text(link.error, 0, NULL, 0) == 0);
  CHECK(linkinfo_kind_of_name(NULL, 0) == LINKINFO_KIND_OTHER &&
        linkinfo_port_kind_of_name(NULL, 0) == LINKINFO_PORT_KIND_OTHER);
  CHECK(linkinfo_kind_name(LINKINFO_KIND_VXLAN, NULL, 0) == 5 &&
        linkinfo_port_kind_name(LINKINFO_PORT_KIND_VRF, NULL, 0) == 3);
  CHECK(linkinfo_cause_name(LINKINFO_CAUSE_ORDER, NULL, 0) == 5 &&
        linkinfo_family_name(LINKINFO_FAMILY_FRAME, NULL, 0) == 5);
  struct linkinfo_error none = {0, 0, 0},
                        error = {LINKINFO_FAMILY_LINKINFO, 2, LINKINFO_CAUSE_ORDER};
  CHECK(linkinfo_error_text(none, NULL, 0) == 0 &&
        linkinfo_error_text(error, NULL, 0) == strlen("linkinfo 2 order"));
  CHECK(linkinfo_error_message(none, 0, NULL, 0) == 0 &&
        linkinfo_attribute_name(LINKINFO_FAMILY_XFRM, 2, NULL, 0) == strlen("IFLA_XFRM_IF_ID"));
}

static size_t aligned(size_t n) { return (n + 3) / 4 * 4; }

/* The attributes by the rules of the format, for a list that is accepted. */
static size_t items_by_rules(const uint8_t *bytes, size_t length, struct linkinfo_item *items) {
  size_t place = 0, count = 0;
  uint16_t kind = 0, port_kind = 0;
  while (place < length) {
    size_t end = bytes[place] + 256u * bytes[place + 1];
    uint16_t type = (uint16_t)(bytes[place + 2] + 256u * bytes[place + 3]);
    const char *name = (const char *)bytes + place + 4;
    size_t name_length = end - 4;
    if (name_length > 0 && name[name_length - 1] == 0) name_length--;
    struct linkinfo_item item = {place, end - 4, type, kind, port_kind};
    items[count++] = item;
    if ((type & 0x3fff) == 1) kind = linkinfo_kind_of_name(name, name_length);
    if ((type & 0x3fff) == 4) port_kind = linkinfo_port_kind_of_name(name, name_length);
    if ((type & 0x3fff) == 5) port_kind = 0;
    place += aligned(end);
  }
  return count;
}

static int equal_items(const struct linkinfo_item *a, const struct linkinfo_item *b) {
  return a->place == b->place && a->length == b->length && a->raw_type == b->raw_type &&
         a->kind == b->kind && a->port_kind == b->port_kind;
}

static int is_guard(const void *memory, size_t size) {
  const uint8_t *bytes = memory;
  for (size_t i = 0; i < size; i++)
    if (bytes[i] != GUARD) return 0;
  return 1;
}

static void items_of(const uint8_t *bytes, size_t length) {
  static struct linkinfo_item all[MOST_BYTES / 4 + 1];
  struct linkinfo_list_result found = linkinfo_items(bytes, length, all, length / 4);
  CHECK(found.count <= length / 4 && found.place <= length && is_returned(found.error.cause) &&
        linkinfo_items(bytes, length, NULL, 0).count == found.count);
  struct linkinfo_error error = linkinfo_check(bytes, length);
  if (is_none(error)) {
    static struct linkinfo_item wanted[MOST_BYTES / 4 + 1];
    CHECK(is_none(found.error) && found.place == length &&
          found.count == items_by_rules(bytes, length, wanted));
    for (size_t i = 0; i < found.count; i++) CHECK(equal_items(&all[i], &wanted[i]));
  } else {
    /* an error in data is at an item, before an error that ends the items */
    size_t place = linkinfo_check_at(bytes, length).place, i = 0;
    while (i < found.count && all[i].place != place) i++;
    CHECK(i < found.count || (equal(error, found.error) && place == found.place));
  }
  for (size_t room = 0; room <= found.count + 2; room++) {
    struct linkinfo_item *items = room_of(room * sizeof *items);
    struct linkinfo_list_result again = linkinfo_items(bytes, length, items, room);
    CHECK(equal(again.error, found.error) && again.place == found.place &&
          again.count == found.count);
    for (size_t i = 0; i < room; i++)
      CHECK(i < found.count ? equal_items(&items[i], &all[i])
                            : is_guard(&items[i], sizeof items[i]));
    guards_stand(room * sizeof *items);
  }
}

/* The number of an attribute agrees with its shape. */
static void number_by_rules(const uint8_t *payload, const struct linkinfo_attribute *attribute) {
  static const struct {
    size_t length;
    int is_big;
  } numbers[] = {{0, 0}, {1, 0}, {2, 0}, {4, 0}, {8, 0}, {2, 1}, {4, 1}, {8, 1}};
  if (attribute->shape >= 1 && attribute->shape <= 7) {
    CHECK(attribute->is_number == (attribute->length == numbers[attribute->shape].length));
    if (attribute->is_number)
      CHECK(attribute->number ==
            number(payload, attribute->length, numbers[attribute->shape].is_big));
  } else {
    CHECK(attribute->is_number ==
          (attribute->shape == LINKINFO_SHAPE_EMPTY_OR_BYTE && attribute->length == 1));
    if (attribute->is_number) CHECK(attribute->number == payload[0]);
  }
  if (!attribute->is_number) CHECK(attribute->number == 0);
}

static int equal_attributes(const struct linkinfo_attribute *a,
                            const struct linkinfo_attribute *b) {
  return a->place == b->place && a->length == b->length && a->number == b->number &&
         a->raw_type == b->raw_type && a->shape == b->shape && a->is_number == b->is_number;
}

/* The attributes inside data of a kind, in arrays of every length. */
static size_t attributes_of(const uint8_t *bytes, size_t length, uint16_t kind) {
  static struct linkinfo_attribute all[MOST_BYTES / 4 + 1];
  struct linkinfo_list_result found = linkinfo_attributes(bytes, length, kind, all, length / 4);
  CHECK(found.count <= length / 4 && found.place <= length &&
        linkinfo_attributes(bytes, length, kind, NULL, 0).count == found.count);
  size_t place = 0;
  for (size_t i = 0; i < found.count; i++) {
    CHECK(all[i].place == place && all[i].length == bytes[place] + 256u * bytes[place + 1] - 4 &&
          all[i].raw_type == bytes[place + 2] + 256u * bytes[place + 3]);
    number_by_rules(bytes + place + 4, &all[i]);
    place = aligned(place + 4 + all[i].length);
  }
  CHECK(is_none(found.error) ? found.count == 0 || place >= length
                             : place == found.place && found.error.cause == LINKINFO_CAUSE_HEADER);
  for (size_t room = 0; room <= found.count + 2; room++) {
    struct linkinfo_attribute *attributes = room_of(room * sizeof *attributes);
    struct linkinfo_list_result again = linkinfo_attributes(bytes, length, kind, attributes, room);
    CHECK(equal(again.error, found.error) && again.place == found.place &&
          again.count == found.count);
    for (size_t i = 0; i < room; i++)
      CHECK(i < found.count ? equal_attributes(&attributes[i], &all[i])
                            : is_guard(&attributes[i], sizeof attributes[i]));
    guards_stand(room * sizeof *attributes);
  }
  return found.count;
}

/* The same attributes, each with the value that the rules of its shape give, in arrays of every
 * length. */
static void values_of(const uint8_t *bytes, size_t length, uint16_t kind) {
  static struct linkinfo_attribute all[MOST_BYTES / 4 + 1];
  struct linkinfo_list_result found = linkinfo_attributes(bytes, length, kind, all, length / 4);
  for (size_t room = 0; room <= found.count + 2; room++) {
    struct linkinfo_valued_attribute *values = room_of(room * sizeof *values);
    struct linkinfo_list_result again = linkinfo_values(bytes, length, kind, values, room);
    CHECK(equal(again.error, found.error) && again.place == found.place);
    CHECK(again.count == found.count);
    for (size_t i = 0; i < room && i < found.count; i++) {
      struct linkinfo_value wanted =
          value_by_rules(all[i].shape, bytes + all[i].place + 4, all[i].length);
      if (all[i].shape == LINKINFO_SHAPE_NESTED) {
        /* tests/rows.c has that of each type */
        wanted.list_kind = values[i].value.list_kind;
        CHECK(wanted.list_kind > LINKINFO_LIST_KIND_V6);
      }
      CHECK(values[i].place == all[i].place && values[i].length == all[i].length);
      CHECK(values[i].raw_type == all[i].raw_type && values[i].shape == all[i].shape);
      CHECK(equal_values(&values[i].value, &wanted));
    }
    for (size_t i = found.count; i < room; i++) CHECK(is_guard(&values[i], sizeof values[i]));
    guards_stand(room * sizeof *values);
  }
}

/* The last numbers of families, kinds and port kinds. */
/* Begin: written by tables/generate from tables/kinds. */
enum { LAST_FAMILY = 45, LAST_KIND = 47, LAST_PORT_KIND = 260 };
/* End: written by tables/generate. */

/* The code of lists of the last family. */
enum { LAST_LIST_KIND = LINKINFO_LIST_KIND_V4 + LAST_FAMILY };

/* The attributes of the nested lists in a kernel's data: each has a shape and a value, and no list
 * in it. */
static void lists_of(const uint8_t *bytes, size_t length, uint16_t kind) {
  static struct linkinfo_valued_attribute all[MOST_BYTES / 4 + 1], inner[MOST_BYTES / 4 + 1];
  struct linkinfo_list_result found = linkinfo_values(bytes, length, kind, all, length / 4);
  for (size_t i = 0; i < found.count; i++) {
    uint16_t list_kind = all[i].value.list_kind;
    if (list_kind == 0) continue;
    const uint8_t *payload = bytes + all[i].place + 4;
    struct linkinfo_list_result inside =
        linkinfo_values(payload, all[i].value.length, list_kind, inner, MOST_BYTES / 4);
    CHECK(is_none(inside.error) && inside.place == all[i].value.length);
    CHECK(attributes_of(payload, all[i].value.length, list_kind) == inside.count);
    for (size_t j = 0; j < inside.count; j++) {
      CHECK(inner[j].shape != 0 && inner[j].value.value_type != LINKINFO_VALUE_NONE);
      CHECK(inner[j].value.list_kind == 0);
      CHECK(list_kind != LINKINFO_LIST_KIND_V4 || inner[j].value.value_type == LINKINFO_VALUE_IPV4);
      CHECK(list_kind != LINKINFO_LIST_KIND_V6 || inner[j].value.value_type == LINKINFO_VALUE_IPV6);
    }
  }
}

/* The attributes of data, of its kind and of every other kind. */
static void inside(const uint8_t *bytes, size_t length) {
  static struct linkinfo_item items[MOST_BYTES / 4 + 1];
  struct linkinfo_list_result found = linkinfo_items(bytes, length, items, length / 4);
  for (size_t i = 0; i < found.count; i++) {
    const uint8_t *payload = at_end(bytes + items[i].place + 4, items[i].length);
    if ((items[i].raw_type & 0x3fff) == 2)
      CHECK(attributes_of(payload, items[i].length, items[i].kind) > 0);
    if ((items[i].raw_type & 0x3fff) == 5)
      CHECK(attributes_of(payload, items[i].length, items[i].port_kind) > 0);
    for (uint16_t kind = 0; kind < LAST_LIST_KIND + 2;
         kind = kind == LAST_KIND + 3        ? 255
                : kind == LAST_PORT_KIND + 2 ? LINKINFO_LIST_KIND_V4 - 1
                                             : kind + 1) {
      attributes_of(payload, items[i].length, kind);
      values_of(payload, items[i].length, kind);
    }
    lists_of(payload, items[i].length,
             (items[i].raw_type & 0x3fff) == 2 ? items[i].kind : items[i].port_kind);
  }
}

/* Worked attributes. */
static void worked(void) {
  struct linkinfo_attribute attributes[2];
  const uint8_t vxlan[] = {8, 0, 1, 0, 42, 0, 0, 0, 6, 0, 15, 0, 0x12, 0xb5, 0, 0},
                flags[] = {6, 0, 8, 0, 1, 2, 0, 0};
  struct linkinfo_list_result found =
      linkinfo_attributes(vxlan, sizeof vxlan, LINKINFO_KIND_VXLAN, attributes, 2);
  CHECK(is_none(found.error) && found.count == 2 && found.place == sizeof vxlan);
  CHECK(attributes[0].number == 42 && attributes[0].shape == LINKINFO_SHAPE_LE32 &&
        attributes[0].is_number && attributes[0].place == 0);
  CHECK(attributes[1].number == 4789 && attributes[1].shape == LINKINFO_SHAPE_BE16 &&
        attributes[1].raw_type == 15 && attributes[1].place == 8);
  found = linkinfo_attributes(flags, sizeof flags, LINKINFO_KIND_SIT, attributes, 2);
  CHECK(found.count == 1 && attributes[0].shape == LINKINFO_SHAPE_BE16 &&
        attributes[0].number == 0x102);
  found = linkinfo_attributes(flags, sizeof flags, LINKINFO_KIND_IP6TNL, attributes, 2);
  CHECK(found.count == 1 && attributes[0].shape == LINKINFO_SHAPE_LE32 && !attributes[0].is_number);
  found = linkinfo_attributes(flags, sizeof flags, LINKINFO_KIND_DUMMY, attributes, 2);
  CHECK(found.count == 0 && found.place == 0 && is_none(found.error));
  found = linkinfo_attributes(flags, 3, LINKINFO_PORT_KIND_VRF, attributes, 2);
  CHECK(found.count == 0 && found.place == 0 && found.error.cause == LINKINFO_CAUSE_HEADER);
  found = linkinfo_attributes(NULL, 0, LINKINFO_KIND_VXLAN, NULL, 0);
  CHECK(found.count == 0 && found.place == 0 && is_none(found.error));
}

/* The offset of an error is the end of the longest prefix that is accepted. */
static void placed(const uint8_t *bytes, size_t length) {
  struct linkinfo_error error = linkinfo_check(bytes, length);
  struct linkinfo_error_at at = linkinfo_check_at(bytes, length);
  struct linkinfo_inner_error inner = linkinfo_check_inner(bytes, length);
  CHECK(equal(at.error, error) && equal(inner.error, error) && inner.place == at.place);
  if (is_none(error)) {
    CHECK(at.place == 0 && inner.inner == 0);
    return;
  }
  /* the innermost attribute has the type of the error, unless it has no header */
  CHECK(inner.inner >= at.place && inner.inner <= length);
  if (error.cause != LINKINFO_CAUSE_HEADER)
    CHECK(((bytes[inner.inner + 2] + 256u * bytes[inner.inner + 3]) & 0x3fff) == error.type);
  size_t longest = length;
  while (!is_none(linkinfo_check(bytes, longest))) longest--;
  CHECK(at.place == longest);
}

/* With bonds, bridges and their like opaque, what is accepted without is accepted, and the error of
 * a list is no earlier one. */
static void opaque(const uint8_t *bytes, size_t length, struct linkinfo_error error) {
  struct linkinfo_inner_error found = linkinfo_check_inner_opaque(bytes, length);
  CHECK(is_returned(found.error.cause) && found.inner >= found.place && found.inner <= length);
  CHECK(!is_none(error) || is_none(found.error));
  CHECK(is_none(found.error) || found.place >= linkinfo_check_at(bytes, length).place);
  struct linkinfo_same_result same = linkinfo_same_opaque(bytes, length, bytes, length);
  CHECK(equal(same.error, found.error) && same.same == is_none(found.error));
  struct linkinfo_unmet unmet = linkinfo_first_unmet_opaque(bytes, length, bytes, length);
  CHECK(equal(unmet.error, found.error) && unmet.met == is_none(found.error));
  struct linkinfo_difference differs = linkinfo_first_difference_opaque(NULL, 0, bytes, length);
  CHECK(equal(differs.error, found.error) && differs.same == (length == 0));
  static uint8_t verbatim[ROOM], first[ROOM], second[ROOM];
  struct linkinfo_canon_result canon =
      linkinfo_canon_opaque(bytes, length, verbatim, sizeof verbatim);
  CHECK(equal(canon.error, found.error) &&
        canon.status == (is_none(found.error) ? LINKINFO_CANON_WRITTEN : LINKINFO_CANON_REFUSED));
  if (!is_none(error)) return;
  /* the typed canonical encoding of what is written is that of the list */
  size_t of_verbatim = linkinfo_canon(verbatim, canon.length, first, sizeof first).length;
  CHECK(of_verbatim == linkinfo_canon(bytes, length, second, sizeof second).length &&
        memcmp(first, second, of_verbatim) == 0);
}

/* The canonical encoding in buffers of every length, or of some lengths about that of the encoding:
 * written where there is room for it, and else the buffer is unchanged. It is its own canonical
 * encoding, and equivalent to the list. */
static int few_rooms;

static void canonical(const uint8_t *bytes, size_t length) {
  static uint8_t whole[ROOM];
  struct linkinfo_error error = linkinfo_check(bytes, length);
  struct linkinfo_canon_result wanted = linkinfo_canon(bytes, length, whole, sizeof whole);
  CHECK(equal(wanted.error, error) &&
        wanted.status == (is_none(error) ? LINKINFO_CANON_WRITTEN : LINKINFO_CANON_REFUSED));
  CHECK(is_none(error) ? wanted.length % 4 == 0 && (wanted.length > 0) == (length > 0)
                       : wanted.length == 0);
  for (size_t room = few_rooms && wanted.length > 0 ? wanted.length - 1 : 0;
       room <= wanted.length + 3; room++) {
    uint8_t *buffer = room_of(room);
    struct linkinfo_canon_result canon = linkinfo_canon(bytes, length, buffer, room);
    size_t shown = is_none(error) && room >= wanted.length ? wanted.length : 0;
    uint32_t status = !is_none(error)        ? LINKINFO_CANON_REFUSED
                      : room < wanted.length ? LINKINFO_CANON_SHORT
                                             : LINKINFO_CANON_WRITTEN;
    CHECK(equal(canon.error, error) && canon.length == wanted.length && canon.status == status);
    CHECK(memcmp(buffer, whole, shown) == 0 && is_guard(buffer + shown, room - shown));
    guards_stand(room);
  }
  if (is_none(error)) {
    static uint8_t again[ROOM];
    CHECK(is_none(linkinfo_check(whole, wanted.length)) &&
          linkinfo_same(bytes, length, whole, wanted.length).same);
    CHECK(linkinfo_canon(whole, wanted.length, again, sizeof again).length == wanted.length &&
          memcmp(again, whole, wanted.length) == 0);
  }
}

/* A list before a change and after it. */
static void differs(const uint8_t *a, const uint8_t *b, size_t length) {
  struct linkinfo_difference found = linkinfo_first_difference(a, length, b, length);
  struct linkinfo_same_result same = linkinfo_same(a, length, b, length);
  CHECK(equal(found.error, same.error) && found.rejected == same.rejected &&
        found.same == same.same);
  CHECK(same.same || same.rejected != 0 || !linkinfo_same_opaque(a, length, b, length).same);
  CHECK(linkinfo_same_opaque(a, length, b, length).same ==
        linkinfo_first_difference_opaque(a, length, b, length).same);
  if (same.same || same.rejected != 0) {
    CHECK(no_pair(&found));
    return;
  }
  CHECK(found.family != 0 && (found.is_in_first || found.is_in_second));
  CHECK(found.is_in_first ? found.first + 4 <= length : found.first == 0);
  CHECK(found.is_in_second ? found.second + 4 <= length : found.second == 0);
  const uint8_t *header = found.is_in_first ? a + found.first : b + found.second;
  CHECK(((header[2] + 256u * header[3]) & 0x3fff) == found.type);
  if (found.family != LINKINFO_FAMILY_LINKINFO) return;
  /* both are equal up to there */
  CHECK(linkinfo_same(a, found.is_in_first ? found.first : length, b,
                      found.is_in_second ? found.second : length)
            .same);
}

/* By the empty list, each attribute whose type does not occur later is not met, in their order. */
static void lacks_all(const uint8_t *bytes, size_t length, struct linkinfo_error error) {
  struct linkinfo_unmet unmet = linkinfo_first_unmet(NULL, 0, bytes, length),
                        opaque = linkinfo_next_unmet_opaque(NULL, 0, bytes, length, 0);
  CHECK(equal(unmet.error, error) && unmet.rejected == (is_none(error) ? 0u : 2u));
  CHECK(unmet.met == (is_none(error) && length == 0) && !unmet.is_present && unmet.have == 0);
  CHECK(!is_none(error) || (opaque.want == unmet.want && opaque.met == unmet.met));
  if (!is_none(error)) {
    CHECK(no_attribute(&unmet));
    unmet = linkinfo_next_unmet(NULL, 0, bytes, length, length);
    CHECK(equal(unmet.error, error) && unmet.rejected == 2 && no_attribute(&unmet));
    return;
  }
  static struct linkinfo_item items[MOST_BYTES / 4 + 1];
  size_t count = linkinfo_items(bytes, length, items, length / 4).count;
  for (size_t at = 0; at < count; at++) {
    uint16_t type = items[at].raw_type & 0x3fff;
    size_t later = at + 1;
    while (later < count && (items[later].raw_type & 0x3fff) != type) later++;
    if (later < count) continue;
    CHECK(unmet.family == LINKINFO_FAMILY_LINKINFO && unmet.want == items[at].place);
    CHECK(unmet.type == type && unmet.rejected == 0 && !unmet.met && !unmet.is_present);
    unmet = linkinfo_next_unmet(NULL, 0, bytes, length, unmet.want + 1);
  }
  CHECK(unmet.met && no_attribute(&unmet) && is_none(unmet.error));
}

static void of_string(const uint8_t *bytes, size_t length) {
  bytes = at_end(bytes, length);
  struct linkinfo_error error = linkinfo_check(bytes, length);
  CHECK(is_returned(error.cause));
  struct linkinfo_count_result count = linkinfo_count(bytes, length);
  CHECK(equal(count.error, error) && count.count <= length / 4);
  struct linkinfo_same_result same = linkinfo_same(bytes, length, bytes, length);
  CHECK(equal(same.error, error) && same.same == is_none(error) &&
        same.rejected == (is_none(error) ? 0u : 1u));
  same = linkinfo_same(NULL, 0, bytes, length);
  CHECK(equal(same.error, error) && same.same == (length == 0) &&
        same.rejected == (is_none(error) ? 0u : 2u));
  struct linkinfo_unmet unmet = linkinfo_first_unmet(bytes, length, bytes, length);
  CHECK(equal(unmet.error, error) && unmet.met == is_none(error) && no_attribute(&unmet));
  CHECK(unmet.rejected == (is_none(error) ? 0u : 1u));
  unmet = linkinfo_first_unmet(bytes, length, NULL, 0);
  CHECK(equal(unmet.error, error) && unmet.met == is_none(error) && no_attribute(&unmet));
  for (size_t cursor = 0; cursor <= length; cursor += 4) {
    struct linkinfo_link link = linkinfo_next_link(bytes, length, cursor),
                         wanted = next_by_rules(bytes, length, cursor);
    CHECK(equal_links(&link, &wanted));
  }
  lacks_all(bytes, length, error);
  placed(bytes, length);
  opaque(bytes, length, error);
  items_of(bytes, length);
  canonical(bytes, length);
}

static void of_strings(void) {
  for (size_t i = 0; i < string_count; i++) {
    struct string string = strings[i];
    CHECK(is_none(linkinfo_check(at_end(string.bytes, string.length), string.length)));
    CHECK(linkinfo_count(input_end - string.length, string.length).count >= 1);
    inside(string.bytes, string.length);
    few_rooms = 0;
    for (size_t length = 0; length <= string.length; length++) of_string(string.bytes, length);
    few_rooms = 1;
    for (size_t place = 0; place < string.length; place++) {
      for (int bit = 1; bit < 256; bit *= 2) {
        string.bytes[place] ^= (uint8_t)bit;
        of_string(string.bytes, string.length);
        differs(strings[i].bytes, string.bytes, string.length);
        string.bytes[place] ^= (uint8_t)bit;
      }
    }
  }
}

/* A text in buffers of every length. */
static void text_is(const char *wanted, size_t (*write)(const void *, char *, size_t),
                    const void *of) {
  size_t length = strlen(wanted);
  for (size_t room = 0; room <= length + 3; room++) {
    char *buffer = room_of(room);
    CHECK(write(of, buffer, room) == length);
    size_t shown = room == 0 ? 0 : length < room - 1 ? length : room - 1;
    CHECK(memcmp(buffer, wanted, shown) == 0);
    if (room > 0) CHECK(buffer[shown] == 0);
    for (size_t i = shown + 1; i < room; i++) CHECK((uint8_t)buffer[i] == GUARD);
    guards_stand(room);
  }
}

static size_t write_family(const void *of, char *buffer, size_t room) {
  return linkinfo_family_name(*(const uint16_t *)of, buffer, room);
}
static size_t write_cause(const void *of, char *buffer, size_t room) {
  return linkinfo_cause_name(*(const uint32_t *)of, buffer, room);
}
static size_t write_kind(const void *of, char *buffer, size_t room) {
  return linkinfo_kind_name(*(const uint16_t *)of, buffer, room);
}
static size_t write_port_kind(const void *of, char *buffer, size_t room) {
  return linkinfo_port_kind_name(*(const uint16_t *)of, buffer, room);
}
static size_t write_error(const void *of, char *buffer, size_t room) {
  return linkinfo_error_text(*(const struct linkinfo_error *)of, buffer, room);
}

struct at {
  struct linkinfo_error error;
  size_t offset;
};
static size_t write_message(const void *of, char *buffer, size_t room) {
  const struct at *at = of;
  return linkinfo_error_message(at->error, at->offset, buffer, room);
}
static size_t write_attribute(const void *of, char *buffer, size_t room) {
  const uint16_t *pair = of;
  return linkinfo_attribute_name(pair[0], pair[1], buffer, room);
}

/* How the kernel uses types: of each use, and without one. */
static void uses(void) {
  static const struct {
    uint16_t family, type, use;
  } all[] = {
      {LINKINFO_FAMILY_FRAME, 1, LINKINFO_USE_NONE},
      {LINKINFO_FAMILY_LINKINFO, 2, LINKINFO_USE_READ_WRITE},
      {LINKINFO_FAMILY_LINKINFO, 3, LINKINFO_USE_READ_ONLY},
      {LINKINFO_FAMILY_VLAN, 1, LINKINFO_USE_READ_WRITE},
      {LINKINFO_FAMILY_VLAN, 6, LINKINFO_USE_NONE},
      {LINKINFO_FAMILY_BRIDGE, 21, LINKINFO_USE_COMMAND},
      {LINKINFO_FAMILY_BRIDGE, 48, LINKINFO_USE_READ_ONLY},
      {LINKINFO_FAMILY_BRIDGEPORT, 18, LINKINFO_USE_READ_ONLY},
      {LINKINFO_FAMILY_MACVTAP, 3, LINKINFO_USE_COMMAND},
      {LINKINFO_FAMILY_CANTDC, 1, LINKINFO_USE_READ_ONLY},
      {LINKINFO_FAMILY_CANTDC, 7, LINKINFO_USE_READ_WRITE},
      {LINKINFO_FAMILY_HSR, 3, LINKINFO_USE_NEVER_RETURNED},
      {LINKINFO_FAMILY_PPP, 1, LINKINFO_USE_NEVER_RETURNED},
      {LINKINFO_FAMILY_WIREGUARD, 1, LINKINFO_USE_NONE},
      {0, 1, LINKINFO_USE_NONE},
      {LAST_FAMILY + 1, 1, LINKINFO_USE_NONE},
  };
  for (size_t i = 0; i < sizeof all / sizeof *all; i++)
    CHECK(linkinfo_attribute_use(all[i].family, all[i].type) == all[i].use);
}

/* The attribute at each offset of worked lists: of the list, of data, of a nested list, or none. */
static void values_at_offsets(void) {
  /* VLAN 5, with the mapping of priority 1 to 2 for frames that are sent */
  static const uint8_t vlan[] = {
      9, 0, 1, 0, 'v', 'l', 'a', 'n', 0, 0, 0, 0, 28, 0, 2, 0, 6, 0, 1, 0, 5,
      0, 0, 0, 16, 0, 3, 0, 12, 0, 1, 0, 1, 0, 0, 0, 2, 0, 0, 0};
  static const struct {
    size_t place, length;
    uint16_t family, type, shape;
    uint32_t value_type;
  } all[] = {
      {0, 5, LINKINFO_FAMILY_LINKINFO, 1, LINKINFO_SHAPE_NAME, LINKINFO_VALUE_TEXT},
      {12, 24, LINKINFO_FAMILY_LINKINFO, 2, LINKINFO_SHAPE_RAW, LINKINFO_VALUE_BYTES},
      {16, 2, LINKINFO_FAMILY_VLAN, 1, LINKINFO_SHAPE_LE16, LINKINFO_VALUE_NUMBER},
      {24, 12, LINKINFO_FAMILY_VLAN, 3, LINKINFO_SHAPE_NESTED, LINKINFO_VALUE_LIST},
      {28, 8, LINKINFO_FAMILY_VLANQOSMAPPING, 1, LINKINFO_SHAPE_FLAG_PAIR,
       LINKINFO_VALUE_PAIR},
  };
  size_t next = 0;
  for (size_t offset = 0; offset < sizeof vlan + 8; offset++) {
    struct linkinfo_placed_value found = linkinfo_value_at(vlan, sizeof vlan, offset);
    bool is_one = next < sizeof all / sizeof *all && all[next].place == offset;
    CHECK(found.is_found == is_one);
    if (!is_one) {
      static const struct linkinfo_placed_value none;
      CHECK(found.family == 0 && equal_values(&found.attribute.value, &none.attribute.value));
      CHECK(found.attribute.length == 0 && found.attribute.raw_type == 0);
      continue;
    }
    CHECK(found.family == all[next].family && found.attribute.place == offset);
    CHECK(found.attribute.length == all[next].length);
    CHECK(found.attribute.raw_type == all[next].type && found.attribute.shape == all[next].shape);
    CHECK(found.attribute.value.value_type == all[next].value_type);
    next++;
  }
  CHECK(next == sizeof all / sizeof *all);
  struct linkinfo_value id = linkinfo_value_at(vlan, sizeof vlan, 16).attribute.value,
                        mapping = linkinfo_value_at(vlan, sizeof vlan, 28).attribute.value;
  CHECK(id.number == 5 && mapping.first == 1 && mapping.second == 2);
  CHECK(!linkinfo_value_at(vlan, sizeof vlan, SIZE_MAX).is_found);
  CHECK(!linkinfo_value_at(NULL, 0, 0).is_found);
}

/* Headers examined: those in a nested list are, where its family is typed. */
static void counts(void) {
  /* the mapping of priority 1 to 2 for frames that a VLAN sends: four headers, one nested */
  static const uint8_t vlan[] = {9, 0, 1, 0, 'v', 'l', 'a', 'n', 0, 0, 0, 0, 20, 0, 2, 0, 16, 0,
                                 3, 0, 12, 0, 1, 0, 1, 0, 0, 0, 2, 0, 0, 0};
  struct linkinfo_count_result typed = linkinfo_count(vlan, sizeof vlan),
                               verbatim = linkinfo_count_opaque(vlan, sizeof vlan);
  CHECK(is_none(typed.error) && typed.count == 4);
  CHECK(is_none(verbatim.error) && verbatim.count == 3);
  CHECK(linkinfo_count_opaque(NULL, 0).count == 0);
}

/* Sentences of errors, and names of attributes; tests/rows.c has all names. */
static void sentences(void) {
  static const struct {
    struct at at;
    const char *text;
  } all[] = {
      {{{LINKINFO_FAMILY_LINKINFO, 2, LINKINFO_CAUSE_ORDER}, 0},
       "IFLA_INFO_DATA before IFLA_INFO_KIND, at offset 0"},
      {{{LINKINFO_FAMILY_LINKINFO, 5, LINKINFO_CAUSE_ORDER}, 16},
       "IFLA_INFO_SLAVE_DATA without IFLA_INFO_SLAVE_KIND, at offset 16"},
      {{{LINKINFO_FAMILY_FRAME, 0, LINKINFO_CAUSE_HEADER}, 8},
       "invalid attribute header, at offset 8"},
      {{{LINKINFO_FAMILY_FRAME, 0, LINKINFO_CAUSE_MEMORY}, 8}, "out of memory"},
      {{{LINKINFO_FAMILY_GTP, 0, LINKINFO_CAUSE_WORD}, 8}, "no value of gtp has this name"},
      {{{LINKINFO_FAMILY_WWAN, 9, LINKINFO_CAUSE_LENGTH}, 65536},
       "type 9 of wwan has a payload of invalid length, at offset 65536"},
      {{{LINKINFO_FAMILY_IPTUNNEL, 14, LINKINFO_CAUSE_ADDRESS_KIND}, SIZE_MAX},
       "IFLA_IPTUN_6RD_RELAY_PREFIXLEN has an address of the other IP version, "
       "at offset 18446744073709551615"},
      {{{LINKINFO_FAMILY_VLAN, 1, LINKINFO_CAUSE_LENGTH}, 16},
       "IFLA_VLAN_ID has a payload of invalid length, at offset 16"},
      {{{LINKINFO_FAMILY_CANTDC, 8, LINKINFO_CAUSE_LENGTH}, 20},
       "IFLA_CAN_TDC_TDCO has a payload of invalid length, at offset 20"},
      {{{LINKINFO_FAMILY_XFRM, 2, LINKINFO_CAUSE_NONE}, 0}, ""},
      {{{LAST_FAMILY + 1, 2, LINKINFO_CAUSE_LENGTH}, 0}, ""},
      {{{1, 0, 12}, 0}, ""},
  };
  for (size_t at = 0; at < sizeof all / sizeof *all; at++)
    text_is(all[at].text, write_message, &all[at].at);
  static const struct {
    uint16_t pair[2];
    const char *text;
  } names[] = {
      {{LINKINFO_FAMILY_VXLAN, 1}, "IFLA_VXLAN_ID"},
      {{LINKINFO_FAMILY_VXCAN, 1}, "VXCAN_INFO_PEER"},
      {{LINKINFO_FAMILY_IPTUNNEL, 8}, "IFLA_IPTUN_FLAGS"},
      {{LINKINFO_FAMILY_VXLAN, 0}, ""},
      {{LINKINFO_FAMILY_VXLAN, 0x8001}, ""},
      {{LINKINFO_FAMILY_BOND, 1}, "IFLA_BOND_MODE"},
      {{LINKINFO_FAMILY_BONDPORT, 8}, "IFLA_BOND_SLAVE_AD_PARTNER_OPER_PORT_STATE"},
      {{LINKINFO_FAMILY_VLANQOSMAPPING, 1}, "IFLA_VLAN_QOS_MAPPING"},
      {{LINKINFO_FAMILY_BRIDGE, 40}, ""},
      {{LINKINFO_FAMILY_TEAMPORT, 1}, ""},
      {{0, 1}, ""},
      {{LAST_FAMILY + 1, 1}, ""},
  };
  for (size_t at = 0; at < sizeof names / sizeof *names; at++)
    text_is(names[at].text, write_attribute, names[at].pair);
}

static void texts(void) {
  static const char *causes[] = {"",     "header",    "length", "utf8",  "order",  "addresskind",
                                 "word", "wrongtype", "kind",   "depth", "memory", "peer",
                                 ""};
  for (uint32_t cause = 0; cause < sizeof causes / sizeof *causes; cause++)
    text_is(causes[cause], write_cause, &cause);
  char name[32];
  for (uint32_t code = 0; code < 65536; code++) {
    uint16_t number = (uint16_t)code;
    size_t length = linkinfo_family_name(number, name, sizeof name);
    CHECK((length > 0) == (code >= 1 && code <= LAST_FAMILY));
    text_is(name, write_family, &number);
    length = linkinfo_kind_name(number, name, sizeof name);
    CHECK((length > 0) == (code >= 2 && code <= LAST_KIND));
    if (length > 0)
      CHECK(linkinfo_kind_of_name((const char *)at_end((const uint8_t *)name, length), length) ==
            number);
    text_is(name, write_kind, &number);
    length = linkinfo_port_kind_name(number, name, sizeof name);
    CHECK((length > 0) == (code >= 257 && code <= LAST_PORT_KIND));
    if (length > 0)
      CHECK(linkinfo_port_kind_of_name((const char *)at_end((const uint8_t *)name, length),
                                       length) == number);
    text_is(name, write_port_kind, &number);
  }
  CHECK(linkinfo_kind_of_name("vxlan", 5) == LINKINFO_KIND_VXLAN &&
        linkinfo_kind_of_name("vxlan", 6) == LINKINFO_KIND_OTHER);
  CHECK(linkinfo_kind_of_name("ip6erspan", 9) == LINKINFO_KIND_IP6ERSPAN &&
        linkinfo_kind_of_name("rmnet", 5) == LINKINFO_KIND_RMNET);
  CHECK(linkinfo_port_kind_of_name("bridge", 6) == LINKINFO_PORT_KIND_BRIDGE &&
        linkinfo_port_kind_of_name("vxlan", 5) == LINKINFO_PORT_KIND_OTHER);
  struct linkinfo_error error = {LINKINFO_FAMILY_BRIDGEQUERIERSTATE, 65535,
                                 LINKINFO_CAUSE_ADDRESS_KIND};
  text_is("bridgequerierstate 65535 addresskind", write_error, &error);
  struct linkinfo_error short_error = {LINKINFO_FAMILY_FRAME, 0, LINKINFO_CAUSE_HEADER};
  text_is("frame 0 header", write_error, &short_error);
  struct linkinfo_error none = {LINKINFO_FAMILY_XFRM, 2, LINKINFO_CAUSE_NONE},
                        no_family = {LAST_FAMILY + 1, 2, LINKINFO_CAUSE_LENGTH},
                        no_cause = {1, 0, 12};
  text_is("", write_error, &none);
  text_is("", write_error, &no_family);
  text_is("", write_error, &no_cause);
}

/* Worked canonical encodings: a trailing NUL and padding are written, and a list that does not fit
 * has none. */
static void worked_canon(void) {
  static const uint8_t pfcp[] = {8, 0, 1, 0, 'p', 'f', 'c', 'p'},
                       closed[] = {9, 0, 1, 0, 'p', 'f', 'c', 'p', 0, 0, 0, 0};
  uint8_t buffer[16];
  memset(buffer, GUARD, sizeof buffer);
  struct linkinfo_canon_result canon = linkinfo_canon(pfcp, sizeof pfcp, buffer, sizeof closed - 1);
  CHECK(canon.status == LINKINFO_CANON_SHORT && canon.length == sizeof closed &&
        is_guard(buffer, sizeof buffer));
  canon = linkinfo_canon(pfcp, sizeof pfcp, buffer, sizeof buffer);
  CHECK(canon.status == LINKINFO_CANON_WRITTEN && canon.length == sizeof closed &&
        memcmp(buffer, closed, sizeof closed) == 0);
  CHECK(is_guard(buffer + sizeof closed, sizeof buffer - sizeof closed));
  canon = linkinfo_canon(closed, 3, buffer, sizeof buffer);
  CHECK(canon.status == LINKINFO_CANON_REFUSED && canon.length == 0 &&
        canon.error.cause == LINKINFO_CAUSE_HEADER);
  static uint8_t letters[65535], large[1 << 17];
  memset(letters, 'a', sizeof letters);
  memcpy(letters, "\xff\xff\1\0", 4);
  canon = linkinfo_canon(letters, sizeof letters, large, sizeof large);
  CHECK(canon.status == LINKINFO_CANON_UNFIT && canon.length == 0 && is_none(canon.error));
  /* with one letter less the NUL fits: the largest length */
  letters[0] = 0xfe;
  memset(large, GUARD, sizeof large);
  canon = linkinfo_canon(letters, sizeof letters - 1, large, 65535);
  CHECK(canon.status == LINKINFO_CANON_SHORT && canon.length == 65536 &&
        is_guard(large, sizeof large));
  canon = linkinfo_canon(letters, sizeof letters - 1, large, 65536);
  CHECK(canon.status == LINKINFO_CANON_WRITTEN && canon.length == 65536 &&
        memcmp(large, "\xff\xff\1\0", 4) == 0);
  CHECK(memcmp(large + 4, letters + 4, sizeof letters - 5) == 0 && large[65534] == 0 &&
        large[65535] == 0 && is_guard(large + 65536, sizeof large - 65536));
}

/* Nested lists: 128 are accepted, and one more is rejected at the offset of the data. */
static void nested(void) {
  static uint8_t bytes[1024];
  for (size_t depth = 1; depth <= 129; depth++) {
    size_t at = 12;
    memcpy(bytes, "\x0c\0\x01\0macvlan\0", 12);
    for (size_t i = 0; i <= depth; i++, at += 4) {
      size_t length = 4 * (depth - i) + 4;
      uint8_t header[4] = {(uint8_t)length, (uint8_t)(length >> 8), i == 0 ? 2 : 5, 0};
      memcpy(bytes + at, header, 4);
    }
    struct linkinfo_error_at error = linkinfo_check_at(at_end(bytes, at), at);
    if (depth <= 128) {
      CHECK(is_none(error.error));
      canonical(input_end - at, at);
    } else {
      CHECK(error.error.family == LINKINFO_FAMILY_MACVLAN && error.error.type == 5 &&
            error.error.cause == LINKINFO_CAUSE_DEPTH && error.place == 12);
      CHECK(linkinfo_check_inner(at_end(bytes, at), at).inner == 12 + 4 * depth);
    }
  }
}

int main(int count, char **arguments) {
  if (count != 2) return 1;
  read_strings(arguments[1]);
  input_end = guarded();
  output_end = guarded();
  no_bytes();
  of_strings();
  sentences();
  uses();
  values_at_offsets();
  counts();
  texts();
  few_rooms = 0;
  nested();
  worked();
  worked_canon();
  printf("calls: %zu strings, each prefix and each with a bit flipped\n", string_count);
  return 0;
}
