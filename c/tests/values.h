/* The value of a payload by the rules of its shape, as docs/FORMAT.md has them. */
#ifndef VALUES_H
#define VALUES_H
#include "linkinfo.h"
#include <string.h>

/* The number of some bytes, by their order. */
static inline uint64_t number(const uint8_t *bytes, size_t length, int is_big) {
  uint64_t number = 0;
  for (size_t i = 0; i < length; i++)
    number |= (uint64_t)bytes[i] << 8 * (is_big ? length - 1 - i : i);
  return number;
}

/* The bytes of the first code point of a text in UTF-8 (RFC 3629), or 0 where there is none. */
static inline size_t code_point(const uint8_t *text, size_t length) {
  static const struct {
    uint8_t first, last, low, high; /* of the first byte, and of the second */
    size_t length;
  } forms[] = {{0x00, 0x7f, 0, 0, 1},       {0xc2, 0xdf, 0x80, 0xbf, 2},
               {0xe0, 0xe0, 0xa0, 0xbf, 3}, {0xe1, 0xec, 0x80, 0xbf, 3},
               {0xed, 0xed, 0x80, 0x9f, 3}, {0xee, 0xef, 0x80, 0xbf, 3},
               {0xf0, 0xf0, 0x90, 0xbf, 4}, {0xf1, 0xf3, 0x80, 0xbf, 4},
               {0xf4, 0xf4, 0x80, 0x8f, 4}};
  for (size_t i = 0; i < sizeof forms / sizeof *forms; i++) {
    if (text[0] < forms[i].first || text[0] > forms[i].last || length < forms[i].length) continue;
    if (forms[i].length > 1 && (text[1] < forms[i].low || text[1] > forms[i].high)) continue;
    size_t at = 2;
    while (at < forms[i].length && text[at] >= 0x80 && text[at] <= 0xbf) at++;
    if (at >= forms[i].length) return forms[i].length;
  }
  return 0;
}

static inline int is_utf8(const uint8_t *text, size_t length) {
  size_t at = 0, bytes = 1;
  while (at < length && bytes > 0) at += bytes = code_point(text + at, length - at);
  return at == length;
}

static inline struct linkinfo_value number_value(uint64_t number) {
  struct linkinfo_value value = {.value_type = LINKINFO_VALUE_NUMBER, .number = number};
  return value;
}

static inline struct linkinfo_value truth_value(uint32_t value_type, bool truth) {
  struct linkinfo_value value = {.value_type = value_type, .truth = truth};
  return value;
}

static inline struct linkinfo_value pair_value(uint64_t first, uint64_t second) {
  struct linkinfo_value value = {.value_type = LINKINFO_VALUE_PAIR};
  value.first = (uint32_t)first;
  value.second = (uint32_t)second;
  return value;
}

static inline struct linkinfo_value bytes_value(uint32_t value_type, size_t length) {
  struct linkinfo_value value = {.value_type = value_type, .length = length};
  return value;
}

static inline struct linkinfo_value list_value(uint16_t list_kind, size_t length) {
  struct linkinfo_value value = {.value_type = LINKINFO_VALUE_LIST, .length = length};
  value.list_kind = list_kind;
  return value;
}

static inline struct linkinfo_value address_value(uint32_t value_type, const uint8_t *octets,
                                                  size_t length) {
  struct linkinfo_value value = {.value_type = value_type, .length = length};
  memcpy(value.octets, octets, length);
  return value;
}

/* (the kind of a nested list is that of its family, which the shape does not tell: 0) */
static inline struct linkinfo_value value_by_rules(uint16_t shape, const uint8_t *payload,
                                                   size_t length) {
  static const struct linkinfo_value none = {.value_type = LINKINFO_VALUE_NONE};
  static const size_t lengths[] = {
      [LINKINFO_SHAPE_U8] = 1,         [LINKINFO_SHAPE_LE16] = 2,      [LINKINFO_SHAPE_LE32] = 4,
      [LINKINFO_SHAPE_LE64] = 8,       [LINKINFO_SHAPE_BE16] = 2,      [LINKINFO_SHAPE_BE32] = 4,
      [LINKINFO_SHAPE_BE64] = 8,       [LINKINFO_SHAPE_I32] = 4,       [LINKINFO_SHAPE_TRUTH] = 1,
      [LINKINFO_SHAPE_TRUTH_ONE] = 1,  [LINKINFO_SHAPE_V4] = 4,        [LINKINFO_SHAPE_V6] = 16,
      [LINKINFO_SHAPE_GENEVE_V4] = 4,  [LINKINFO_SHAPE_GENEVE_V6] = 16, [LINKINFO_SHAPE_MAC] = 6,
      [LINKINFO_SHAPE_BE_PAIR] = 4,    [LINKINFO_SHAPE_FLAG_PAIR] = 8, [LINKINFO_SHAPE_SCRUB] = 4,
      [LINKINFO_SHAPE_BRIDGE_ID] = 8,  [LINKINFO_SHAPE_LE_PAIR16] = 4, [LINKINFO_SHAPE_LE32X8] = 32,
      [LINKINFO_SHAPE_CAN_BIT_TIMING_CONST] = 48};
  size_t fixed = shape < sizeof lengths / sizeof *lengths ? lengths[shape] : 0;
  if (fixed != 0 && length != fixed) return none;
  switch (shape) {
  case LINKINFO_SHAPE_U8:
  case LINKINFO_SHAPE_LE16:
  case LINKINFO_SHAPE_LE32:
  case LINKINFO_SHAPE_LE64:
    return number_value(number(payload, length, 0));
  case LINKINFO_SHAPE_BE16:
  case LINKINFO_SHAPE_BE32:
  case LINKINFO_SHAPE_BE64:
    return number_value(number(payload, length, 1));
  case LINKINFO_SHAPE_I32: {
    struct linkinfo_value value = {.value_type = LINKINFO_VALUE_SIGNED};
    value.signed_number = (int64_t)number(payload, 4, 0);
    if (payload[3] >= 128) value.signed_number -= INT64_C(1) << 32;
    return value;
  }
  case LINKINFO_SHAPE_TRUTH:
    return truth_value(LINKINFO_VALUE_TRUTH, payload[0] != 0);
  case LINKINFO_SHAPE_TRUTH_ONE:
    return truth_value(LINKINFO_VALUE_TRUTH, payload[0] == 1);
  case LINKINFO_SHAPE_SCRUB:
    return truth_value(LINKINFO_VALUE_TRUTH, number(payload, 4, 0) != 0);
  case LINKINFO_SHAPE_MARK:
    return truth_value(LINKINFO_VALUE_PRESENT, true);
  case LINKINFO_SHAPE_EMPTY_OR_BYTE:
    if (length > 1) return none;
    return length == 1 ? number_value(payload[0]) : truth_value(LINKINFO_VALUE_PRESENT, true);
  case LINKINFO_SHAPE_NAME:
    length -= length > 0 && payload[length - 1] == 0;
    return is_utf8(payload, length) ? bytes_value(LINKINFO_VALUE_TEXT, length) : none;
  case LINKINFO_SHAPE_V4:
  case LINKINFO_SHAPE_GENEVE_V4:
    return address_value(LINKINFO_VALUE_IPV4, payload, 4);
  case LINKINFO_SHAPE_V6:
  case LINKINFO_SHAPE_GENEVE_V6:
    return address_value(LINKINFO_VALUE_IPV6, payload, 16);
  case LINKINFO_SHAPE_IP:
    if (length != 4 && length != 16) return none;
    return address_value(length == 4 ? LINKINFO_VALUE_IPV4 : LINKINFO_VALUE_IPV6, payload,
                         length);
  case LINKINFO_SHAPE_MAC:
    return address_value(LINKINFO_VALUE_MAC, payload, 6);
  case LINKINFO_SHAPE_BE_PAIR:
    return pair_value(number(payload, 2, 1), number(payload + 2, 2, 1));
  case LINKINFO_SHAPE_FLAG_PAIR:
    return pair_value(number(payload, 4, 0), number(payload + 4, 4, 0));
  case LINKINFO_SHAPE_SELF_LIST:
  case LINKINFO_SHAPE_NESTED:
    return list_value(0, length);
  case LINKINFO_SHAPE_V4_LIST:
    return list_value(LINKINFO_LIST_KIND_V4, length);
  case LINKINFO_SHAPE_V6_LIST:
    return list_value(LINKINFO_LIST_KIND_V6, length);
  case LINKINFO_SHAPE_LE16S:
    return length % 2 == 0 ? bytes_value(LINKINFO_VALUE_BYTES, length) : none;
  case LINKINFO_SHAPE_LE32S:
    return length % 4 == 0 ? bytes_value(LINKINFO_VALUE_BYTES, length) : none;
  case LINKINFO_SHAPE_RAW:
  case LINKINFO_SHAPE_PEER:
  case LINKINFO_SHAPE_BRIDGE_ID:
  case LINKINFO_SHAPE_LE_PAIR16:
  case LINKINFO_SHAPE_LE32X8:
  case LINKINFO_SHAPE_CAN_BIT_TIMING_CONST:
    return bytes_value(LINKINFO_VALUE_BYTES, length);
  default:
    return none;
  }
}

static inline int equal_values(const struct linkinfo_value *a, const struct linkinfo_value *b) {
  return a->value_type == b->value_type && a->number == b->number &&
         a->signed_number == b->signed_number && a->length == b->length &&
         memcmp(a->octets, b->octets, sizeof a->octets) == 0 && a->first == b->first &&
         a->second == b->second && a->list_kind == b->list_kind && a->truth == b->truth;
}
#endif
