/* show HEX [WANTED]: the attributes in the contents of IFLA_LINKINFO, and the first one of a
 * request that they do not meet. Status 0 where they meet it, or nothing is wanted.
 *
 * (linkinfo_same is for two requests, or two canonical encodings: it is false for a request and the
 * link that the kernel made for it, to which it adds attributes.) */
#include "linkinfo.h"
#include <inttypes.h>
#include <linux/if_link.h>
#include <linux/netlink.h>
#include <stdio.h>
#include <stdlib.h>
#include <string.h>

/* The bytes of a text of hexadecimal digits, and their number; NULL where it is no such text. */
static uint8_t *from_hex(const char *text, size_t *length) {
  size_t digits = strspn(text, "0123456789abcdefABCDEF");
  uint8_t *bytes = text[digits] == 0 && digits % 2 == 0 ? malloc(digits / 2 + 1) : NULL;
  *length = digits / 2;
  for (size_t i = 0; bytes && i < *length; i++) {
    char byte[3] = {text[2 * i], text[2 * i + 1], 0};
    bytes[i] = (uint8_t)strtoul(byte, NULL, 16);
  }
  return bytes;
}

/* Prints the error of a list, where it has one. */
static bool is_rejected(const char *whose, const uint8_t *bytes, size_t length) {
  char text[37];
  struct linkinfo_error_at at = linkinfo_check_at(bytes, length);
  if (at.error.cause == LINKINFO_CAUSE_NONE) return false;
  linkinfo_error_text(at.error, text, sizeof text);
  printf("%s%s at byte %zu\n", whose, text, at.place);
  return true;
}

static unsigned type_of(uint16_t raw_type) { return raw_type & NLA_TYPE_MASK; }

/* The kind of the link, or of the port, whose data or statistics the item is. */
static void kind_of(const struct linkinfo_item *item, char *text, size_t length) {
  unsigned type = type_of(item->raw_type);
  text[0] = 0;
  if (type == IFLA_INFO_DATA || type == IFLA_INFO_XSTATS)
    linkinfo_kind_name(item->kind, text, length);
  if (type == IFLA_INFO_SLAVE_DATA) linkinfo_port_kind_name(item->port_kind, text, length);
}

/* A value, as the shape of its attribute means it. */
static void show_value(const uint8_t *payload, const struct linkinfo_valued_attribute *attribute) {
  const struct linkinfo_value *value = &attribute->value;
  switch (value->value_type) {
  case LINKINFO_VALUE_NUMBER:
    printf(" = %" PRIu64 "\n", value->number);
    break;
  case LINKINFO_VALUE_SIGNED:
    printf(" = %" PRId64 "\n", value->signed_number);
    break;
  case LINKINFO_VALUE_TRUTH:
  case LINKINFO_VALUE_PRESENT:
    printf(" = %s\n", value->truth ? "true" : "false");
    break;
  case LINKINFO_VALUE_TEXT:
    printf(" = \"%.*s\"\n", (int)value->length, (const char *)payload);
    break;
  case LINKINFO_VALUE_IPV4:
  case LINKINFO_VALUE_IPV6:
  case LINKINFO_VALUE_MAC:
    printf(" =");
    for (size_t i = 0; i < value->length; i++) printf(" %02x", value->octets[i]);
    printf("\n");
    break;
  case LINKINFO_VALUE_PAIR:
    printf(" = %" PRIu32 ", %" PRIu32 "\n", value->first, value->second);
    break;
  default:
    printf(", %zu bytes\n", attribute->length);
  }
}

/* The attributes in data of a kind, or in a nested list, and in the lists in them. */
static void show_attributes(const uint8_t *list, size_t begin, size_t length, uint16_t kind,
                            int indent) {
  struct linkinfo_valued_attribute *attributes = malloc((length / 4 + 1) * sizeof *attributes);
  if (!attributes) return;
  struct linkinfo_list_result found =
      linkinfo_values(list + begin, length, kind, attributes, length / 4);
  for (size_t i = 0; i < found.count; i++) {
    const struct linkinfo_value *value = &attributes[i].value;
    size_t place = begin + attributes[i].place;
    printf("%*s%zu: type %u", indent, "", place, type_of(attributes[i].raw_type));
    show_value(list + place + NLA_HDRLEN, &attributes[i]);
    if (value->value_type == LINKINFO_VALUE_LIST)
      show_attributes(list, place + NLA_HDRLEN, value->length,
                      value->list_kind ? value->list_kind : kind, indent + 2);
  }
  free(attributes);
}

/* The attributes in data or port data. */
static void show_data(const uint8_t *list, const struct linkinfo_item *item) {
  unsigned type = type_of(item->raw_type);
  if (type != IFLA_INFO_DATA && type != IFLA_INFO_SLAVE_DATA) return;
  show_attributes(list, item->place + NLA_HDRLEN, item->length,
                  type == IFLA_INFO_DATA ? item->kind : item->port_kind, 2);
}

/* Whether the link has all that is wanted; prints the first attribute that it has not. */
static bool is_as_wanted(const uint8_t *have, size_t have_length, const uint8_t *want,
                         size_t want_length) {
  char family[32];
  struct linkinfo_unmet unmet = linkinfo_first_unmet(have, have_length, want, want_length);
  if (unmet.met) {
    puts("as wanted");
    return true;
  }
  linkinfo_family_name(unmet.family, family, sizeof family);
  printf("not as wanted: %s %u at byte %zu of what is wanted, ", family, unmet.type, unmet.want);
  if (unmet.is_present) {
    printf("and another one at byte %zu\n", unmet.have);
  } else {
    printf("and none\n");
  }
  return false;
}

int main(int count, char **arguments) {
  char text[33];
  size_t length = 0, wanted_length = 0;
  uint8_t *bytes = count > 1 ? from_hex(arguments[1], &length) : NULL;
  uint8_t *wanted = count > 2 ? from_hex(arguments[2], &wanted_length) : NULL;
  if (count > 3 || !bytes || (count == 3 && !wanted)) {
    fprintf(stderr, "usage: show HEX [WANTED]\n");
    return 2;
  }
  if (is_rejected("", bytes, length)) return 1;
  if (wanted && is_rejected("wanted: ", wanted, wanted_length)) return 1;
  struct linkinfo_item *items = malloc((length / 4 + 1) * sizeof *items);
  if (!items) return 2;
  struct linkinfo_list_result found = linkinfo_items(bytes, length, items, length / 4);
  for (size_t i = 0; i < found.count; i++) {
    kind_of(&items[i], text, sizeof text);
    printf("%zu: type %u, %zu bytes%s%s\n", items[i].place, type_of(items[i].raw_type),
           items[i].length, text[0] ? " of " : "", text);
    show_data(bytes, &items[i]);
  }
  bool met = !wanted || is_as_wanted(bytes, length, wanted, wanted_length);
  free(items);
  free(bytes);
  free(wanted);
  return met ? 0 : 1;
}
