/* Worked differences of two lists, and worked errors with their offsets. */
#include "linkinfo.h"
#include "strings.h"

/* Kinds with their NUL and padding, 12 bytes each but for vrf's 8. */
#define VXLAN "0a00010076786c616e000000"
#define MACVLAN "0c0001006d6163766c616e00"
#define BOND "09000100626f6e6400000000"
#define VLAN "09000100766c616e00000000"
#define BRIDGE "0b0001006272696467650000"
#define CAN "0800010063616e00"
#define PORT_OF_BOND "09000400626f6e6400000000"
#define VETH "090001007665746800000000"
#define PORT_OF_VRF "0800040076726600"

/* Two lists, and FAMILY TYPE OFFSET OFFSET of the first pair that differs, `-` for a list that has
 * ended; or `same`, or `error LIST FAMILY TYPE CAUSE`. */
static const struct {
  const char *first, *second, *expected;
} pairs[] = {
    {"", "", "same"},
    {VXLAN "0c000200080001002a000000", VXLAN "0c000200080001002a000000", "same"},
    /* the VNI */
    {VXLAN "0c000200080001002a000000", VXLAN "0c000200080001002b000000", "vxlan 1 16 16"},
    /* learning: both bytes are true */
    {VXLAN "090002000500070001", VXLAN "0c0002000500070002000000", "same"},
    /* a TTL in one of both; another order */
    {VXLAN "14000200080001002a0000000500050040000000", VXLAN "0c000200080001002a000000",
     "vxlan 5 24 -"},
    {VXLAN "0c000200080001002a000000", VXLAN "14000200080001002a0000000500050040000000",
     "vxlan 5 - 24"},
    {VXLAN "14000200080001002a0000000500050040000000",
     VXLAN "140002000500050040000000080001002a000000", "vxlan 1 16 16"},
    /* data in one of both, other kinds, statistics */
    {VXLAN, VXLAN "0c000200080001002a000000", "linkinfo 2 - 12"},
    {VXLAN "0c000200080001002a000000", VXLAN, "linkinfo 2 12 -"},
    {VXLAN, BOND, "linkinfo 1 0 0"},
    {"07000100666f6f000600030005060000", "07000100666f6f000600030005070000", "linkinfo 3 8 8"},
    /* the second address of a nested list, and one more */
    {MACVLAN "200002001c0005000a00040002000000000100000a0004000200000000020000",
     MACVLAN "200002001c0005000a00040002000000000100000a0004000200000000030000",
     "macvlan 4 32 32"},
    {MACVLAN "14000200100005000a0004000200000000010000",
     MACVLAN "200002001c0005000a00040002000000000100000a0004000200000000030000",
     "macvlan 4 - 32"},
    /* an attribute with a row: its payload, its flags; one without a row: its flags */
    {BOND "0c0002000500010001000000", BOND "0c0002000500010002000000", "bond 1 16 16"},
    {BOND "0c0002000500018001000000", BOND "0c0002000500010001000000", "same"},
    {BOND "0c0002000500638001000000", BOND "0c0002000500630001000000", "bond 99 16 16"},
    /* a mapping of priorities to another one, one more mapping, flags inside, and of the list */
    {VLAN "14000200100003000c0001000200000003000000",
     VLAN "14000200100003000c0001000200000004000000", "vlanqosmapping 1 20 20"},
    {VLAN "14000200100003000c0001000200000003000000",
     VLAN "200002001c0003000c00010002000000030000000c0001000400000005000000",
     "vlanqosmapping 1 - 32"},
    {VLAN "14000200100003800c0001400200000003000000",
     VLAN "14000200100003000c0001000200000003000000", "same"},
    /* addresses: another one, the same with other types */
    {BOND "1800020014000800080000000a000001080001000a000002",
     BOND "1800020014000800080000000a000001080001000a000003", "bond 8 16 16"},
    {BOND "1800020014000800080009000a000001080003800a000002",
     BOND "1800020014000800080000000a000001080001000a000002", "same"},
    /* a VLAN ID of one byte */
    {VLAN "0900020005000100ff", VLAN, "error 1 vlan 1 length"},
    /* the peer of a veth link, as a whole */
    {VETH "0c00020006000100aabb0000", VETH "0c00020006000100aabc0000", "linkinfo 2 12 12"},
    {"0800010070666370ff", "", "error 1 frame 0 header"},
    {"", "05000100ff", "error 2 linkinfo 1 utf8"},
};

/* The same with bonds, bridges and their like opaque. */
static const struct {
  const char *first, *second, *expected;
} opaque_pairs[] = {
    {BOND "0c0002000500018001000000", BOND "0c0002000500010001000000", "bond 1 16 16"},
    {VLAN "14000200100003000c0001000200000003000000",
     VLAN "14000200100003000c0001000200000004000000", "vlan 3 16 16"},
    {VLAN "0900020005000100ff", VLAN "0c00020005000100ff000000", "same"},
    {VXLAN "0c000200080001002a000000", VXLAN "0c000200080001002b000000", "vxlan 1 16 16"},
    {VXLAN "090002000500070001", VXLAN "0c0002000500070002000000", "same"},
};

/* A list, its error, the offset of the attribute of the list, and that of the innermost one. */
static const struct {
  const char *list, *expected;
} errors[] = {
    {VXLAN, " 0 0"},
    {"0c000200080001002a000000", "linkinfo 2 order 0 0"},
    {"05000100ff", "linkinfo 1 utf8 0 0"},
    {"0800010070666370ff", "frame 0 header 8 8"},
    /* a TTL of two bytes after the VNI; a stray byte after it */
    {VXLAN "14000200080001002a0000000600050040000000", "vxlan 5 length 12 24"},
    {VXLAN "0d000200080001002a000000ff", "frame 0 header 12 24"},
    /* an address of five bytes in a nested list; a byte that is no header there */
    {MACVLAN "1400020010000500090004000200000000000000", "macvlan 4 length 12 20"},
    {MACVLAN "0900020005000500ff", "frame 0 header 12 20"},
    {PORT_OF_VRF "090005000500010005", "vrf 1 length 8 12"},
    /* a VLAN ID of one byte; a mapping of four bytes, a byte that is no header beside one */
    {VLAN "0900020005000100ff", "vlan 1 length 12 16"},
    {VLAN "100002000c0003000800010000000000", "vlanqosmapping 1 length 12 20"},
    {VLAN "090002000500030001", "frame 0 header 12 20"},
    /* an address of five bytes, which is an error of its list; a stray byte after an address */
    {BOND "110002000d000800090003000a00000100", "bond 8 length 12 16"},
    {BOND "110002000d000800080000000a00000101", "frame 0 header 12 28"},
    /* lists of other families; the state of a port of two bytes */
    {BRIDGE "0c00020008002f8004000500", "bridgequerierstate 5 length 12 20"},
    {CAN "0f0002000b00108007000800010203", "cantdc 8 length 8 16"},
    {PORT_OF_BOND "0900050005000800ff", "bondport 8 length 12 16"},
};

/* The same with bonds, bridges and their like opaque. */
static const struct {
  const char *list, *expected;
} opaque_errors[] = {
    {VLAN "0900020005000100ff", " 0 0"},
    {VLAN "090002000500030001", " 0 0"},
    {BOND "0d000200080001002a000000ff", "frame 0 header 12 24"},
    {VXLAN "14000200080001002a0000000600050040000000", "vxlan 5 length 12 24"},
};

/* Reports a result that is not the expected one. */
static int is_expected(const char *name, size_t row, const char *result, const char *expected) {
  if (strcmp(result, expected) == 0) return 1;
  fprintf(stderr, "%s %zu: %s, and not %s\n", name, row, result, expected);
  return 0;
}

static void write_offset(bool is_there, size_t offset, char *text, size_t length) {
  snprintf(text, length, is_there ? "%zu" : "-", offset);
}

/* The offsets and the family of a difference, or that there is none, as a text. */
static void write_difference(const struct linkinfo_difference *found, char *text, size_t length) {
  char name[37], first[32], second[32];
  if (found->rejected != 0) {
    linkinfo_error_text(found->error, name, sizeof name);
    snprintf(text, length, "error %u %s", (unsigned)found->rejected, name);
  } else if (found->same) {
    snprintf(text, length, "same");
  } else {
    linkinfo_family_name(found->family, name, sizeof name);
    write_offset(found->is_in_first, found->first, first, sizeof first);
    write_offset(found->is_in_second, found->second, second, sizeof second);
    snprintf(text, length, "%s %u %s %s", name, (unsigned)found->type, first, second);
  }
}

static int is_pair(size_t row) {
  static struct string a, b;
  char result[128];
  if (!from_hex(pairs[row].first, &a) || !from_hex(pairs[row].second, &b)) return 0;
  struct linkinfo_difference found =
      linkinfo_first_difference(a.bytes, a.length, b.bytes, b.length);
  struct linkinfo_same_result same = linkinfo_same(a.bytes, a.length, b.bytes, b.length);
  if (found.same != same.same || found.rejected != same.rejected) return 0;
  write_difference(&found, result, sizeof result);
  return is_expected("pair", row, result, pairs[row].expected);
}

static int is_opaque_pair(size_t row) {
  static struct string a, b;
  char result[128];
  if (!from_hex(opaque_pairs[row].first, &a) || !from_hex(opaque_pairs[row].second, &b)) return 0;
  struct linkinfo_difference found =
      linkinfo_first_difference_opaque(a.bytes, a.length, b.bytes, b.length);
  struct linkinfo_same_result same = linkinfo_same_opaque(a.bytes, a.length, b.bytes, b.length);
  struct linkinfo_unmet unmet =
      linkinfo_first_unmet_opaque(a.bytes, a.length, b.bytes, b.length);
  if (found.same != same.same || found.rejected != same.rejected) return 0;
  if (found.rejected != unmet.rejected || (found.same && !unmet.met)) return 0;
  write_difference(&found, result, sizeof result);
  return is_expected("opaque pair", row, result, opaque_pairs[row].expected);
}

static void write_error(const struct linkinfo_inner_error *found, char *text, size_t length) {
  char error[37];
  linkinfo_error_text(found->error, error, sizeof error);
  snprintf(text, length, "%s %zu %zu", error, found->place, found->inner);
}

static int is_error(size_t row) {
  static struct string list;
  char result[128];
  if (!from_hex(errors[row].list, &list)) return 0;
  struct linkinfo_inner_error found = linkinfo_check_inner(list.bytes, list.length);
  write_error(&found, result, sizeof result);
  return is_expected("error", row, result, errors[row].expected);
}

static int is_opaque_error(size_t row) {
  static struct string list;
  char result[128];
  if (!from_hex(opaque_errors[row].list, &list)) return 0;
  struct linkinfo_inner_error found = linkinfo_check_inner_opaque(list.bytes, list.length);
  write_error(&found, result, sizeof result);
  return is_expected("opaque error", row, result, opaque_errors[row].expected);
}

/* How many rows of a table are as expected; status is set to 1 where one is not. */
static size_t worked(int (*is_row)(size_t), size_t count, int *status) {
  size_t passed = 0;
  for (size_t row = 0; row < count; row++) passed += is_row(row) != 0;
  if (passed < count) *status = 1;
  return passed;
}

int main(void) {
  int status = 0;
  size_t pair_count = worked(is_pair, sizeof pairs / sizeof *pairs, &status);
  pair_count += worked(is_opaque_pair, sizeof opaque_pairs / sizeof *opaque_pairs, &status);
  size_t error_count = worked(is_error, sizeof errors / sizeof *errors, &status);
  error_count += worked(is_opaque_error, sizeof opaque_errors / sizeof *opaque_errors, &status);
  printf("differences: %zu worked pairs, %zu worked errors\n", pair_count, error_count);
  return status;
}
