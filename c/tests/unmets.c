/* Worked requests, and each attribute of them that a link does not meet, from every offset on. */
#include "linkinfo.h"
#include "strings.h"

/* Kinds with their NUL and padding, 12 bytes each but for can's 8. */
#define VXLAN "0a00010076786c616e000000"
#define BOND "09000100626f6e6400000000"
#define VLAN "09000100766c616e00000000"
#define CAN "0800010063616e00"

/* vxlan with the VNI 42, a TTL of 64 and the port 4789; of VLANs the mappings 1 to 2 and 3 to 4. */
#define LINK VXLAN "1c000200080001002a000000050005004000000006000f0012b50000"
#define MAPPED VLAN "200002001c0003000c00010001000000020000000c0001000300000004000000"

enum { MOST = 8 };

/* An attribute that is not met: its family and type, its offset in the request, and that of the
 * link's attribute of that type, or NONE. */
struct row {
  uint16_t family, type;
  size_t want, have;
};
#define NONE SIZE_MAX

/* A link, a request, and all that is not met; a family of 0 ends them. */
static const struct pair {
  const char *have, *want;
  struct row rows[MOST];
} pairs[] = {
    {"", "", {{0}}},
    {LINK, "", {{0}}},
    {LINK, LINK, {{0}}},
    /* the VNI 43, the TTL, the port 4790, and learning, which the link lacks */
    {LINK,
     VXLAN "24000200080001002b000000050005004000000006000f0012b600000500070001000000",
     {{LINKINFO_FAMILY_VXLAN, 1, 16, 16},
      {LINKINFO_FAMILY_VXLAN, 15, 32, 32},
      {LINKINFO_FAMILY_VXLAN, 7, 40, NONE}}},
    /* the VNIs 43 and 44: the last one counts */
    {LINK, VXLAN "14000200080001002b000000080001002c000000", {{LINKINFO_FAMILY_VXLAN, 1, 24, 16}}},
    /* types on both sides of 64, the larger one first */
    {"0500400001000000",
     "050040000200000005000900020000000500800003000000",
     {{LINKINFO_FAMILY_LINKINFO, 64, 0, 0},
      {LINKINFO_FAMILY_LINKINFO, 9, 8, NONE},
      {LINKINFO_FAMILY_LINKINFO, 128, 16, NONE}}},
    /* another kind: the data as a whole, with data of that kind and without data */
    {BOND "0c0002000500010001000000",
     VXLAN "0c000200080001002a000000",
     {{LINKINFO_FAMILY_LINKINFO, 1, 0, 0}, {LINKINFO_FAMILY_LINKINFO, 2, 12, 12}}},
    {"",
     VXLAN "0c000200080001002a000000",
     {{LINKINFO_FAMILY_LINKINFO, 1, 0, NONE}, {LINKINFO_FAMILY_LINKINFO, 2, 12, NONE}}},
    /* a set: the mappings 1 to 2, 1 to 3 and 5 to 6 */
    {MAPPED,
     VLAN "2c000200280003000c00010001000000020000000c0001000100000003000000"
          "0c0001000500000006000000",
     {{LINKINFO_FAMILY_VLANQOSMAPPING, 1, 32, NONE},
      {LINKINFO_FAMILY_VLANQOSMAPPING, 1, 44, NONE}}},
    /* the TDCV 5 and the TDCO 6; 5, 7 and a TDCF of 8, then a restart after 100 ms */
    {CAN "180002001400108008000700050000000800080006000000",
     CAN "280002001c001080080007000500000008000800070000000800090008000000"
         "0800060064000000",
     {{LINKINFO_FAMILY_CANTDC, 8, 24, 24},
      {LINKINFO_FAMILY_CANTDC, 9, 32, NONE},
      {LINKINFO_FAMILY_CAN, 6, 40, NONE}}},
};

/* The same with bonds, bridges and their like opaque. */
static const struct pair opaque_pairs[] = {
    {LINK,
     VXLAN "24000200080001002b000000050005004000000006000f0012b600000500070001000000",
     {{LINKINFO_FAMILY_VXLAN, 1, 16, 16},
      {LINKINFO_FAMILY_VXLAN, 15, 32, 32},
      {LINKINFO_FAMILY_VXLAN, 7, 40, NONE}}},
    /* mappings as bytes, and a VLAN ID that the link lacks */
    {MAPPED,
     VLAN "1c000200100003000c00010001000000020000000600010005000000",
     {{LINKINFO_FAMILY_VLAN, 3, 16, 16}, {LINKINFO_FAMILY_VLAN, 1, 32, NONE}}},
};

/* A list that is rejected, as a link or as a request. */
static const struct {
  const char *have, *want, *expected;
  uint32_t rejected;
} errors[] = {
    {"0800010070666370ff", LINK, "frame 0 header", 1},
    {"0800010070666370ff", "05000100ff", "frame 0 header", 1},
    {"0800010070666370ff", "0800010070666370ff", "frame 0 header", 1},
    {LINK, "05000100ff", "linkinfo 1 utf8", 2},
    {"", "0c000200080001002a000000", "linkinfo 2 order", 2},
};

typedef struct linkinfo_unmet next_call(const uint8_t *, size_t, const uint8_t *, size_t, size_t);
typedef struct linkinfo_unmet first_call(const uint8_t *, size_t, const uint8_t *, size_t);

/* Whether a result is that of a row, or that none is left if its family is 0. */
static int is_row(const struct linkinfo_unmet *found, const struct row *row) {
  int is_present = row->family != 0 && row->have != NONE;
  return found->rejected == 0 && found->error.cause == 0 && found->met == (row->family == 0) &&
         found->family == row->family && found->type == row->type && found->want == row->want &&
         found->is_present == is_present && found->have == (is_present ? row->have : 0);
}

/* Whether from each offset on the first row at it or after it is returned, also where no byte is
 * left; and whether a loop over all has each row once. */
static int is_worked(const struct pair *pair, next_call *next, first_call *first) {
  static struct string have, want;
  if (!from_hex(pair->have, &have) || !from_hex(pair->want, &want)) return 0;
  const uint8_t *a = have.bytes, *b = want.bytes;
  const struct row *row = pair->rows;
  for (size_t from = 0; from < want.length + 8; from++) {
    while (row->family != 0 && row->want < from) row++;
    struct linkinfo_unmet found = next(a, have.length, b, want.length, from);
    if (!is_row(&found, row)) return 0;
  }
  struct linkinfo_unmet last = next(a, have.length, b, want.length, SIZE_MAX);
  if (row->family != 0 || !is_row(&last, row)) return 0;
  struct linkinfo_unmet found = first(a, have.length, b, want.length);
  for (row = pair->rows; row->family != 0; row++) {
    if (!is_row(&found, row)) return 0;
    found = next(a, have.length, b, want.length, found.want + 1);
  }
  return is_row(&found, row);
}

/* Whether the error of a list is returned from each offset on. */
static int is_error(size_t at, next_call *next) {
  static struct string have, want;
  if (!from_hex(errors[at].have, &have) || !from_hex(errors[at].want, &want)) return 0;
  for (size_t from = 0; from < want.length + 8; from++) {
    struct linkinfo_unmet found = next(have.bytes, have.length, want.bytes, want.length, from);
    char text[37];
    linkinfo_error_text(found.error, text, sizeof text);
    if (found.rejected != errors[at].rejected || found.met || found.family != 0) return 0;
    if (found.want != 0 || strcmp(text, errors[at].expected) != 0) return 0;
  }
  return 1;
}

static int report(int is_right, const char *name, size_t at) {
  if (!is_right) fprintf(stderr, "unmets: %s %zu: another result\n", name, at);
  return !is_right;
}

int main(void) {
  size_t count = sizeof pairs / sizeof *pairs, more = sizeof opaque_pairs / sizeof *opaque_pairs;
  size_t error_count = sizeof errors / sizeof *errors;
  int status = 0;
  for (size_t at = 0; at < count; at++)
    status |= report(is_worked(&pairs[at], linkinfo_next_unmet, linkinfo_first_unmet), "pair", at);
  for (size_t at = 0; at < more; at++)
    status |= report(is_worked(&opaque_pairs[at], linkinfo_next_unmet_opaque,
                               linkinfo_first_unmet_opaque),
                     "opaque pair", at);
  for (size_t at = 0; at < error_count; at++) {
    status |= report(is_error(at, linkinfo_next_unmet), "error", at);
    status |= report(is_error(at, linkinfo_next_unmet_opaque), "opaque error", at);
  }
  struct linkinfo_unmet none = linkinfo_next_unmet(NULL, 0, NULL, 0, 0);
  status |= report(is_row(&none, pairs[0].rows), "no list", 0);
  printf("unmets: %zu worked requests, %zu errors\n", count + more, error_count);
  return status;
}
