/* The shapes that linkinfo_values returns for each kind and type, compared with lines of rows.py on
 * standard input: 'link NAME TYPE SHAPE', 'port NAME TYPE SHAPE' or 'list FAMILY TYPE SHAPE'. The
 * shape of a list of another family is 'Nested:FAMILY'. A type without a line has no shape. So too
 * the kernel's names: 'name FAMILY TYPE NAME'. */
#include "linkinfo.h"
#include <stdio.h>
#include <string.h>

enum { MOST_KINDS = 64, TYPES = 128 };

static const char *const names[] = {
    [LINKINFO_SHAPE_NONE] = "None",           [LINKINFO_SHAPE_U8] = "U8",
    [LINKINFO_SHAPE_LE16] = "Le16",           [LINKINFO_SHAPE_LE32] = "Le32",
    [LINKINFO_SHAPE_LE64] = "Le64",           [LINKINFO_SHAPE_BE16] = "Be16",
    [LINKINFO_SHAPE_BE32] = "Be32",           [LINKINFO_SHAPE_BE64] = "Be64",
    [LINKINFO_SHAPE_I32] = "I32",             [LINKINFO_SHAPE_TRUTH] = "Truth",
    [LINKINFO_SHAPE_TRUTH_ONE] = "TruthOne",  [LINKINFO_SHAPE_MARK] = "Mark",
    [LINKINFO_SHAPE_NAME] = "Name",           [LINKINFO_SHAPE_V4] = "V4",
    [LINKINFO_SHAPE_V6] = "V6",               [LINKINFO_SHAPE_GENEVE_V4] = "GeneveV4",
    [LINKINFO_SHAPE_GENEVE_V6] = "GeneveV6",  [LINKINFO_SHAPE_IP] = "Ip",
    [LINKINFO_SHAPE_MAC] = "Mac",             [LINKINFO_SHAPE_BE_PAIR] = "BePair",
    [LINKINFO_SHAPE_FLAG_PAIR] = "FlagPair",  [LINKINFO_SHAPE_EMPTY_OR_BYTE] = "EmptyOrByte",
    [LINKINFO_SHAPE_SCRUB] = "Scrub",         [LINKINFO_SHAPE_RAW] = "Raw",
    [LINKINFO_SHAPE_SELF_LIST] = "SelfList",  [LINKINFO_SHAPE_PEER] = "Peer",
    [LINKINFO_SHAPE_NESTED] = "Nested",       [LINKINFO_SHAPE_BRIDGE_ID] = "BridgeId",
    [LINKINFO_SHAPE_LE_PAIR16] = "LePair16",  [LINKINFO_SHAPE_LE32X8] = "Le32x8",
    [LINKINFO_SHAPE_CAN_BIT_TIMING_CONST] = "CanBitTimingConst",
    [LINKINFO_SHAPE_LE16S] = "Le16s",         [LINKINFO_SHAPE_LE32S] = "Le32s",
    [LINKINFO_SHAPE_V4_LIST] = "V4List",      [LINKINFO_SHAPE_V6_LIST] = "V6List",
};
enum { SHAPES = sizeof names / sizeof *names };

static struct {
  char way[8], name[32];
  uint16_t kind;
  uint16_t shapes[TYPES];
  uint16_t list_kinds[TYPES];
  int rows;
} kinds[MOST_KINDS];
static size_t kind_count;

/* The code of a family by its name; 0 without one. */
static uint16_t family_of(const char *name) {
  char text[32];
  for (uint16_t code = 1; linkinfo_family_name(code, text, sizeof text) > 0; code++)
    if (strcmp(text, name) == 0) return code;
  return 0;
}

/* The kind of data, of port data or of a list. */
static uint16_t kind_of(const char *way, const char *name) {
  if (strcmp(way, "list") == 0) return (uint16_t)(LINKINFO_LIST_KIND_V4 + family_of(name));
  return strcmp(way, "port") == 0 ? linkinfo_port_kind_of_name(name, strlen(name))
                                  : linkinfo_kind_of_name(name, strlen(name));
}

static size_t kind_at(const char *way, const char *name) {
  size_t at = 0;
  while (at < kind_count && (strcmp(kinds[at].way, way) != 0 || strcmp(kinds[at].name, name) != 0))
    at++;
  if (at == kind_count && kind_count < MOST_KINDS) {
    strcpy(kinds[at].way, way);
    strcpy(kinds[at].name, name);
    kinds[at].kind = kind_of(way, name);
    kind_count++;
  }
  return at;
}

/* One attribute of a type without a payload, inside data of the kind. */
static int has_shape(size_t at, unsigned type) {
  uint8_t bytes[4] = {4, 0, (uint8_t)type, 0};
  struct linkinfo_valued_attribute attribute;
  memset(&attribute, 0, sizeof attribute);
  struct linkinfo_list_result found =
      linkinfo_values(bytes, sizeof bytes, kinds[at].kind, &attribute, 1);
  if (found.count == (kinds[at].rows > 0 ? 1 : found.count) &&
      attribute.shape == kinds[at].shapes[type] &&
      attribute.value.list_kind == kinds[at].list_kinds[type])
    return 1;
  fprintf(stderr, "%s %s, type %u: shape %u of %u, and not %s of %u\n", kinds[at].way,
          kinds[at].name, type, attribute.shape, attribute.value.list_kind,
          names[kinds[at].shapes[type]], kinds[at].list_kinds[type]);
  return 0;
}

/* The names of types by family, or an empty text. */
enum { MOST_FAMILIES = 64 };
static char called[MOST_FAMILIES][TYPES][48];
static size_t name_count;

static int keep_name(const char *family, unsigned type, const char *name) {
  uint16_t code = family_of(family);
  if (code == 0 || code >= MOST_FAMILIES || type >= TYPES || called[code][type][0] != 0) return 0;
  strcpy(called[code][type], name);
  name_count++;
  return 1;
}

static int has_name(uint16_t family, uint16_t type) {
  char text[48];
  size_t length = linkinfo_attribute_name(family, type, text, sizeof text);
  if (length == strlen(called[family][type]) && strcmp(text, called[family][type]) == 0) return 1;
  fprintf(stderr, "family %u, type %u: '%s', and not '%s'\n", family, type, text,
          called[family][type]);
  return 0;
}

static int have_names(void) {
  int all = name_count > 0;
  for (uint16_t family = 0; family < MOST_FAMILIES; family++)
    for (uint16_t type = 0; type < TYPES; type++)
      if (!has_name(family, type)) all = 0;
  printf("rows: %zu types have their names\n", name_count);
  return all;
}

/* How many kinds and port kinds the library knows by name. */
static size_t known_kinds(void) {
  char text[32];
  size_t known = 0;
  for (unsigned code = 0; code < 65536; code++)
    known += (linkinfo_kind_name((uint16_t)code, text, sizeof text) > 0) +
             (linkinfo_port_kind_name((uint16_t)code, text, sizeof text) > 0);
  return known;
}

int main(void) {
  char way[8], name[32], shape[48];
  unsigned type, seen[SHAPES] = {0};
  size_t rows = 0, lists = 0;
  while (scanf("%7s %31s %u %47s", way, name, &type, shape) == 4) {
    uint16_t number = 0;
    if (strcmp(way, "name") == 0) {
      if (!keep_name(name, type, shape)) return 1;
      continue;
    }
    char *inner = strchr(shape, ':');
    if (inner) *inner++ = 0;
    while (number < SHAPES && strcmp(names[number], shape) != 0) number++;
    size_t at = kind_at(way, name);
    if (number == SHAPES || at == MOST_KINDS || type >= TYPES) return 1;
    kinds[at].shapes[type] = number;
    kinds[at].list_kinds[type] = number == LINKINFO_SHAPE_V4_LIST   ? LINKINFO_LIST_KIND_V4
                                 : number == LINKINFO_SHAPE_V6_LIST ? LINKINFO_LIST_KIND_V6
                                 : inner                            ? kind_of("list", inner)
                                                                    : 0;
    kinds[at].rows += number != LINKINFO_SHAPE_NONE;
    rows += number != LINKINFO_SHAPE_NONE;
    seen[number]++;
  }
  for (size_t at = 0; at < kind_count; at++) lists += strcmp(kinds[at].way, "list") == 0;
  int status = kind_count == known_kinds() + lists ? 0 : 1;
  for (unsigned number = 0; number < SHAPES; number++) {
    if (seen[number] == 0) {
      fprintf(stderr, "shape %s: no rows\n", names[number]);
      status = 1;
    }
  }
  for (size_t at = 0; at < kind_count; at++)
    for (type = 0; type < TYPES; type++)
      if (!has_shape(at, type)) status = 1;
  printf("rows: %zu of %zu kinds, port kinds and lists have their shapes\n", rows, kind_count);
  return have_names() ? status : 1;
}
