/* lines [opaque]: writes the output of the program linkinfo_tool for lines `check HEX`, `canon HEX`
 * and `same HEX HEX`, by the C library; of `count HEX` the number of headers. With `opaque`, it is
 * that of the calls that end so, which the program makes. */
#include "linkinfo.h"
#include "strings.h"

static int is_opaque;

static struct linkinfo_error check(const struct string *string) {
  return is_opaque ? linkinfo_check_inner_opaque(string->bytes, string->length).error
                   : linkinfo_check(string->bytes, string->length);
}

static void write_result(struct linkinfo_error error, const char *accepted) {
  char text[64];
  if (error.cause == LINKINFO_CAUSE_NONE) {
    puts(accepted);
  } else {
    linkinfo_error_text(error, text, sizeof text);
    printf("err %s\n", text);
  }
}

static void write_canon(const struct string *string) {
  static uint8_t buffer[2 * MOST_BYTES];
  struct linkinfo_canon_result canon =
      is_opaque ? linkinfo_canon_opaque(string->bytes, string->length, buffer, sizeof buffer)
                : linkinfo_canon(string->bytes, string->length, buffer, sizeof buffer);
  static char hex[4 * MOST_BYTES + 1] = "-";
  for (size_t i = 0; i < canon.length; i++) sprintf(hex + 2 * i, "%02x", buffer[i]);
  if (canon.length == 0) strcpy(hex, "-");
  write_result(canon.error, canon.status == LINKINFO_CANON_UNFIT ? "unfit" : hex);
}

static int write_same(const struct string *a, const struct string *b) {
  struct linkinfo_same_result same =
      is_opaque ? linkinfo_same_opaque(a->bytes, a->length, b->bytes, b->length)
                : linkinfo_same(a->bytes, a->length, b->bytes, b->length);
  uint32_t rejected = check(a).cause ? 1 : 2;
  write_result(same.error, same.same ? "true" : "false");
  return same.rejected == (same.error.cause ? rejected : 0);
}

int main(int count, char **arguments) {
  static char line[6 * MOST_BYTES];
  static struct string a, b;
  is_opaque = count > 1 && strcmp(arguments[1], "opaque") == 0;
  while (fgets(line, sizeof line, stdin)) {
    const char *first = strchr(line, ' ');
    const char *second = first ? strchr(first + 1, ' ') : NULL;
    if (!first || !from_hex(first + 1, &a) || (second && !from_hex(second + 1, &b))) return 1;
    if (second) {
      if (!write_same(&a, &b)) return 1;
    } else if (strncmp(line, "canon", 5) == 0) {
      write_canon(&a);
    } else if (strncmp(line, "count", 5) == 0) {
      printf("%zu\n", linkinfo_count(a.bytes, a.length).count);
    } else {
      write_result(check(&a), "ok");
    }
  }
  return 0;
}
