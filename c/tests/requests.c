/* requests STRINGS REPLIES REQUESTS: whether a kernel's replies meet requests, compared with the
 * lines of requests.txt. STRINGS is kernel.txt, REPLIES a file of gate/kernel/replies-*. */
#include "linkinfo.h"
#include "strings.h"

enum { MOST_EXCHANGES = 1024 };

/* The replies of REPLIES, named `LINK create` and `LINK change N`, and what was sent for each. */
static struct string replies[MOST_EXCHANGES], sent[MOST_EXCHANGES];
static size_t exchange_count;

/* Reads the requests that a kernel accepted. A rejected one is counted, so that the names have the
 * numbers of the lines. */
static void read_exchanges(const char *path) {
  static char line[5 * MOST_BYTES], request[2 * MOST_BYTES + 1], reply[2 * MOST_BYTES + 1];
  char link[16], verb[16];
  unsigned number = 0;
  FILE *file = fopen(path, "r");
  while (file && fgets(line, sizeof line, file) && exchange_count < MOST_EXCHANGES) {
    struct string *next = &replies[exchange_count];
    if (sscanf(line, "%15s %15s %8192s %8192s", link, verb, request, reply) != 4) continue;
    int is_change = strcmp(verb, "change") == 0;
    if (!is_change && strcmp(verb, "create") != 0) continue;
    number = is_change ? number + 1 : 0;
    if (reply[0] == 'E') continue;
    if (!from_hex(request, &sent[exchange_count]) || !from_hex(reply, next)) continue;
    if (is_change) snprintf(next->name, sizeof next->name, "%s change %u", link, number);
    else snprintf(next->name, sizeof next->name, "%s create", link);
    exchange_count++;
  }
  if (file) fclose(file);
}

/* The string of a name; none is NULL. */
static const struct string *find(const struct string *all, size_t count, const char *name,
                                 size_t length) {
  for (size_t i = 0; i < count; i++)
    if (strlen(all[i].name) == length && memcmp(all[i].name, name, length) == 0) return &all[i];
  return NULL;
}

/* A result in the form of a line of the file. */
static void write_result(const struct linkinfo_unmet *unmet, char *text, size_t length) {
  char name[37], have[32] = "-";
  if (unmet->rejected != 0) {
    linkinfo_error_text(unmet->error, name, sizeof name);
    snprintf(text, length, "error %u %s", (unsigned)unmet->rejected, name);
  } else if (unmet->met) {
    snprintf(text, length, "met");
  } else {
    linkinfo_family_name(unmet->family, name, sizeof name);
    if (unmet->is_present) snprintf(have, sizeof have, "%zu", unmet->have);
    snprintf(text, length, "%s %u %zu %s", name, (unsigned)unmet->type, unmet->want, have);
  }
}

/* Whether a request meets itself, and its canonical encoding meets it and is met by it. */
static int is_met_by_itself(const struct string *request) {
  static uint8_t canonical[2 * MOST_BYTES];
  const uint8_t *bytes = request->bytes;
  size_t length = request->length;
  struct linkinfo_canon_result canon = linkinfo_canon(bytes, length, canonical, sizeof canonical);
  if (canon.status == LINKINFO_CANON_REFUSED) return 1;
  return linkinfo_first_unmet(bytes, length, bytes, length).met &&
         linkinfo_first_unmet(canonical, canon.length, bytes, length).met &&
         linkinfo_first_unmet(bytes, length, canonical, canon.length).met;
}

/* Whether the library returns the result of a line for a reply and a request. */
static int is_result(const struct string *reply, const struct string *request,
                     const char *expected) {
  char result[64];
  struct linkinfo_unmet unmet = linkinfo_first_unmet(reply->bytes, reply->length, request->bytes,
                                                     request->length);
  write_result(&unmet, result, sizeof result);
  if (strcmp(result, expected) == 0) return is_met_by_itself(request);
  fprintf(stderr, "%s: %s, and not %s\n", reply->name, result, expected);
  return 0;
}

/* A line: the name of a reply, a request, and the expected result. */
static int is_as_expected(char *line) {
  static struct string request;
  char *second = strchr(line, '\t'), *third = second ? strchr(second + 1, '\t') : NULL;
  if (!third) return 0;
  size_t length = (size_t)(second++ - line);
  third[strcspn(third, "\n")] = 0;
  const struct string *reply = find(strings, string_count, line, length);
  if (reply) {
    /* a kernel returns all defaults, and no request here has all of them */
    return from_hex(second, &request) && is_result(reply, &request, third + 1) &&
           !linkinfo_same(reply->bytes, reply->length, request.bytes, request.length).same;
  }
  reply = find(replies, exchange_count, line, length);
  const struct string *named = find(replies, exchange_count, second, (size_t)(third - second));
  if (!reply || !named) return 0;
  const struct string *asked = &sent[named - replies];
  /* both are canonical: they are equivalent where they are equal */
  int is_equal = reply->length == asked->length &&
                 memcmp(reply->bytes, asked->bytes, asked->length) == 0;
  return is_result(reply, asked, third + 1) &&
         is_equal ==
             linkinfo_same(reply->bytes, reply->length, asked->bytes, asked->length).same;
}

int main(int count, char **arguments) {
  static char line[4 * MOST_BYTES];
  if (count != 4) return 1;
  read_strings(arguments[1]);
  read_exchanges(arguments[2]);
  FILE *file = fopen(arguments[3], "r");
  if (!file) return 1;
  size_t lines = 0;
  int status = 0;
  while (fgets(line, sizeof line, file)) {
    if (line[0] == '#') continue;
    lines++;
    if (!is_as_expected(line)) {
      fprintf(stderr, "%s: line %zu of the requests\n", arguments[3], lines);
      status = 1;
    }
  }
  fclose(file);
  printf("requests: %zu, compared with a kernel's replies\n", lines);
  return lines > 0 ? status : 1;
}
