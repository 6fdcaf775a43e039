/* The strings of kernel.txt: lines of a name, a tab and bytes in hex; lines that begin with # are
 * none. */
#ifndef STRINGS_H
#define STRINGS_H
#include <stdint.h>
#include <stdio.h>
#include <stdlib.h>
#include <string.h>

enum { MOST_STRINGS = 64, MOST_BYTES = 4096 };

struct string {
  char name[32];
  uint8_t bytes[MOST_BYTES];
  size_t length;
};

static struct string strings[MOST_STRINGS];
static size_t string_count;

static int nibble(char c) {
  return c >= '0' && c <= '9' ? c - '0' : c >= 'a' && c <= 'f' ? c - 'a' + 10 : -1;
}

/* The bytes of hex digits up to a character that is none; false where their number is odd or too
 * large. */
static int from_hex(const char *text, struct string *string) {
  string->length = 0;
  while (nibble(text[0]) >= 0) {
    if (nibble(text[1]) < 0 || string->length == MOST_BYTES) return 0;
    string->bytes[string->length++] = (uint8_t)(nibble(text[0]) * 16 + nibble(text[1]));
    text += 2;
  }
  return 1;
}

static inline void read_strings(const char *path) {
  static char line[4 * MOST_BYTES];
  FILE *file = fopen(path, "r");
  if (!file) {
    perror(path);
    exit(1);
  }
  while (fgets(line, sizeof line, file)) {
    const char *tab = strchr(line, '\t');
    if (line[0] == '#' || !tab) continue;
    if (string_count == MOST_STRINGS || !from_hex(tab + 1, &strings[string_count])) {
      fprintf(stderr, "%s: a line is no string\n", path);
      exit(1);
    }
    snprintf(strings[string_count].name, sizeof strings->name, "%.*s", (int)(tab - line), line);
    string_count++;
  }
  fclose(file);
}
#endif
