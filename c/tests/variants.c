/* Writes lines for the program linkinfo_tool and for lines.c: each string of a file, each prefix
 * of it, each with one bit of one byte flipped, and each pair. */
#include "strings.h"

static void hex(const struct string *string) {
  if (string->length == 0) printf("-");
  for (size_t i = 0; i < string->length; i++) printf("%02x", string->bytes[i]);
}

static void line(const char *command, const struct string *string) {
  printf("%s ", command);
  hex(string);
  printf("\n");
}

static void check(const struct string *string) {
  line("check", string);
  line("canon", string);
}

int main(int count, char **arguments) {
  if (count != 2) return 1;
  read_strings(arguments[1]);
  for (size_t i = 0; i < string_count; i++) {
    struct string variant = strings[i];
    for (; variant.length > 0; variant.length--) check(&variant);
    check(&variant);
    variant = strings[i];
    for (size_t place = 0; place < variant.length; place++) {
      for (int bit = 1; bit < 256; bit *= place < 64 ? 2 : 16) {
        variant.bytes[place] ^= (uint8_t)bit;
        check(&variant);
        printf("same ");
        hex(&strings[i]);
        printf(" ");
        hex(&variant);
        printf("\n");
        variant.bytes[place] ^= (uint8_t)bit;
      }
    }
    for (size_t j = 0; j < string_count; j++) {
      printf("same ");
      hex(&strings[i]);
      printf(" ");
      hex(&strings[j]);
      printf("\n");
    }
  }
  return 0;
}
