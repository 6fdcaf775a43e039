/* Four threads that make every call over the same strings. */
#include "linkinfo.h"
#include "strings.h"
#include <pthread.h>

enum { THREADS = 4, ROUNDS = 200 };

/* Whether the calls of numbers and names have the results that they have in one thread. */
static int names_stand(const struct linkinfo_item *item) {
  char text[32];
  size_t length = linkinfo_port_kind_name(item->port_kind, text, sizeof text);
  if (length > 0 && linkinfo_port_kind_of_name(text, length) != item->port_kind) return 0;
  return linkinfo_family_name(LINKINFO_FAMILY_VXLAN, text, sizeof text) == 5 &&
         strcmp(text, "vxlan") == 0 &&
         linkinfo_cause_name(LINKINFO_CAUSE_ORDER, text, sizeof text) == 5 &&
         strcmp(text, "order") == 0;
}

/* Whether data and port data end where they end in one thread: all strings are accepted. */
static int insides_stand(const uint8_t *bytes, const struct linkinfo_item *item) {
  struct linkinfo_attribute attributes[4];
  uint16_t type = item->raw_type & 0x3fff;
  struct linkinfo_list_result found =
      linkinfo_attributes(bytes + item->place + 4, item->length,
                          type == 2 ? item->kind : item->port_kind, attributes, 4);
  struct linkinfo_valued_attribute values[4];
  struct linkinfo_list_result again =
      linkinfo_values(bytes + item->place + 4, item->length,
                      type == 2 ? item->kind : item->port_kind, values, 4);
  if (again.count != found.count || (found.count > 0 && values[0].shape != attributes[0].shape))
    return 0;
  return (type != 2 && type != 5) ||
         (found.error.cause == 0 &&
          (found.count == 0 || (found.place == item->length && attributes[0].place == 0)));
}

/* Whether the calls over a message with these bytes as its link info have the results that they
 * have in one thread, also where its last byte is missing. */
static int messages_stand(const uint8_t *bytes, size_t length) {
  static const char long_text[] = "message at offset 0: its length ";
  uint8_t message[36 + MOST_BYTES] = {0};
  size_t all = 36 + length;
  const uint8_t header[] = {(uint8_t)(all % 256), (uint8_t)(all / 256), 0, 0, 17},
                attribute[] = {(uint8_t)((4 + length) % 256), (uint8_t)((4 + length) / 256), 18};
  memcpy(message, header, sizeof header);
  memcpy(message + 32, attribute, sizeof attribute);
  memcpy(message + 36, bytes, length);
  struct linkinfo_link link = linkinfo_next_link(message, all, 0),
                       cut = linkinfo_next_link(message, all - 1, 0);
  char text[97];
  return link.status == LINKINFO_LINK_FOUND && link.event == LINKINFO_EVENT_DELETED &&
         link.list_place == 36 && link.list_length == length && link.next == all &&
         linkinfo_next_link(message, all, link.next).status == LINKINFO_LINK_END &&
         cut.status == LINKINFO_LINK_REJECTED &&
         linkinfo_message_error_text(cut.error, cut.place, text, sizeof text) == strlen(text) &&
         strncmp(text, long_text, sizeof long_text - 1) == 0;
}

static void *calls(void *unused) {
  (void)unused;
  struct linkinfo_item items[16];
  char text[37];
  uint8_t canonical[2 * MOST_BYTES];
  for (int round = 0; round < ROUNDS; round++) {
    for (size_t i = 0; i < string_count; i++) {
      const uint8_t *bytes = strings[i].bytes;
      size_t length = strings[i].length;
      struct linkinfo_list_result found = linkinfo_items(bytes, length, items, 16);
      struct linkinfo_error_at placed = linkinfo_check_at(bytes, length - 1);
      if (!linkinfo_first_unmet(bytes, length, bytes, length).met ||
          !linkinfo_first_difference(bytes, length, bytes, length).same ||
          linkinfo_check_inner(bytes, length - 1).place != placed.place ||
          !linkinfo_first_unmet_opaque(bytes, length, bytes, length).met ||
          !linkinfo_first_difference_opaque(bytes, length, bytes, length).same ||
          !linkinfo_next_unmet_opaque(NULL, 0, bytes, length, length).met ||
          !linkinfo_same_opaque(bytes, length, bytes, length).same ||
          linkinfo_check_inner_opaque(bytes, length).error.cause != 0 ||
          linkinfo_canon_opaque(bytes, length, canonical, sizeof canonical).status !=
              LINKINFO_CANON_WRITTEN ||
          linkinfo_check(bytes, length).cause != 0 ||
          !linkinfo_same(bytes, length, bytes, length).same ||
          linkinfo_count(bytes, length).count < found.count || found.count == 0 ||
          linkinfo_next_unmet(NULL, 0, bytes, length, items[found.count - 1].place).want !=
              items[found.count - 1].place ||
          linkinfo_canon(bytes, length, canonical, sizeof canonical).status !=
              LINKINFO_CANON_WRITTEN ||
          linkinfo_kind_name(items[0].kind, text, sizeof text) != strlen(text) ||
          (found.count > 1 &&
           linkinfo_kind_of_name((const char *)bytes + 4, bytes[0] - 5u) != items[1].kind) ||
          (placed.error.cause != 0) != (linkinfo_error_text(placed.error, text, sizeof text) > 0))
        return "a call has another result in a thread";
      if (!messages_stand(bytes, length)) return "a message has another result in a thread";
      for (size_t at = 0; at < found.count; at++)
        if (!names_stand(&items[at]) || !insides_stand(bytes, &items[at]))
          return "a call of names or attributes has another result in a thread";
    }
  }
  return NULL;
}

int main(int count, char **arguments) {
  if (count != 2) return 1;
  read_strings(arguments[1]);
  pthread_t threads[THREADS];
  for (int i = 0; i < THREADS; i++)
    if (pthread_create(&threads[i], NULL, calls, NULL) != 0) return 1;
  int status = 0;
  for (int i = 0; i < THREADS; i++) {
    void *wrong = NULL;
    pthread_join(threads[i], &wrong);
    if (wrong) {
      fprintf(stderr, "%s\n", (const char *)wrong);
      status = 1;
    }
  }
  return status;
}
