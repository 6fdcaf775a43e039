/* The stack that each call takes with 128 nested lists, the maximum. The call runs on a stack that
 * is filled with one byte, and the bytes that it changed are counted. Writes a line for each call,
 * and ends with status 1 where one takes more than MOST bytes. */
#define _GNU_SOURCE
#include "linkinfo.h"
#include <pthread.h>
#include <stdio.h>
#include <string.h>
#include <sys/mman.h>

enum { LISTS = 128, STACK = 1 << 20, FILL = 0x5a, MOST = 40 * 1024 };

/* The data of a macvlan link with nested lists of addresses (IFLA_MACVLAN_MACADDR_DATA, type 5),
 * the innermost empty. */
static uint8_t list[12 + 4 + 4 * LISTS];

static void header(uint8_t *at, size_t length, unsigned type) {
  at[0] = (uint8_t)(length % 256);
  at[1] = (uint8_t)(length / 256);
  at[2] = (uint8_t)type;
  at[3] = 0;
}

static void make_list(void) {
  header(list, 12, 1);
  memcpy(list + 4, "macvlan", 8);
  header(list + 12, sizeof list - 12, 2);
  for (size_t at = 16; at < sizeof list; at += 4) header(list + at, sizeof list - at, 5);
}

static void *nothing(void *wrong) { return wrong; }
static void *check(void *wrong) {
  return linkinfo_check(list, sizeof list).cause == 0 ? NULL : wrong;
}
static void *count(void *wrong) {
  return linkinfo_count(list, sizeof list).count == 2 + LISTS ? NULL : wrong;
}
static void *same(void *wrong) {
  uint8_t padded[sizeof list + 4];
  memcpy(padded, list, sizeof list);
  header(padded + sizeof list, 4, 0);
  struct linkinfo_same_result itself = linkinfo_same(list, sizeof list, list, sizeof list),
                              other = linkinfo_same(list, sizeof list, padded, sizeof padded);
  return itself.same && other.error.cause == 0 && !other.same ? NULL : wrong;
}
static void *first_unmet(void *wrong) {
  uint8_t other[sizeof list];
  memcpy(other, list, sizeof list);
  header(other + sizeof list - 4, 4, 0);
  struct linkinfo_unmet itself = linkinfo_first_unmet(list, sizeof list, list, sizeof list);
  struct linkinfo_unmet deep = linkinfo_first_unmet(list, sizeof list, other, sizeof other);
  return itself.met && deep.rejected == 0 && !deep.met && deep.want == 16 ? NULL : wrong;
}
static void *next_unmet(void *wrong) {
  uint8_t other[sizeof list];
  memcpy(other, list, sizeof list);
  header(other + sizeof list - 4, 4, 0);
  struct linkinfo_unmet deep = linkinfo_next_unmet(list, sizeof list, other, sizeof other, 16);
  struct linkinfo_unmet none = linkinfo_next_unmet(list, sizeof list, other, sizeof other, 17);
  struct linkinfo_unmet opaque =
      linkinfo_next_unmet_opaque(list, sizeof list, other, sizeof other, 16);
  return !deep.met && deep.want == 16 && none.met && !opaque.met && opaque.want == 16 ? NULL
                                                                                       : wrong;
}
static void *difference(void *wrong) {
  uint8_t other[sizeof list];
  memcpy(other, list, sizeof list);
  header(other + sizeof list - 4, 4, 0);
  struct linkinfo_difference itself =
      linkinfo_first_difference(list, sizeof list, list, sizeof list);
  struct linkinfo_difference deep =
      linkinfo_first_difference(list, sizeof list, other, sizeof other);
  return itself.same && deep.rejected == 0 && deep.first == sizeof list - 4 ? NULL : wrong;
}
static void *inner(void *wrong) {
  uint8_t other[sizeof list];
  memcpy(other, list, sizeof list);
  header(other + sizeof list - 4, 4, 4);
  struct linkinfo_inner_error found = linkinfo_check_inner(other, sizeof other);
  return found.error.type == 4 && found.inner == sizeof list - 4 ? NULL : wrong;
}
static void *opaque(void *wrong) {
  uint8_t other[sizeof list], buffer[sizeof list];
  memcpy(other, list, sizeof list);
  header(other + sizeof list - 4, 4, 4);
  return linkinfo_check_inner_opaque(other, sizeof other).inner == sizeof list - 4 &&
                 linkinfo_count_opaque(list, sizeof list).count == 2 + LISTS &&
                 linkinfo_same_opaque(list, sizeof list, other, sizeof other).rejected == 2 &&
                 linkinfo_canon_opaque(list, sizeof list, buffer, sizeof buffer).length ==
                     sizeof list
             ? NULL
             : wrong;
}
static void *opaque_pairs(void *wrong) {
  uint8_t other[sizeof list];
  memcpy(other, list, sizeof list);
  header(other + sizeof list - 4, 4, 0);
  struct linkinfo_difference deep =
      linkinfo_first_difference_opaque(list, sizeof list, other, sizeof other);
  return deep.rejected == 0 && deep.first == sizeof list - 4 &&
                 !linkinfo_first_unmet_opaque(list, sizeof list, other, sizeof other).met
             ? NULL
             : wrong;
}
static void *canon(void *wrong) {
  uint8_t buffer[sizeof list];
  return linkinfo_canon(list, sizeof list, buffer, sizeof buffer).length == sizeof list &&
                 memcmp(buffer, list, sizeof list) == 0
             ? NULL
             : wrong;
}
static void *placed(void *wrong) {
  return linkinfo_check_at(list, sizeof list).error.cause == 0 ? NULL : wrong;
}
static void *items(void *wrong) {
  struct linkinfo_item found[2];
  return linkinfo_items(list, sizeof list, found, 2).count == 2 ? NULL : wrong;
}
static void *attributes(void *wrong) {
  struct linkinfo_attribute found[2];
  return linkinfo_attributes(list + 16, sizeof list - 16, LINKINFO_KIND_MACVLAN, found, 2).count ==
                 1
             ? NULL
             : wrong;
}
static void *values(void *wrong) {
  struct linkinfo_valued_attribute found[2];
  struct linkinfo_list_result all =
      linkinfo_values(list + 16, sizeof list - 16, LINKINFO_KIND_MACVLAN, found, 2);
  struct linkinfo_placed_value deepest = linkinfo_value_at(list, sizeof list, sizeof list - 4);
  return all.count == 1 && found[0].value.value_type == LINKINFO_VALUE_LIST &&
                 deepest.is_found && deepest.attribute.length == 0
             ? NULL
             : wrong;
}
static void *next_link(void *wrong) {
  uint8_t message[36 + sizeof list] = {(uint8_t)((36 + sizeof list) % 256),
                                       (uint8_t)((36 + sizeof list) / 256), 0, 0, 16};
  header(message + 32, 4 + sizeof list, 18);
  memcpy(message + 36, list, sizeof list);
  struct linkinfo_link link = linkinfo_next_link(message, sizeof message, 0);
  char text[97];
  struct linkinfo_message_error error = {SIZE_MAX, 0, LINKINFO_MESSAGE_CAUSE_ATTRIBUTE};
  return link.list_place == 36 && link.list_length == sizeof list &&
                 linkinfo_message_error_text(error, SIZE_MAX, text, sizeof text) == 96
             ? NULL
             : wrong;
}
static void *texts(void *wrong) {
  char text[37];
  struct linkinfo_error error = {LINKINFO_FAMILY_BRIDGEQUERIERSTATE, 65535,
                                 LINKINFO_CAUSE_ADDRESS_KIND};
  return linkinfo_error_text(error, text, sizeof text) == 36 &&
                 linkinfo_family_name(error.family, text, sizeof text) == 18 &&
                 linkinfo_cause_name(error.cause, text, sizeof text) == 11 &&
                 linkinfo_attribute_name(LINKINFO_FAMILY_XFRM, 1, text, sizeof text) == 14 &&
                 linkinfo_attribute_use(error.family, 1) == LINKINFO_USE_READ_ONLY &&
                 linkinfo_error_message(error, 0, text, sizeof text) > sizeof text
             ? NULL
             : wrong;
}
static void *names(void *wrong) {
  char text[32];
  return linkinfo_kind_name(LINKINFO_KIND_IP6ERSPAN, text, sizeof text) == 9 &&
                 linkinfo_kind_of_name("ip6erspan", 9) == LINKINFO_KIND_IP6ERSPAN &&
                 linkinfo_port_kind_name(LINKINFO_PORT_KIND_BRIDGE, text, sizeof text) == 6 &&
                 linkinfo_port_kind_of_name("bridge", 6) == LINKINFO_PORT_KIND_BRIDGE
             ? NULL
             : wrong;
}

/* The bytes that a call changed of its thread's stack, or 0 where its result was wrong. */
static size_t stack_of(void *(*call)(void *)) {
  static uint8_t wrong;
  uint8_t *stack = mmap(NULL, STACK, PROT_READ | PROT_WRITE, MAP_PRIVATE | MAP_ANONYMOUS, -1, 0);
  if (stack == MAP_FAILED) return 0;
  memset(stack, FILL, STACK);
  pthread_attr_t attributes;
  pthread_t thread;
  void *result = &wrong;
  if (pthread_attr_init(&attributes) == 0 &&
      pthread_attr_setstack(&attributes, stack, STACK) == 0 &&
      pthread_create(&thread, &attributes, call, &wrong) == 0)
    pthread_join(thread, &result);
  size_t left = 0;
  while (left < STACK && stack[left] == FILL) left++;
  munmap(stack, STACK);
  return result == NULL || call == nothing ? STACK - left : 0;
}

int main(void) {
  const struct {
    const char *name;
    void *(*call)(void *);
  } calls[] = {{"check", check},
               {"same", same},
               {"first_unmet", first_unmet},
               {"next_unmet, _next_unmet_opaque", next_unmet},
               {"first_difference", difference},
               {"check_inner", inner},
               {"count", count},
               {"canon", canon},
               {"check_inner_opaque, _count_opaque, _same_opaque, _canon_opaque", opaque},
               {"first_difference_opaque, _first_unmet_opaque", opaque_pairs},
               {"check_at", placed},
               {"items", items},
               {"attributes", attributes},
               {"values, _value_at", values},
               {"next_link, _message_error_text", next_link},
               {"error_text, _error_message, _family_name, _cause_name, _attribute_name", texts},
               {"kind_name, _kind_of_name, _port_kind_name, _port_kind_of_name", names}};
  int status = 0;
  make_list();
  size_t thread = stack_of(nothing);
  for (size_t i = 0; i < sizeof calls / sizeof *calls; i++) {
    size_t taken = stack_of(calls[i].call);
    printf("linkinfo_%s: %zu bytes of stack\n", calls[i].name, taken == 0 ? 0 : taken - thread);
    if (taken == 0 || taken - thread > MOST) status = 1;
  }
  return status;
}
