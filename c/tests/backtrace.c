/* A backtrace passes the library: each call reads a page that cannot be read, and from the handler
 * of the signal a backtrace finds the function that called it. */
#define _GNU_SOURCE
#include "linkinfo.h"
#include <execinfo.h>
#include <setjmp.h>
#include <signal.h>
#include <stdio.h>
#include <sys/mman.h>

/* The functions below are in a section of their own, whose ends the linker defines. */
#define CALLER __attribute__((noinline, section("callers")))
extern const char __start_callers[], __stop_callers[];

enum { PAGE = 4096, MOST = 64 };

static sigjmp_buf back;
static volatile sig_atomic_t found;

static void handler(int signal_number) {
  void *frames[MOST];
  (void)signal_number;
  int count = backtrace(frames, MOST);
  for (int i = 0; i < count; i++) {
    const char *frame = frames[i];
    if (__start_callers <= frame && frame < __stop_callers) found = 1;
  }
  siglongjmp(back, 1);
}

static uint8_t room[PAGE];
static struct linkinfo_item items[8];
static struct linkinfo_valued_attribute values[8];
static volatile size_t sink;

CALLER static void check(const uint8_t *page) { sink += linkinfo_check(page, PAGE).cause; }
CALLER static void check_inner(const uint8_t *page) {
  sink += linkinfo_check_inner(page, PAGE).inner;
}
CALLER static void same(const uint8_t *page) { sink += linkinfo_same(page, PAGE, room, 0).same; }
CALLER static void unmet(const uint8_t *page) {
  sink += linkinfo_first_unmet(room, 0, page, PAGE).met;
}
CALLER static void next_unmet(const uint8_t *page) {
  sink += linkinfo_next_unmet(room, 0, page, PAGE, 1).met;
}
CALLER static void difference(const uint8_t *page) {
  sink += linkinfo_first_difference(room, 0, page, PAGE).same;
}
CALLER static void canon(const uint8_t *page) {
  sink += linkinfo_canon(page, PAGE, room, PAGE).length;
}
CALLER static void count(const uint8_t *page) { sink += linkinfo_count(page, PAGE).count; }
CALLER static void list(const uint8_t *page) { sink += linkinfo_items(page, PAGE, items, 8).count; }
CALLER static void value(const uint8_t *page) {
  sink += linkinfo_values(page, PAGE, LINKINFO_KIND_VXLAN, values, 8).count;
}
CALLER static void message(const uint8_t *page) { sink += linkinfo_next_link(page, PAGE, 0).next; }

int main(void) {
  static void (*const calls[])(const uint8_t *) = {check, check_inner, same, unmet,
                                                   next_unmet, difference, canon, count,
                                                   list, value, message};
  uint8_t *page = mmap(NULL, PAGE, PROT_NONE, MAP_PRIVATE | MAP_ANONYMOUS, -1, 0);
  if (page == MAP_FAILED || signal(SIGSEGV, handler) == SIG_ERR) return 1;
  for (volatile size_t i = 0; i < sizeof calls / sizeof *calls; i++) {
    found = -1;
    if (sigsetjmp(back, 1) == 0) {
      found = 0;
      calls[i](page);
      return 2;
    }
    if (found != 1) {
      fprintf(stderr, "backtrace: call %zu: the backtrace ends in the library\n", i);
      return 3;
    }
  }
  return 0;
}
