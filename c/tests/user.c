/* What a user of the installed library writes, as C90, C11 and C++17: the example of linkinfo.h,
 * which c/test copies to example.h, and calls that check, compare, list, and find messages. */
#include "example.h"
#include <linux/if_link.h>
#include <linux/netlink.h>
#include <linux/rtnetlink.h>
#include <string.h>

/* vxlan with the VNI 42, a request for the VNI 43, and a header that is too short */
static const uint8_t vxlan[] = {10, 0, 1, 0, 'v', 'x', 'l', 'a', 'n', 0, 0, 0,
                                12, 0, 2, 0, 8,   0,   1,   0,   42,  0, 0, 0};
static const uint8_t request[] = {10, 0, 1, 0, 'v', 'x', 'l', 'a', 'n', 0, 0, 0,
                                  12, 0, 2, 0, 8,   0,   1,   0,   43,  0, 0, 0};
static const uint8_t wrong[] = {3, 0, 1, 0};

static int checks(void) {
  struct linkinfo_error_at at = linkinfo_check_at(wrong, sizeof wrong);
  return linkinfo_check(vxlan, sizeof vxlan).cause == LINKINFO_CAUSE_NONE &&
         at.error.cause == LINKINFO_CAUSE_HEADER && at.place == 0;
}

static int compares(void) {
  struct linkinfo_same_result same = linkinfo_same(vxlan, sizeof vxlan, request, sizeof request);
  return !same.same && same.rejected == 0 &&
         has_all(vxlan, sizeof vxlan, vxlan, sizeof vxlan) == 1 &&
         has_all(vxlan, sizeof vxlan, request, sizeof request) == 0 &&
         has_all(vxlan, sizeof vxlan, wrong, sizeof wrong) == -1;
}

static int lists(void) {
  struct linkinfo_item items[2];
  struct linkinfo_valued_attribute values[2];
  struct linkinfo_list_result found = linkinfo_items(vxlan, sizeof vxlan, items, 2);
  if (found.count != 2 || (items[1].raw_type & NLA_TYPE_MASK) != IFLA_INFO_DATA) return 0;
  found = linkinfo_values(vxlan + items[1].place + NLA_HDRLEN, items[1].length, items[1].kind,
                          values, 2);
  return found.count == 1 && values[0].raw_type == IFLA_VXLAN_ID &&
         values[0].value.value_type == LINKINFO_VALUE_NUMBER && values[0].value.number == 42;
}

/* An RTM_NEWLINK of 56 bytes: index 7, IFF_UP, the name "a", and the kind vxlan */
static const uint8_t event[] = {
    56, 0, 0,  0, RTM_NEWLINK, 0, 0, 0, 0,   0,   0,   0,   0,   0, 0, 0,
    0,  0, 1,  0, 7,           0, 0, 0, 1,   0,   0,   0,   0,   0, 0, 0,
    6,  0, 3,  0, 'a',         0, 0, 0, 14,  0,   18,  0,   10,  0, 1, 0,
    'v', 'x', 'l', 'a', 'n',   0, 0, 0};

static int messages(void) {
  struct linkinfo_link link = linkinfo_next_link(event, sizeof event, 0);
  struct linkinfo_item items[1];
  if (link.status != LINKINFO_LINK_FOUND || link.event != LINKINFO_EVENT_NEW || link.index != 7 ||
      link.name_length != 1 || event[link.name_place] != 'a' || !link.has_list)
    return 0;
  return linkinfo_items(event + link.list_place, link.list_length, items, 1).count == 1 &&
         items[0].length == sizeof "vxlan" && items[0].raw_type == IFLA_INFO_KIND &&
         linkinfo_next_link(event, sizeof event, link.next).status == LINKINFO_LINK_END;
}

int main(void) {
  if (strcmp(linkinfo_version(), LINKINFO_VERSION_STRING) != 0) return 1;
  if (!checks()) return 2;
  if (!compares()) return 3;
  if (!lists()) return 4;
  if (!messages()) return 5;
  return 0;
}
