/* The next link message by the rules of the kernel's headers: the lengths of linux/netlink.h and
 * linux/rtnetlink.h, and the attributes of linux/if_link.h. */
#ifndef MESSAGES_H
#define MESSAGES_H
#include "linkinfo.h"
#include <linux/if_link.h>
#include <linux/netlink.h>
#include <linux/rtnetlink.h>
#include <string.h>

/* The attributes of a link message from an offset on, up to its end; false where one has no
 * accepted header, which is at the offset `place` of the error then. */
static inline int attributes_by_rules(const uint8_t *bytes, size_t at, size_t end,
                                      struct linkinfo_link *link) {
  while (at < end) {
    struct nlattr header;
    if (end - at >= sizeof header) memcpy(&header, bytes + at, sizeof header);
    if (end - at < sizeof header || header.nla_len < sizeof header || header.nla_len > end - at) {
      link->error.place = at;
      return 0;
    }
    size_t payload = at + sizeof header, length = header.nla_len - sizeof header;
    if ((header.nla_type & NLA_TYPE_MASK) == IFLA_IFNAME) {
      link->has_name = true;
      link->name_place = payload;
      link->name_length = length > 0 && bytes[payload + length - 1] == 0 ? length - 1 : length;
    } else if ((header.nla_type & NLA_TYPE_MASK) == IFLA_LINKINFO) {
      link->has_list = true;
      link->list_place = payload;
      link->list_length = length;
    }
    size_t taken = NLA_ALIGN(header.nla_len);
    at = taken < end - at ? at + taken : end;
  }
  return 1;
}

static inline struct linkinfo_link rejected_by_rules(size_t place, size_t next, uint32_t cause,
                                                     size_t at, uint32_t length) {
  struct linkinfo_link link;
  memset(&link, 0, sizeof link);
  link.status = LINKINFO_LINK_REJECTED;
  link.place = place;
  link.next = next;
  link.error.cause = cause;
  link.error.place = at;
  link.error.length = length;
  return link;
}

static inline struct linkinfo_link next_by_rules(const uint8_t *bytes, size_t length, size_t at) {
  struct linkinfo_link link;
  while (at < length) {
    size_t left = length - at, place = at;
    struct nlmsghdr header;
    if (left < sizeof header)
      return rejected_by_rules(place, length, LINKINFO_MESSAGE_CAUSE_HEADER, place, 0);
    memcpy(&header, bytes + at, sizeof header);
    if (header.nlmsg_len < sizeof header)
      return rejected_by_rules(place, length, LINKINFO_MESSAGE_CAUSE_SHORT, place,
                               header.nlmsg_len);
    if (header.nlmsg_len > left)
      return rejected_by_rules(place, length, LINKINFO_MESSAGE_CAUSE_LONG, place,
                               header.nlmsg_len);
    size_t taken = ((size_t)header.nlmsg_len + 3) / 4 * 4;
    at = taken < left ? at + taken : length;
    if (header.nlmsg_type != RTM_NEWLINK && header.nlmsg_type != RTM_DELLINK) continue;
    struct ifinfomsg info;
    if (header.nlmsg_len - sizeof header < sizeof info)
      return rejected_by_rules(place, length, LINKINFO_MESSAGE_CAUSE_LINK_HEADER, place,
                               header.nlmsg_len);
    memcpy(&info, bytes + place + sizeof header, sizeof info);
    memset(&link, 0, sizeof link);
    link.status = LINKINFO_LINK_FOUND;
    link.event =
        header.nlmsg_type == RTM_NEWLINK ? LINKINFO_EVENT_NEW : LINKINFO_EVENT_DELETED;
    link.place = place;
    link.next = at;
    link.index = info.ifi_index;
    link.flags = info.ifi_flags;
    if (!attributes_by_rules(bytes, place + sizeof header + sizeof info,
                             place + header.nlmsg_len, &link))
      return rejected_by_rules(place, length, LINKINFO_MESSAGE_CAUSE_ATTRIBUTE, link.error.place,
                               0);
    return link;
  }
  memset(&link, 0, sizeof link);
  link.next = length;
  return link;
}

static inline int equal_links(const struct linkinfo_link *a, const struct linkinfo_link *b) {
  return a->error.place == b->error.place && a->error.length == b->error.length &&
         a->error.cause == b->error.cause && a->place == b->place && a->next == b->next &&
         a->name_place == b->name_place && a->name_length == b->name_length &&
         a->list_place == b->list_place && a->list_length == b->list_length &&
         a->index == b->index && a->flags == b->flags && a->status == b->status &&
         a->event == b->event && a->has_name == b->has_name && a->has_list == b->has_list;
}
#endif
