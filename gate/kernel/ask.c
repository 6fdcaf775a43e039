/* ask: the one program of the booted guest, its init. It loads the modules of /modules, requests
 * each link of /requests of the kernel, writes a line for each reply, and powers the machine off.
 *
 * A line is `reply NAME VERB SENT REPLY`: the contents of IFLA_LINKINFO that were sent, and those
 * of the link afterwards, or the name of the error. The verbs:
 *   create  the request of the list
 *   later   nothing is sent; the link once more, a second after its first reply
 *   change  a change, a request to the existing link; a line for each
 *   whole   the canonical form of the first reply in a request for a second link, made after the
 *           first was deleted; only where it is not what `again` sends
 *   again   that form without the attributes that the exceptions call rejected, and with those that
 *           they call required
 *   with    what `again` sends, and one of the rejected attributes; a line for each
 */
#include "devices.h"
#include <linux/if_link.h>
#include <linux/rtnetlink.h>
#include <sys/reboot.h>
#include <sys/socket.h>
#include <sys/syscall.h>
#include <sys/utsname.h>

/* The lower links of other links: dummies that are up, with fixed indices and addresses, so that
 * requests can name them. The same of members, the ports of a link that needs some. */
enum { LOWER = 101, LOWER_COUNT = 3, MEMBER = 111, MEMBER_COUNT = 2 };

/* The milliseconds until a master has been notified that its port is up, and a bond in the mode
 * 802.3ad, which looks at its ports each 100 milliseconds, has looked at it. */
enum { SETTLED = 250 };

static int sock;

/* The body of a message, from struct ifinfomsg on. */
static struct list message(const struct ifinfomsg *head, const char *name) {
  struct list body = {0};
  append(&body, head, sizeof *head);
  if (name) append_attribute(&body, IFLA_IFNAME, name, strlen(name) + 1);
  return body;
}

/* The head of a request, which also brings the link up where `is_up`. */
static struct ifinfomsg head_of(bool is_up) {
  return is_up ? (struct ifinfomsg){.ifi_flags = IFF_UP, .ifi_change = IFF_UP}
               : (struct ifinfomsg){0};
}

/* A hardware address, so that replies do not depend on a random one. */
static void append_address(struct list *body, uint8_t number) {
  const uint8_t address[6] = {2, 0, 0, 0, 1, number};
  append_attribute(body, IFLA_ADDRESS, address, sizeof address);
}

static void append_number(struct list *body, uint16_t type, uint32_t number) {
  append_attribute(body, type, &number, sizeof number);
}

/* Sends a message and receives the first one that replies to it: its type, its body in `body`. */
static uint16_t exchange(uint16_t type, uint16_t flags, struct list *body) {
  static uint8_t buffer[1 << 16];
  struct nlmsghdr header = {(uint32_t)(sizeof header + body->length), type, flags, 1, 0};
  memcpy(buffer, &header, sizeof header);
  memcpy(buffer + sizeof header, body->bytes, body->length);
  if (send(sock, buffer, header.nlmsg_len, 0) < 0) stop("send: %s", strerror(errno));
  ssize_t length = recv(sock, buffer, sizeof buffer, 0);
  if (length < (ssize_t)sizeof header) stop("recv: %s", strerror(errno));
  memcpy(&header, buffer, sizeof header);
  body->length = 0;
  append(body, buffer + sizeof header, header.nlmsg_len - sizeof header);
  return header.nlmsg_type;
}

/* Prints the message of the kernel's extended acknowledgement, if there is one. */
static void print_reason(const struct list *body) {
  struct list attributes = {0};
  struct attribute text;
  append(&attributes, body->bytes + sizeof(struct nlmsgerr),
         body->length - sizeof(struct nlmsgerr));
  if (last_of_type(&attributes, NLMSGERR_ATTR_MSG, &text)) {
    printf(" (%.*s)", (int)text.length - 1, (const char *)text.payload);
  }
}

/* Sends a request, and returns the error, or 0. The body is then the kernel's reply. */
static int ask(uint16_t type, uint16_t flags, struct list *body) {
  struct nlmsgerr error;
  if (exchange(type, NLM_F_REQUEST | NLM_F_ACK | flags, body) != NLMSG_ERROR) stop("no reply");
  memcpy(&error, body->bytes, sizeof error);
  return -error.error;
}

/* The contents of IFLA_LINKINFO of a link. */
static bool link_info(const char *name, struct list *info) {
  struct list body = message(&(struct ifinfomsg){0}, name), attributes = {0};
  struct attribute found;
  info->length = 0;
  if (exchange(RTM_GETLINK, NLM_F_REQUEST, &body) != RTM_NEWLINK) return false;
  append(&attributes, body.bytes + sizeof(struct ifinfomsg),
         body.length - sizeof(struct ifinfomsg));
  if (last_of_type(&attributes, IFLA_LINKINFO, &found)) *info = payload_of(&found);
  return true;
}

static void delete_link(const char *name) {
  struct list body = message(&(struct ifinfomsg){0}, name);
  ask(RTM_DELLINK, 0, &body);
}

static void print_hex(const struct list *list) {
  if (list->length == 0) putchar('-');
  for (size_t at = 0; at < list->length; at++) printf("%02x", list->bytes[at]);
}

/* Writes the line of a reply, and returns whether the kernel accepted what was sent. */
static bool report(const char *name, const char *verb, const struct list *sent, int error,
                   const struct list *body, struct list *reply) {
  printf("reply %s %s ", name, verb);
  print_hex(sent);
  putchar(' ');
  if (error) {
    fputs(strerrorname_np(error), stdout);
    print_reason(body);
  } else if (link_info(name, reply)) {
    print_hex(reply);
  } else {
    fputs("ENODEV", stdout);
  }
  putchar('\n');
  return !error;
}

/* What follows a need of a link, as "port=", or NULL. Such a need is its last one. */
static const char *value_of(const struct request *request, const char *need) {
  const char *found = strstr(request->needs, need);
  return found ? found + strlen(need) : NULL;
}

/* The name of the link of which a port is needed, or NULL. */
static const char *master_of(const struct request *request) { return value_of(request, "port="); }

/* The sort of a link that no request makes, or NULL. */
static const char *sort_of(const struct request *request) { return value_of(request, "made="); }

/* Sends a request that no line reports. */
static void prepare(const char *name, uint16_t flags, struct list *body) {
  int error = ask(RTM_NEWLINK, flags, body);
  if (error) printf("%s: %s\n", name, strerror(error));
}

/* A request for a dummy of a name and an address of that number. */
static struct list dummy(const struct ifinfomsg *head, const char *name, uint8_t number) {
  struct list body = message(head, name), info = {0};
  append_address(&body, number);
  append_attribute(&info, KIND, "dummy", sizeof "dummy");
  append_attribute(&body, IFLA_LINKINFO, info.bytes, info.length);
  return body;
}

/* Makes dummies from an index on, named after it. */
static void make_dummies(const char *name, int first, int count, bool is_up) {
  struct ifinfomsg head = head_of(is_up);
  for (head.ifi_index = first; head.ifi_index < first + count; head.ifi_index++) {
    char numbered[WORD];
    snprintf(numbered, sizeof numbered, "%s%d", name, head.ifi_index);
    struct list body = dummy(&head, numbered, (uint8_t)head.ifi_index);
    prepare(numbered, NLM_F_CREATE | NLM_F_EXCL, &body);
  }
}

/* Makes the members ports of a link. */
static void join_members(const char *master) {
  for (int index = MEMBER; index < MEMBER + MEMBER_COUNT; index++) {
    struct list body = message(&(struct ifinfomsg){.ifi_index = index}, NULL);
    append_number(&body, IFLA_MASTER, if_nametoindex(master));
    prepare(master, 0, &body);
  }
  wait_for(SETTLED);
}

/* The request that makes a link; none is NULL. */
static const struct request *request_of(const char *name) {
  for (struct request *each = requests; each < requests + request_count; each++) {
    if (is_line_of(each, "create", name)) return each;
  }
  return NULL;
}

/* Creates the master of a port by its request, with members where the port needs them, and the
 * port, a dummy. The master and the port are up. */
static void make_port(const struct request *port, const char *master) {
  const struct request *request = request_of(master);
  struct ifinfomsg up = head_of(true), as_is = head_of(false);
  if (!request) stop("no request for %s", master);
  struct list body = message(&up, master);
  append_attribute(&body, IFLA_LINKINFO, request->list.bytes, request->list.length);
  prepare(master, NLM_F_CREATE | NLM_F_EXCL, &body);
  if (strstr(port->needs, "members")) join_members(master);
  body = dummy(&as_is, port->name, 0);
  append_number(&body, IFLA_MASTER, if_nametoindex(master));
  prepare(port->name, NLM_F_CREATE | NLM_F_EXCL, &body);
  body = message(&up, port->name);
  prepare(port->name, 0, &body);
  wait_for(SETTLED);
}

/* Makes a link that no request makes, and gives it its name. */
static void make_named_device(const char *sort, const char *name) {
  const char *made = make_device(sort, name);
  struct list body = message(&(struct ifinfomsg){.ifi_index = (int)if_nametoindex(made)}, name);
  prepare(name, 0, &body);
}

/* Makes what a request needs, and returns whether its link is there then. Port data is for a link
 * that has a master. */
static bool make_needs(const struct request *request) {
  const char *master = master_of(request), *sort = sort_of(request);
  if (strstr(request->needs, "members")) make_dummies("member", MEMBER, MEMBER_COUNT, false);
  if (master) make_port(request, master);
  if (sort) make_named_device(sort, request->name);
  return master || sort;
}

/* Requests a link, and reports the reply. Nothing is sent where the list is empty. */
static bool create(const struct request *request, const char *verb, const struct list *info,
                   struct list *reply) {
  bool is_there = make_needs(request);
  struct ifinfomsg head = head_of(strstr(request->needs, "later"));
  struct list body = message(&head, request->name);
  if (strstr(request->needs, "parent")) append_number(&body, IFLA_LINK, LOWER);
  append_attribute(&body, IFLA_LINKINFO, info->bytes, info->length);
  int flags = is_there ? 0 : NLM_F_CREATE | NLM_F_EXCL;
  int error = info->length ? ask(RTM_NEWLINK, (uint16_t)flags, &body) : 0;
  if (!is_there && strstr(request->needs, "members")) join_members(request->name);
  return report(request->name, verb, info, error, &body, reply);
}

static void delete(const struct request *request) {
  const char *master = master_of(request), *sort = sort_of(request);
  if (sort) remove_device(sort, request->name);
  else delete_link(request->name);
  if (master) delete_link(master);
  for (int at = 0; strstr(request->needs, "members") && at < MEMBER_COUNT; at++) {
    char name[WORD];
    snprintf(name, sizeof name, "member%d", MEMBER + at);
    delete_link(name);
  }
}

/* Sends each change of a link, and reports it. */
static void change(const struct request *request) {
  static struct list last, sent, body, reply;
  last = request->list;
  for (struct request *each = requests; each < requests + request_count; each++) {
    if (!is_line_of(each, "change", request->name)) continue;
    sent = changing(&last, each);
    body = message(&(struct ifinfomsg){0}, request->name);
    append_attribute(&body, IFLA_LINKINFO, sent.bytes, sent.length);
    int error = ask(RTM_NEWLINK, 0, &body);
    if (report(request->name, "change", &sent, error, &body, &reply)) last = sent;
  }
}

/* All requests that concern a link. */
static void ask_about(const struct request *request) {
  static struct list reply, later, whole, again;
  bool is_made = create(request, "create", &request->list, &reply);
  if (is_made && strstr(request->needs, "later")) {
    wait_for(1100);
    report(request->name, "later", &(struct list){0}, 0, NULL, &later);
  }
  if (is_made) change(request);
  delete(request);
  if (!is_made || !request->list.length || !canonical(&reply, &whole)) return;
  again = sent_again(request->name, &whole, &request->list, NULL);
  if (!is_equal(&whole, &again)) {
    create(request, "whole", &whole, &later);
    delete(request);
  }
  create(request, "again", &again, &later);
  delete(request);
  for (size_t at = 0; at < exception_count; at++) {
    struct list with = sent_again(request->name, &whole, &request->list, &exceptions[at]);
    if (is_equal(&with, &again)) continue;
    create(request, "with", &with, &later);
    delete(request);
  }
}

static void load_modules(void) {
  char path[256];
  FILE *file = open_lines("/modules");
  while (fscanf(file, "%255s", path) == 1) {
    int module = open(path, O_RDONLY);
    if (syscall(SYS_finit_module, module, "", 0) && errno != EEXIST) {
      printf("%s: %s\n", path, strerror(errno));
    }
    close(module);
  }
  fclose(file);
}

static void make_lower_links(void) {
  struct ifinfomsg head = head_of(true);
  struct list body = message(&head, "lo");
  prepare("lo", 0, &body);
  make_dummies("lower", LOWER, LOWER_COUNT, true);
}

int main(void) {
  struct utsname names;
  int on = 1;
  uname(&names);
  printf("reply kernel %s\n", names.release);
  load_modules();
  prepare_devices();
  sock = socket(AF_NETLINK, SOCK_RAW, NETLINK_ROUTE);
  setsockopt(sock, SOL_NETLINK, NETLINK_EXT_ACK, &on, sizeof on);
  setsockopt(sock, SOL_NETLINK, NETLINK_CAP_ACK, &on, sizeof on);
  setsockopt(sock, SOL_SOCKET, SO_RCVTIMEO, &(struct timeval){60, 0}, sizeof(struct timeval));
  read_requests("/requests");
  read_exceptions("/exceptions", names.release);
  make_lower_links();
  for (size_t at = 0; at < request_count; at++) {
    if (!strcmp(requests[at].verb, "create")) ask_about(&requests[at]);
  }
  puts("reply end");
  fflush(stdout);
  sync();
  reboot(RB_POWER_OFF);
}
