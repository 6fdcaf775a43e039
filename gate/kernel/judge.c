/* judge REQUESTS EXCEPTIONS REPLIES: judges the replies of a kernel, the lines of ask.c, by
 * linkinfo.h alone. REQUESTS and EXCEPTIONS are flat, as `run` makes them.
 *
 * - Each request is its own canonical string with bonds, bridges and their like opaque, and each
 *   kind and port kind of linkinfo.h has one.
 * - The kernel accepts each request, and its reply meets the request. It is its own canonical
 *   string, also with these opaque.
 * - The reply before a change does not meet the attributes that the change has, each at its offset.
 *   The reply after it meets the change, and differs from the one before in these attributes alone.
 *   Each kind that the kernel makes has a change, or a row that says why there is none.
 * - The canonical form of the reply, sent for a second link, is met by that link's reply.
 * - A second later nothing of a link has changed.
 *
 * Exceptions to these are rows of docs/KERNEL.md; a row that is not needed is a failure too. What
 * one list does not meet of another one is computed here, by the format: linkinfo_first_unmet must
 * agree for each pair, and so must linkinfo_first_unmet_opaque. The last line is 'N passed, M
 * failed'; the status is 1 where M is not 0. */
#include "lists.h"

/* The comparisons in which 4 is added to one of the library's offsets, so that `run` can try
 * whether an error is noticed. */
#ifndef WRONG_WANT
#define WRONG_WANT ""
#endif
#ifndef WRONG_HAVE
#define WRONG_HAVE ""
#endif

struct reply {
  char name[WORD], verb[WORD], error[WORD];
  struct list sent, list;
};

/* An attribute of a wanted list that another one does not meet. */
struct unmet {
  char owner[WORD];
  int type;         /* in data, or WHOLE where there is no data */
  size_t want;      /* offset in the wanted list */
  bool is_present;  /* whether the other list has an attribute of that type */
  size_t have;      /* its offset there */
};

struct unmets {
  size_t count;
  struct unmet each[LIST_ROOM / 4];
};

static char kernel[64];
static struct reply replies[LINES];
static size_t reply_count, passed, failed, link_count, attribute_count, change_count;
static bool kind_is_made[65536], kind_is_asked[65536], kind_is_changed[65536];
static bool change_is_excepted[65536];

__attribute__((format(printf, 3, 4))) static void judge(bool holds, const char *name,
                                                        const char *format, ...) {
  passed += holds;
  failed += !holds;
  if (holds) return;
  va_list arguments;
  va_start(arguments, format);
  printf("kernel: FAILED: %s: %s: ", kernel, name);
  vprintf(format, arguments);
  putchar('\n');
  va_end(arguments);
}

static void add(struct unmets *unmets, const char *owner, int type, size_t want,
                const struct attribute *have, size_t base) {
  struct unmet *next = &unmets->each[unmets->count++];
  *next = (struct unmet){.type = type, .want = want, .is_present = have};
  strcpy(next->owner, owner);
  if (have) next->have = base + have->offset;
}

static bool is_equal_payload(const struct attribute *a, const struct attribute *b) {
  return a->length == b->length && memcmp(a->payload, b->payload, a->length) == 0;
}

/* What of wanted data is not met, with the offsets of both in their lists. */
static void unmets_in_data(const char *owner, const struct list *have, size_t have_base,
                           const struct list *want, size_t want_base, struct unmets *unmets) {
  struct attribute wanted, last, found;
  for (size_t offset = 0; next_attribute(want, &offset, &wanted);) {
    if (!last_of_type(want, wanted.type, &last) || last.offset != wanted.offset) continue;
    bool is_present = last_of_type(have, wanted.type, &found);
    if (is_present && is_equal_payload(&found, &wanted)) continue;
    add(unmets, owner, wanted.type, want_base + wanted.offset, is_present ? &found : NULL,
        have_base);
  }
}

/* Each attribute of canonical `want` that canonical `have` does not meet, in order. Payloads of
 * canonical strings are equivalent where they are equal. */
static void compare(const struct list *have, const struct list *want, struct unmets *unmets) {
  struct attribute wanted, found;
  char owner[WORD], other[WORD];
  unmets->count = 0;
  for (size_t offset = 0; next_attribute(want, &offset, &wanted);) {
    bool is_present = last_of_type(have, wanted.type, &found);
    owner_of(want, wanted.type, owner);
    owner_of(have, wanted.type, other);
    if (is_present && is_equal_payload(&found, &wanted)) continue;
    if (is_present && (wanted.type == DATA || wanted.type == PORT_DATA) && !strcmp(owner, other)) {
      struct list had = payload_of(&found), asked = payload_of(&wanted);
      unmets_in_data(owner, &had, found.offset + 4, &asked, wanted.offset + 4, unmets);
    } else {
      add(unmets, owner, WHOLE, wanted.offset, is_present ? &found : NULL, 0);
    }
  }
}

/* A type of attributes that are lists of another family, and whether such a list is a set. */
struct nested {
  const char *owner;
  int type;
  uint16_t family;
  bool is_set;
};

static const struct nested nested_types[] = {
    {"vlan", 3, LINKINFO_FAMILY_VLANQOSMAPPING, true},
    {"vlan", 4, LINKINFO_FAMILY_VLANQOSMAPPING, true},
    {"bond", 23, LINKINFO_FAMILY_BONDADINFO, false},
    {"bridge", 47, LINKINFO_FAMILY_BRIDGEQUERIERSTATE, false},
    {"can", 16, LINKINFO_FAMILY_CANTDC, false},
    {"can", 17, LINKINFO_FAMILY_CANCTRLMODEEXT, false},
    {"can", 21, LINKINFO_FAMILY_CANTDC, false},
    {"can", 22, LINKINFO_FAMILY_CANPWM, false},
};

static const struct nested *nested_of(const char *owner, int type) {
  for (size_t at = 0; at < sizeof nested_types / sizeof *nested_types; at++) {
    const struct nested *each = &nested_types[at];
    if (!strcmp(each->owner, owner) && each->type == type) return each;
  }
  return NULL;
}

static bool is_member(const struct list *set, const struct attribute *wanted) {
  struct attribute each;
  for (size_t offset = 0; next_attribute(set, &offset, &each);) {
    if (each.type == wanted->type && is_equal_payload(&each, wanted)) return true;
  }
  return false;
}

/* The first attribute of a nested list that another one does not meet, at these offsets of the
 * payloads; false where all are met. */
static bool unmet_inside(const struct nested *nested, const struct list *have, size_t have_base,
                         const struct list *want, size_t want_base, struct linkinfo_unmet *unmet) {
  struct attribute wanted, found, last;
  for (size_t offset = 0; next_attribute(want, &offset, &wanted);) {
    bool is_present = !nested->is_set && last_of_type(have, wanted.type, &found);
    if (nested->is_set ? is_member(have, &wanted)
                       : is_present && is_equal_payload(&found, &wanted))
      continue;
    if (!nested->is_set && last_of_type(want, wanted.type, &last) && last.offset != wanted.offset)
      continue;
    unmet->family = nested->family;
    unmet->type = (uint16_t)wanted.type;
    unmet->want = want_base + wanted.offset;
    unmet->is_present = is_present;
    unmet->have = is_present ? have_base + found.offset : 0;
    return true;
  }
  return false;
}

/* The nested list at an offset of a list. */
static struct list nested_at(const struct list *list, size_t offset) {
  struct list payload = {0};
  append(&payload, list->bytes + offset + 4, native16(list->bytes + offset) - 4u);
  return payload;
}

/* What the library is to return: the first attribute that is not met, and of lists of another
 * family the first one inside that is not met. False where all are met. */
static bool first_of(const struct list *have, const struct list *want,
                     const struct unmets *unmets, struct linkinfo_unmet *unmet) {
  for (const struct unmet *each = unmets->each; each < unmets->each + unmets->count; each++) {
    const struct nested *nested = nested_of(each->owner, each->type);
    if (!nested || !each->is_present) {
      unmet->family = each->type == WHOLE ? LINKINFO_FAMILY_LINKINFO : LINKINFO_FAMILY_NONE;
      unmet->type = native16(want->bytes + each->want + 2) & TYPE_MASK;
      unmet->want = each->want;
      unmet->is_present = each->is_present;
      unmet->have = each->have;
      return true;
    }
    struct list had = nested_at(have, each->have), asked = nested_at(want, each->want);
    if (unmet_inside(nested, &had, each->have + 4, &asked, each->want + 4, unmet)) return true;
  }
  return false;
}

/* Whether a result is the expected one, of which the family is that of an attribute of the list or
 * of a nested list, or else not known. */
static bool is_result(const struct linkinfo_unmet *result, const struct linkinfo_unmet *expected) {
  bool is_family = expected->family == LINKINFO_FAMILY_NONE
                       ? result->family != LINKINFO_FAMILY_LINKINFO
                       : result->family == expected->family;
  return is_family && !result->met && result->type == expected->type &&
         result->want == expected->want && result->is_present == expected->is_present &&
         result->have == expected->have;
}

/* Whether linkinfo_first_unmet returns the first attribute that the comparison does not find met,
 * and so does linkinfo_first_unmet_opaque, without looking into nested lists. */
static bool library_agrees(const char *verb, const struct list *have, const struct list *want,
                           const struct unmets *unmets) {
  struct linkinfo_unmet expected, result = linkinfo_first_unmet(have->bytes, have->length,
                                                                want->bytes, want->length);
  struct linkinfo_unmet opaque = linkinfo_first_unmet_opaque(have->bytes, have->length,
                                                             want->bytes, want->length);
  if (!strcmp(verb, WRONG_WANT)) result.want += 4;
  if (!strcmp(verb, WRONG_HAVE)) result.have += 4;
  if (result.rejected != 0 || opaque.rejected != 0) return false;
  if (unmets->count == 0) return result.met && opaque.met;
  const struct unmet *first = unmets->each;
  bool is_whole = opaque.family == LINKINFO_FAMILY_LINKINFO;
  if (opaque.met || is_whole != (first->type == WHOLE) || opaque.want != first->want ||
      opaque.is_present != first->is_present || opaque.have != first->have)
    return false;
  return first_of(have, want, unmets, &expected) ? is_result(&result, &expected) : result.met;
}

static void compare_by_both(const char *name, const char *verb, const struct list *have,
                            const struct list *want, struct unmets *unmets) {
  compare(have, want, unmets);
  judge(library_agrees(verb, have, want, unmets), name, "%s: linkinfo_first_unmet differs", verb);
}

/* Whether an exception of one of these words, a list that NULL ends, covers what is not met. */
static bool is_excepted(const char *name, const struct unmet *unmet, const char *const *words) {
  bool is_found = false;
  for (; *words; words++) {
    struct exception *exception = excepted(name, unmet->owner, unmet->type, *words);
    if (exception) is_found = exception->occurs = true;
  }
  return is_found;
}

static const char *const REQUESTED_AND_ABSENT[] = {"not-returned", NULL};
static const char *const REQUESTED_AND_PRESENT[] = {"otherwise", NULL};
static const char *const SENT_AGAIN[] = {"not-kept", "changes", NULL};
static const char *const LATER[] = {"changes", NULL};
static const char *const CHANGED[] = {"changes", "follows", NULL};
static const char *const NOT_CHANGED[] = {"ignored", NULL};

static const char *const *words_for(const struct unmet *unmet) {
  return unmet->is_present ? REQUESTED_AND_PRESENT : REQUESTED_AND_ABSENT;
}

/* Judges that each attribute that is not met is excepted, by these words or by those for a first
 * reply. It counts as one case, since timers differ in some runs only. */
static void judge_unmets(const char *name, const char *verb, const struct unmets *unmets,
                         const char *const *words) {
  size_t failed_before = failed;
  for (const struct unmet *each = unmets->each; each < unmets->each + unmets->count; each++) {
    bool holds = words && is_excepted(name, each, words);
    if (!holds && words != LATER) holds = is_excepted(name, each, words_for(each));
    if (holds) continue;
    judge(false, name, "%s: type %d of %s is %s", verb, each->type, each->owner,
          each->is_present ? "returned with another value" : "not returned");
  }
  passed += failed == failed_before;
}

/* Whether a list is its own canonical encoding with bonds, bridges and their like opaque: only a
 * request may lack NLA_F_NESTED, as that of iproute2 for IFLA_BOND_NS_IP6_TARGET does. */
static bool is_verbatim(const struct list *list) {
  static struct list written;
  struct linkinfo_canon_result result =
      linkinfo_canon_opaque(list->bytes, list->length, written.bytes, sizeof written.bytes);
  written.length = result.length;
  return result.status == LINKINFO_CANON_WRITTEN && is_equal(list, &written);
}

/* Whether both canonical encodings of a list are the list. */
static bool is_canonical(const struct list *list) {
  static struct list written;
  return canonical(list, &written) && is_equal(list, &written) && is_verbatim(list);
}

/* The reply to the request of a verb for a link, or to the next one after `last`; none is NULL. */
static struct reply *reply_after(const struct reply *last, const char *name, const char *verb) {
  struct reply *each = last ? replies + (last - replies) + 1 : replies;
  for (; each < replies + reply_count; each++) {
    if (!strcmp(each->name, name) && !strcmp(each->verb, verb)) return each;
  }
  return NULL;
}

static struct reply *reply_of(const char *name, const char *verb) {
  return reply_after(NULL, name, verb);
}

/* Whether the kernel rejected a request for a second link. */
static bool is_rejected(const char *name, const char *verb, const struct list *sent) {
  for (struct reply *each = replies; each < replies + reply_count; each++) {
    if (!strcmp(each->name, name) && !strcmp(each->verb, verb) && is_equal(&each->sent, sent)) {
      return *each->error;
    }
  }
  return false;
}

/* Judges that the kernel accepted what was sent, and that its reply is a canonical string. */
static bool is_accepted(const char *name, const char *verb, const struct reply *reply,
                        const struct list *sent) {
  judge(reply && is_equal(&reply->sent, sent), name, "%s: no reply to this request", verb);
  if (!reply) return false;
  judge(!*reply->error, name, "%s: %s", verb, reply->error);
  if (*reply->error) return false;
  struct linkinfo_error error = linkinfo_check(reply->list.bytes, reply->list.length);
  judge(error.cause == LINKINFO_CAUSE_NONE, name, "%s: the reply is not accepted", verb);
  judge(is_canonical(&reply->list), name, "%s: the reply is not canonical", verb);
  return true;
}

/* The reply to what was sent, where the kernel accepted it. */
static struct reply *accepted(const char *name, const char *verb, const struct list *sent) {
  struct reply *reply = reply_of(name, verb);
  return is_accepted(name, verb, reply, sent) ? reply : NULL;
}

/* The attributes in the data of a list. */
static size_t attributes_in_data(const struct list *list) {
  struct attribute each, inner;
  size_t count = 0;
  for (size_t offset = 0; next_attribute(list, &offset, &each);) {
    if (each.type != DATA && each.type != PORT_DATA) continue;
    struct list data = payload_of(&each);
    for (size_t within = 0; next_attribute(&data, &within, &inner);) count++;
  }
  return count;
}

static bool is_met_at(const struct unmets *unmets, size_t offset) {
  for (size_t at = 0; at < unmets->count; at++) {
    if (unmets->each[at].want == offset) return false;
  }
  return true;
}

/* A list without those of its attributes that are not met. */
static struct list without(const struct list *list, const struct unmets *unmets) {
  struct list rest = {0};
  struct attribute each, inner;
  for (size_t offset = 0; next_attribute(list, &offset, &each);) {
    if (!is_met_at(unmets, each.offset)) continue;
    if (each.type != DATA && each.type != PORT_DATA) {
      copy_attribute(&rest, list, &each);
      continue;
    }
    struct list data = payload_of(&each), kept = {0};
    for (size_t within = 0; next_attribute(&data, &within, &inner);) {
      if (is_met_at(unmets, each.offset + 4 + inner.offset)) copy_attribute(&kept, &data, &inner);
    }
    append_attribute(&rest, (uint16_t)each.type, kept.bytes, kept.length);
  }
  return rest;
}

/* What is not met of a type; none is NULL. */
static const struct unmet *unmet_of_type(const struct unmets *unmets, int type) {
  for (const struct unmet *each = unmets->each; each < unmets->each + unmets->count; each++) {
    if (each->type == type) return each;
  }
  return NULL;
}

/* Judges that all that is not met is of the attributes of a change, or excepted: a list that lacks
 * the change by the words for requests, two replies by those that are given. */
static void judge_rest(const struct request *change, const char *verb, const struct unmets *unmets,
                       const char *const *words) {
  struct attribute changed;
  for (const struct unmet *each = unmets->each; each < unmets->each + unmets->count; each++) {
    bool holds = last_of_type(&change->list, each->type, &changed) ||
                 is_excepted(change->name, each, words ? words : words_for(each));
    judge(holds, change->name, "%s: type %d of %s differs too", verb, each->type, each->owner);
  }
}

/* Judges an accepted change by the replies before and after it: whether an attribute changed. */
static bool judge_change(const struct request *change, const struct list *sent,
                         const struct list *before, const struct list *after) {
  static struct unmets asked, left, moved;
  size_t count = 0;
  struct attribute each;
  compare_by_both(change->name, "before", before, sent, &asked);
  judge_rest(change, "before", &asked, NULL);
  compare_by_both(change->name, "change", after, sent, &left);
  judge_unmets(change->name, "change", &left, NOT_CHANGED);
  compare_by_both(change->name, "changed", after, before, &moved);
  judge_rest(change, "changed", &moved, CHANGED);
  for (size_t offset = 0; next_attribute(&change->list, &offset, &each);) {
    const struct unmet *first = unmet_of_type(&asked, each.type);
    const struct unmet *last = unmet_of_type(&left, each.type);
    bool has_moved = unmet_of_type(&moved, each.type);
    judge(first, change->name, "change: type %d is not found before", each.type);
    if (!first || (last && !last->is_present)) continue;
    bool is_ignored = last && excepted(change->name, first->owner, each.type, "ignored");
    judge(is_ignored ? !has_moved : has_moved || !first->is_present, change->name,
          "change: type %d has %schanged", each.type, is_ignored ? "" : "not ");
    count += !is_ignored;
  }
  change_count += count;
  return count > 0;
}

/* The exception by which the kernel rejects a change; none is NULL. */
static struct exception *change_excepted(const struct request *change, const char *owner) {
  struct exception *exception = excepted(change->name, owner, WHOLE, "not-changed");
  struct attribute each;
  for (size_t offset = 0; !exception && next_attribute(&change->list, &offset, &each);) {
    exception = excepted(change->name, owner, each.type, "not-changed");
  }
  return exception;
}

/* The number of the kind whose attributes a change has: that of the port, where it has one. */
static uint16_t kind_of_change(const struct list *sent) {
  struct attribute name;
  bool is_port = last_of_type(sent, PORT_KIND, &name);
  if (!is_port && !last_of_type(sent, KIND, &name)) return 0;
  const char *text = (const char *)name.payload;
  size_t length = strnlen(text, name.length);
  return is_port ? linkinfo_port_kind_of_name(text, length) : linkinfo_kind_of_name(text, length);
}

/* Judges each change of a link, from the reply to the request that made it on. */
static void judge_changes(const struct request *request, const struct reply *first) {
  static struct list last, before, sent;
  const struct reply *reply = NULL;
  char owner[WORD];
  last = request->list;
  before = first->list;
  for (const struct request *each = requests; each < requests + request_count; each++) {
    if (!is_line_of(each, "change", request->name)) continue;
    sent = changing(&last, each);
    uint16_t kind = kind_of_change(&sent);
    owner_of(&sent, last_of_type(&sent, PORT_KIND, &(struct attribute){0}) ? PORT_DATA : DATA,
             owner);
    reply = reply_after(reply, request->name, "change");
    struct exception *exception = change_excepted(each, owner);
    if (exception && reply && *reply->error && is_equal(&reply->sent, &sent)) {
      exception->occurs = true;
      change_is_excepted[kind] |= exception->type == WHOLE;
      continue;
    }
    judge(is_verbatim(&sent), request->name, "a change is not canonical");
    if (!is_accepted(request->name, "change", reply, &sent)) continue;
    kind_is_changed[kind] |= judge_change(each, &sent, &before, &reply->list);
    last = sent;
    before = reply->list;
  }
  judge(!reply_after(reply, request->name, "change"), request->name, "a change of no request");
}

/* Judges the second link, which was requested by the reply for the first one. */
static void judge_second(const struct request *request, const struct list *first) {
  static struct unmets unmets;
  struct list sent = sent_again(request->name, first, &request->list, NULL);
  if (!request->list.length) return;
  if (!is_equal(&sent, first)) {
    judge(is_rejected(request->name, "whole", first), request->name, "whole: not rejected");
  }
  for (size_t at = 0; at < exception_count; at++) {
    struct list with = sent_again(request->name, first, &request->list, &exceptions[at]);
    if (is_equal(&with, &sent)) continue;
    judge(is_rejected(request->name, "with", &with), request->name, "with type %s: not rejected",
          exceptions[at].type_text);
  }
  struct reply *reply = accepted(request->name, "again", &sent);
  if (!reply) return;
  compare_by_both(request->name, "again", &reply->list, &sent, &unmets);
  judge_unmets(request->name, "again", &unmets, SENT_AGAIN);
}

/* Notes the kinds of a request, and whether the kernel makes such links. */
static void note_kinds(const struct list *list, bool is_made) {
  struct attribute name;
  for (int type = KIND; type <= PORT_KIND; type += PORT_KIND - KIND) {
    if (!last_of_type(list, type, &name)) continue;
    const char *text = (const char *)name.payload;
    size_t length = strnlen(text, name.length);
    uint16_t number = type == KIND ? linkinfo_kind_of_name(text, length)
                                   : linkinfo_port_kind_of_name(text, length);
    kind_is_asked[number] = true;
    kind_is_made[number] |= is_made;
  }
}

static void judge_request(const struct request *request) {
  static struct unmets unmets, none;
  char owner[WORD];
  struct reply *reply = reply_of(request->name, "create");
  owner_of(&request->list, KIND, owner);
  note_kinds(&request->list, reply && !*reply->error);
  struct exception *not_made = excepted(request->name, owner, WHOLE, "not-made");
  if (not_made && reply && *reply->error) {
    not_made->occurs = true;
    return;
  }
  reply = accepted(request->name, "create", &request->list);
  if (!reply) return;
  compare_by_both(request->name, "create", &reply->list, &request->list, &unmets);
  judge_unmets(request->name, "create", &unmets, NULL);
  struct list met = without(&request->list, &unmets);
  compare_by_both(request->name, "met", &reply->list, &met, &none);
  judge(none.count == 0, request->name, "create: the rest of the request is not met");
  link_count++;
  attribute_count += attributes_in_data(&met);
  judge_changes(request, reply);
  if (strstr(request->needs, "later")) {
    struct reply *later = accepted(request->name, "later", &(struct list){0});
    if (later) {
      compare_by_both(request->name, "later", &later->list, &reply->list, &unmets);
      judge_unmets(request->name, "later", &unmets, LATER);
    }
  }
  judge_second(request, &reply->list);
}

static void read_replies(const char *path) {
  static char sent[2 * LIST_ROOM], reply[2 * LIST_ROOM], line[4 * LIST_ROOM];
  bool is_ended = false;
  FILE *file = open_lines(path);
  if (fscanf(file, "kernel %63s\n", kernel) != 1) stop("%s: no kernel", path);
  while (fgets(line, sizeof line, file)) {
    struct reply *next = &replies[reply_count];
    is_ended = !strcmp(line, "end\n");
    if (is_ended) break;
    if (reply_count == LINES || sscanf(line, "%23s %23s %16383s %16383s", next->name, next->verb,
                                        sent, reply) != 4) {
      stop("%s: not a line of replies: %s", path, line);
    }
    next->sent = list_of_hex(sent);
    if (reply[0] == 'E') snprintf(next->error, sizeof next->error, "%.23s", reply);
    else next->list = list_of_hex(reply);
    reply_count++;
  }
  judge(is_ended, "replies", "the last line is missing");
  fclose(file);
}

/* Judges that each kind has a request, and prints which the kernel does not make. */
static void judge_kinds(void) {
  size_t kinds = 0, ports = 0, changed = 0;
  char name[WORD];
  printf("kernel: %s does not make", kernel);
  for (unsigned number = 0; number < 65536; number++) {
    bool is_kind = linkinfo_kind_name((uint16_t)number, name, sizeof name) > 0;
    bool is_port = !is_kind && linkinfo_port_kind_name((uint16_t)number, name, sizeof name) > 0;
    if (!is_kind && !is_port) continue;
    kinds += is_kind && kind_is_made[number];
    ports += is_port && kind_is_made[number];
    changed += kind_is_changed[number];
    if (!kind_is_made[number]) printf(" %s%s", is_port ? "ports of " : "", name);
  }
  printf("\nkernel: %s makes %zu kinds of links, and %zu of ports: %zu links, which meet %zu "
         "attributes; of %zu kinds %zu attributes are changed\n", kernel, kinds, ports, link_count,
         attribute_count, changed, change_count);
  for (unsigned number = 0; number < 65536; number++) {
    if (linkinfo_kind_name((uint16_t)number, name, sizeof name) == 0 &&
        linkinfo_port_kind_name((uint16_t)number, name, sizeof name) == 0) continue;
    judge(kind_is_asked[number], name, "no request");
    if (!kind_is_made[number]) continue;
    judge(kind_is_changed[number] || change_is_excepted[number], name, "no change");
  }
}

int main(int count, char **arguments) {
  if (count != 4) stop("judge REQUESTS EXCEPTIONS REPLIES");
  read_replies(arguments[3]);
  read_requests(arguments[1]);
  read_exceptions(arguments[2], kernel);
  for (size_t at = 0; at < request_count; at++) {
    const struct request *request = &requests[at];
    if (strcmp(request->verb, "create")) continue;
    judge(is_verbatim(&request->list), request->name, "the request is not canonical");
    judge_request(request);
  }
  judge_kinds();
  for (size_t at = 0; at < exception_count; at++) {
    const struct exception *each = &exceptions[at];
    judge(each->occurs, each->owner, "the exception for type %s (%s) is not needed",
          each->type_text, each->how);
  }
  printf("%zu passed, %zu failed\n", passed, failed);
  return failed != 0;
}
