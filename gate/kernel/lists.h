/* What ask.c and judge.c share: lists of attributes as bytes, read and written by the format alone
 * (docs/FORMAT.md), and the lines of requests and exceptions, as `run` flattens them. */
#ifndef LISTS_H
#define LISTS_H

#define _GNU_SOURCE
#include <linkinfo.h>
#include <stdarg.h>
#include <stdio.h>
#include <stdlib.h>
#include <string.h>

enum { KIND = 1, DATA = 2, PORT_KIND = 4, PORT_DATA = 5, WHOLE = -1, TYPE_MASK = 0x3fff };
enum { LIST_ROOM = 8192, LINES = 1024, WORD = 24, NEEDS = 48 };

/* A list of attributes, or the payload of one. */
struct list {
  size_t length;
  uint8_t bytes[LIST_ROOM];
};

struct attribute {
  size_t offset; /* of its header in the list */
  int type;      /* without flag bits */
  size_t length; /* of its payload */
  const uint8_t *payload;
};

__attribute__((format(printf, 1, 2), noreturn)) static void stop(const char *format, ...) {
  va_list arguments;
  va_start(arguments, format);
  fputs("stopped: ", stderr);
  vfprintf(stderr, format, arguments);
  fputc('\n', stderr);
  exit(2);
}

static uint16_t native16(const uint8_t *bytes) { return (uint16_t)(bytes[0] | bytes[1] << 8); }

/* Gets the attribute at an offset, and moves the offset to the next one. False at the end, or where
 * no header is accepted. */
static bool next_attribute(const struct list *list, size_t *offset, struct attribute *next) {
  if (*offset + 4 > list->length) return false;
  const uint8_t *header = list->bytes + *offset;
  size_t length = native16(header);
  if (length < 4 || length > list->length - *offset) return false;
  *next = (struct attribute){*offset, native16(header + 2) & TYPE_MASK, length - 4, header + 4};
  *offset += (length + 3) & ~(size_t)3;
  return true;
}

/* The last attribute of a type. */
static bool last_of_type(const struct list *list, int type, struct attribute *last) {
  struct attribute each;
  bool is_found = false;
  for (size_t offset = 0; next_attribute(list, &offset, &each);) {
    if (each.type == type) {
      *last = each;
      is_found = true;
    }
  }
  return is_found;
}

static void append(struct list *list, const void *bytes, size_t length) {
  if (length > LIST_ROOM - list->length) stop("a list of more than %d bytes", LIST_ROOM);
  memcpy(list->bytes + list->length, bytes, length);
  list->length += length;
}

/* Adds an attribute, with the zero bytes that pad it. */
static void append_attribute(struct list *list, uint16_t type, const void *payload, size_t length) {
  const uint8_t zeros[4] = {0};
  const uint16_t header[2] = {(uint16_t)(length + 4), type};
  append(list, header, sizeof header);
  append(list, payload, length);
  append(list, zeros, -length & 3);
}

/* A copy of an attribute of a list, its flag bits included. */
static void copy_attribute(struct list *to, const struct list *from, const struct attribute *of) {
  append_attribute(to, native16(from->bytes + of->offset + 2), of->payload, of->length);
}

static struct list payload_of(const struct attribute *attribute) {
  struct list payload = {0};
  append(&payload, attribute->payload, attribute->length);
  return payload;
}

/* `-` is the empty list. */
static struct list list_of_hex(const char *hex) {
  struct list list = {0};
  unsigned byte;
  if (strcmp(hex, "-") == 0) return list;
  for (; sscanf(hex, "%2x", &byte) == 1 && hex[0] && hex[1]; hex += 2) {
    append(&list, &(uint8_t){(uint8_t)byte}, 1);
  }
  if (*hex) stop("not hex: %s", hex);
  return list;
}

/* The canonical encoding of a list, by the library. */
static bool canonical(const struct list *list, struct list *into) {
  struct linkinfo_canon_result result =
      linkinfo_canon(list->bytes, list->length, into->bytes, sizeof into->bytes);
  into->length = result.length;
  return result.status == LINKINFO_CANON_WRITTEN;
}

static bool is_equal(const struct list *a, const struct list *b) {
  return a->length == b->length && memcmp(a->bytes, b->bytes, a->length) == 0;
}

/* The name of the data of a list: its kind, or its port kind followed by "-port". */
static void owner_of(const struct list *list, int data_type, char owner[WORD]) {
  struct attribute name;
  bool is_port = data_type == PORT_DATA || data_type == PORT_KIND;
  owner[0] = '\0';
  if (last_of_type(list, is_port ? PORT_KIND : KIND, &name)) {
    snprintf(owner, WORD, "%.*s%s", (int)strnlen((const char *)name.payload, name.length),
             (const char *)name.payload, is_port ? "-port" : "");
  }
}

/* A line of requests: the verb, the link's name, what else it needs, and a list: of `create` the
 * contents of IFLA_LINKINFO, of `change` the attributes in data that it changes. */
struct request {
  char verb[WORD], name[WORD], needs[NEEDS];
  struct list list;
};

/* A row of the table in docs/KERNEL.md, for kernels of a version from `low` to below `high`. It is
 * about all links with such data, or about the link of one request. */
struct exception {
  char owner[WORD], type_text[WORD], how[WORD];
  int type; /* or WHOLE */
  int low, high;
  bool occurs;
};

static struct request requests[LINES];
static size_t request_count;
static struct exception exceptions[LINES];
static size_t exception_count;

/* 1000 times the first number of a version, and the second one. */
static int version_of(const char *release) {
  int major = 0, minor = 0;
  if (sscanf(release, "%d.%d", &major, &minor) != 2) stop("no version: %s", release);
  return 1000 * major + minor;
}

static FILE *open_lines(const char *path) {
  FILE *file = fopen(path, "r");
  if (!file) stop("cannot read %s", path);
  return file;
}

static void read_requests(const char *path) {
  static char hex[2 * LIST_ROOM];
  FILE *file = open_lines(path);
  for (struct request *next = requests;
       fscanf(file, "%23s %23s %47s %16383s", next->verb, next->name, next->needs, hex) == 4;
       next = &requests[++request_count]) {
    if (request_count == LINES - 1) stop("more than %d requests", LINES - 1);
    next->list = list_of_hex(hex);
  }
  fclose(file);
}

static bool is_line_of(const struct request *request, const char *verb, const char *name) {
  return !strcmp(request->verb, verb) && !strcmp(request->name, name);
}

/* The data of a list, or of its port: empty where there is none. */
static struct list data_of(const struct list *list, int data_type) {
  struct attribute data;
  return last_of_type(list, data_type, &data) ? payload_of(&data) : (struct list){0};
}

/* What a change sends: the kinds of the last request for the link, and data with the attributes
 * that it changes alone. A `restated` one has the data of the last request, in which they replace
 * those of their types. */
static struct list changing(const struct list *last, const struct request *change) {
  struct list sent = {0}, data = {0};
  struct attribute each, changed;
  bool is_port = last_of_type(last, PORT_KIND, &each);
  int data_type = is_port ? PORT_DATA : DATA;
  for (size_t offset = 0; next_attribute(last, &offset, &each);) {
    if (each.type == KIND || each.type == PORT_KIND) copy_attribute(&sent, last, &each);
  }
  if (!strcmp(change->needs, "restated")) {
    struct list whole = data_of(last, data_type);
    for (size_t offset = 0; next_attribute(&whole, &offset, &each);) {
      bool is_changed = last_of_type(&change->list, each.type, &changed);
      copy_attribute(&data, is_changed ? &change->list : &whole, is_changed ? &changed : &each);
    }
  } else {
    data = change->list;
  }
  append_attribute(&sent, (uint16_t)data_type, data.bytes, data.length);
  return sent;
}

static void read_exceptions(const char *path, const char *release) {
  int version = version_of(release);
  struct exception next = {0};
  FILE *file = open_lines(path);
  while (fscanf(file, "%23s %23s %23s %d %d", next.owner, next.type_text, next.how, &next.low,
                &next.high) == 5) {
    if (version < next.low || version >= next.high) continue;
    if (exception_count == LINES) stop("more than %d exceptions", LINES);
    next.type = next.type_text[0] == '-' ? WHOLE : atoi(next.type_text);
    exceptions[exception_count++] = next;
  }
  fclose(file);
}

/* The exception for an attribute in the data of a link; none is NULL. */
static struct exception *excepted(const char *link, const char *owner, int type, const char *how) {
  for (struct exception *each = exceptions; each < exceptions + exception_count; each++) {
    bool is_about = !strcmp(each->owner, owner) || !strcmp(each->owner, link);
    if (is_about && each->type == type && !strcmp(each->how, how)) return each;
  }
  return NULL;
}

/* Whether an attribute is left out of a request, since the kernel rejects it and it is not the one
 * that is tried. */
static bool is_left_out(const char *link, const char *owner, int type,
                        const struct exception *tried) {
  struct exception *exception = excepted(link, owner, type, "rejected");
  if (!exception || exception == tried) return false;
  exception->occurs = true;
  return true;
}

/* The attributes of data that are not left out, and those of the first request that are required
 * and not returned. */
static struct list data_sent_again(const char *link, const char *owner, const struct list *data,
                                   const struct list *first, const struct exception *tried) {
  struct list sent = {0};
  struct attribute each;
  for (size_t offset = 0; next_attribute(data, &offset, &each);) {
    if (!is_left_out(link, owner, each.type, tried)) copy_attribute(&sent, data, &each);
  }
  for (size_t offset = 0; next_attribute(first, &offset, &each);) {
    struct exception *exception = excepted(link, owner, each.type, "required");
    if (!exception) continue;
    exception->occurs = true;
    copy_attribute(&sent, first, &each);
  }
  return sent;
}

/* The request for a second link: a reply's canonical form, but for the exceptions, of which one
 * is tried, where it is not NULL. */
static struct list sent_again(const char *link, const struct list *reply,
                              const struct list *request, const struct exception *tried) {
  struct list sent = {0};
  struct attribute each, first;
  char owner[WORD];
  for (size_t offset = 0; next_attribute(reply, &offset, &each);) {
    owner_of(reply, each.type, owner);
    bool is_data = each.type == DATA || each.type == PORT_DATA;
    if (is_data && is_left_out(link, owner, WHOLE, tried)) continue;
    if (is_data) {
      struct list data = payload_of(&each), none = {0};
      struct list asked = last_of_type(request, each.type, &first) ? payload_of(&first) : none;
      data = data_sent_again(link, owner, &data, &asked, tried);
      append_attribute(&sent, (uint16_t)each.type, data.bytes, data.length);
    } else {
      copy_attribute(&sent, reply, &each);
    }
  }
  return sent;
}

#endif
