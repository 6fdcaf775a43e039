/* SPDX-License-Identifier: MIT */
/*
 * linkinfo - reads, checks, compares and canonicalizes link info
 *
 * liblinkinfo reads, checks, compares and canonicalizes link info: the contents
 * of IFLA_LINKINFO (linux/if_link.h), the nested attribute of rtnetlink link
 * messages that names the kind of a network link and has its attributes. It
 * finds link info in the bytes of a netlink socket. It builds neither lists nor
 * messages, and has no sockets. docs/C.md of its repository says what is proved
 * of each build and what is tested.
 *
 *   #include <linkinfo.h>
 *   #include <stdio.h>
 *
 *   int has_all(const uint8_t *have, size_t have_length, const uint8_t *want,
 *               size_t want_length) {
 *     char text[37];
 *     struct linkinfo_unmet unmet =
 *         linkinfo_first_unmet(have, have_length, want, want_length);
 *     if (unmet.rejected == 0) return unmet.met;
 *     linkinfo_error_text(unmet.error, text, sizeof text);
 *     fprintf(stderr, "list %u: %s\n", (unsigned)unmet.rejected, text);
 *     return -1;
 *   }
 *
 * Lists. A list is a pointer to its bytes and their number, without the header
 * of IFLA_LINKINFO itself. A null pointer with length 0 is the empty list,
 * array, buffer or name. A null pointer with another length is the caller's
 * error, and so is a length that exceeds the memory that the pointer points to.
 * Arrays and buffers that are written to may be uninitialized, and must not
 * overlap what the call reads.
 *
 * Calls. Every call returns, whatever the bytes are. No call keeps a pointer,
 * allocates, has a global, takes a lock or calls back, so each is thread-safe
 * (MT-Safe in attributes(7)). A call takes up to 40 KiB of stack: in a signal
 * handler that is more than SIGSTKSZ.
 *
 * Typed and opaque. All calls know the attributes of all families, bonds,
 * bridges, VLANs and CAN devices among them: linkinfo_check rejects a VLAN ID
 * of one byte. For who only passes link info on, the calls that end in _opaque
 * keep attributes of bond, bridge, can, dsa, hsr, tun and vlan links, and of
 * ports of bonds and bridges, verbatim: any payload is accepted, and compared
 * as bytes. What is accepted without _opaque is accepted with it, and lists
 * that are equivalent with it are so without it where both are accepted.
 *
 * Which comparison. linkinfo_first_unmet is for a link and a request: does the
 * link that the kernel returned have each attribute of the request?
 * linkinfo_next_unmet returns all that it does not have, one after another.
 * linkinfo_same is for two requests, or for two canonical encodings: are they
 * equivalent? It is false for a request and the link that the kernel made by
 * it, since the kernel returns all defaults too.
 *
 * Compatibility. Values of the enums never change, and new ones are added at
 * the end. Structs do not grow; a new result is a new call. Native numbers are
 * little-endian; big-endian machines are not supported. The header compiles as
 * C90 and later, and as C++. It takes bool and the integer types from
 * <stdbool.h> and <stdint.h>, which a compiler for C90 must have.
 */
#ifndef LINKINFO_H
#define LINKINFO_H

#include <stdbool.h>
#include <stddef.h>
#include <stdint.h>

#if defined(__BYTE_ORDER__) && __BYTE_ORDER__ != __ORDER_LITTLE_ENDIAN__
#error "linkinfo.h: big-endian machines are not supported"
#endif
#if SIZE_MAX != UINT64_MAX
#error "linkinfo.h: machines on which size_t is not 64 bits are not supported"
#endif

/* The version of this header. linkinfo_version() has that of the library. */
#define LINKINFO_VERSION_MAJOR 0
#define LINKINFO_VERSION_MINOR 1
#define LINKINFO_VERSION_PATCH 0
#define LINKINFO_VERSION_STRING "0.1.0"

#if defined(__GNUC__)
#define LINKINFO_RESTRICT __restrict__
#elif defined(__STDC_VERSION__) && __STDC_VERSION__ >= 199901L
#define LINKINFO_RESTRICT restrict
#else
#define LINKINFO_RESTRICT
#endif

/* The compiler warns where the result of such a call is not used. */
#if (defined(__cplusplus) && __cplusplus >= 201703L) || \
    (defined(__STDC_VERSION__) && __STDC_VERSION__ >= 202311L)
#define LINKINFO_NODISCARD [[nodiscard]]
#elif defined(__GNUC__)
#define LINKINFO_NODISCARD __attribute__((__warn_unused_result__))
#else
#define LINKINFO_NODISCARD
#endif

/* clang warns of bool as C90, though it has it. */
#if defined(__clang__) && !defined(__cplusplus) && \
    (!defined(__STDC_VERSION__) || __STDC_VERSION__ < 199901L)
#pragma clang diagnostic push
#pragma clang diagnostic ignored "-Wc99-extensions"
#define LINKINFO_POP_DIAGNOSTIC
#endif

#ifdef __cplusplus
extern "C" {
#endif

/*
 * linkinfo_version - the version of the library
 *
 * Return: the text "MAJOR.MINOR.PATCH" of the library that the program is
 * linked with, which may be newer than its header; the text is constant.
 * Time: constant.
 * Threads: MT-Safe.
 */
LINKINFO_NODISCARD const char *linkinfo_version(void);

/* What is wrong with a list. No call returns the causes that are marked
 * "not returned". */
enum linkinfo_cause {
  LINKINFO_CAUSE_NONE = 0,
  LINKINFO_CAUSE_HEADER = 1, /* no attribute header is accepted here */
  LINKINFO_CAUSE_LENGTH = 2, /* a payload of a length that its type does not
                                accept */
  LINKINFO_CAUSE_UTF8 = 3,   /* a name is not UTF-8 */
  LINKINFO_CAUSE_ORDER = 4,  /* data or statistics without a kind before, or
                                port data without a port kind */
  LINKINFO_CAUSE_ADDRESS_KIND = 5, /* an address of the other version */
  LINKINFO_CAUSE_WORD = 6,         /* a text that names no value; not
                                      returned */
  LINKINFO_CAUSE_WRONG_TYPE = 7,   /* another type than the expected one; not
                                      returned */
  LINKINFO_CAUSE_KIND = 8,    /* an attribute that this kind does not have; not
                                 returned */
  LINKINFO_CAUSE_DEPTH = 9,   /* an address list inside 128 others */
  LINKINFO_CAUSE_MEMORY = 10, /* an allocation failed; not returned */
  LINKINFO_CAUSE_PEER = 11    /* a peer's payload that is rejected; not
                                 returned */
};

/* The family of attributes that has the error. */
enum linkinfo_family {
  LINKINFO_FAMILY_NONE = 0,
  /* Begin: written by tables/generate from tables/families. */
  LINKINFO_FAMILY_FRAME = 1,
  LINKINFO_FAMILY_LINKINFO = 2,
  LINKINFO_FAMILY_AMT = 3,
  LINKINFO_FAMILY_BAREUDP = 4,
  LINKINFO_FAMILY_BATADV = 5,
  LINKINFO_FAMILY_BOND = 6,
  LINKINFO_FAMILY_BONDPORT = 7,
  LINKINFO_FAMILY_BRIDGE = 8,
  LINKINFO_FAMILY_BRIDGEPORT = 9,
  LINKINFO_FAMILY_CAN = 10,
  LINKINFO_FAMILY_DSA = 11,
  LINKINFO_FAMILY_GENEVE = 12,
  LINKINFO_FAMILY_GRE = 13,
  LINKINFO_FAMILY_GRE6 = 14,
  LINKINFO_FAMILY_GTP = 15,
  LINKINFO_FAMILY_HSR = 16,
  LINKINFO_FAMILY_IPTUNNEL = 17,
  LINKINFO_FAMILY_IPVLAN = 18,
  LINKINFO_FAMILY_IPVTAP = 19,
  LINKINFO_FAMILY_IPOIB = 20,
  LINKINFO_FAMILY_MACSEC = 21,
  LINKINFO_FAMILY_MACVLAN = 22,
  LINKINFO_FAMILY_MACVTAP = 23,
  LINKINFO_FAMILY_NETKIT = 24,
  LINKINFO_FAMILY_PFCP = 25,
  LINKINFO_FAMILY_RMNET = 26,
  LINKINFO_FAMILY_TEAMPORT = 27,
  LINKINFO_FAMILY_TUN = 28,
  LINKINFO_FAMILY_VETH = 29,
  LINKINFO_FAMILY_VLAN = 30,
  LINKINFO_FAMILY_VRF = 31,
  LINKINFO_FAMILY_VTI = 32,
  LINKINFO_FAMILY_VXCAN = 33,
  LINKINFO_FAMILY_VXLAN = 34,
  LINKINFO_FAMILY_WIREGUARD = 35,
  LINKINFO_FAMILY_WWAN = 36,
  LINKINFO_FAMILY_XFRM = 37,
  LINKINFO_FAMILY_VLANQOSMAPPING = 38,
  LINKINFO_FAMILY_BONDADINFO = 39,
  LINKINFO_FAMILY_BRIDGEQUERIERSTATE = 40,
  LINKINFO_FAMILY_CANTDC = 41,
  LINKINFO_FAMILY_CANCTRLMODEEXT = 42,
  LINKINFO_FAMILY_CANPWM = 43,
  LINKINFO_FAMILY_OVPN = 44,
  LINKINFO_FAMILY_PPP = 45
  /* End: written by tables/generate. */
};

/* The kind of a link: the string of IFLA_INFO_KIND. */
enum linkinfo_kind {
  LINKINFO_KIND_NONE = 0,
  LINKINFO_KIND_OTHER = 1, /* every other name */
  /* Begin: written by tables/generate from tables/kinds. */
  LINKINFO_KIND_DUMMY = 2,
  LINKINFO_KIND_IFB = 3,
  LINKINFO_KIND_BRIDGE = 4,
  LINKINFO_KIND_TUN = 5,
  LINKINFO_KIND_NLMON = 6,
  LINKINFO_KIND_VLAN = 7,
  LINKINFO_KIND_VETH = 8,
  LINKINFO_KIND_VXLAN = 9,
  LINKINFO_KIND_BOND = 10,
  LINKINFO_KIND_IPVLAN = 11,
  LINKINFO_KIND_IPVTAP = 12,
  LINKINFO_KIND_MACVLAN = 13,
  LINKINFO_KIND_MACVTAP = 14,
  LINKINFO_KIND_GRETAP = 15,
  LINKINFO_KIND_IP6GRETAP = 16,
  LINKINFO_KIND_IPIP = 17,
  LINKINFO_KIND_IP6TNL = 18,
  LINKINFO_KIND_SIT = 19,
  LINKINFO_KIND_GRE = 20,
  LINKINFO_KIND_IP6GRE = 21,
  LINKINFO_KIND_VTI = 22,
  LINKINFO_KIND_VTI6 = 23,
  LINKINFO_KIND_VRF = 24,
  LINKINFO_KIND_GTP = 25,
  LINKINFO_KIND_IPOIB = 26,
  LINKINFO_KIND_WIREGUARD = 27,
  LINKINFO_KIND_XFRM = 28,
  LINKINFO_KIND_MACSEC = 29,
  LINKINFO_KIND_HSR = 30,
  LINKINFO_KIND_GENEVE = 31,
  LINKINFO_KIND_NETKIT = 32,
  LINKINFO_KIND_VCAN = 33,
  LINKINFO_KIND_VXCAN = 34,
  LINKINFO_KIND_AMT = 35,
  LINKINFO_KIND_BATADV = 36,
  LINKINFO_KIND_BAREUDP = 37,
  LINKINFO_KIND_NETDEVSIM = 38,
  LINKINFO_KIND_VIRT_WIFI = 39,
  LINKINFO_KIND_WWAN = 40,
  LINKINFO_KIND_CAN = 41,
  LINKINFO_KIND_DSA = 42,
  LINKINFO_KIND_TEAM = 43,
  LINKINFO_KIND_ERSPAN = 44,
  LINKINFO_KIND_IP6ERSPAN = 45,
  LINKINFO_KIND_PFCP = 46,
  LINKINFO_KIND_RMNET = 47
  /* End: written by tables/generate. */
};

/* The kind of the link that a port belongs to: the string of
 * IFLA_INFO_SLAVE_KIND. Its numbers differ from those of enum linkinfo_kind. */
enum linkinfo_port_kind {
  LINKINFO_PORT_KIND_NONE = 0,
  LINKINFO_PORT_KIND_OTHER = 256, /* every other name */
  /* Begin: written by tables/generate from tables/ports. */
  LINKINFO_PORT_KIND_BOND = 257,
  LINKINFO_PORT_KIND_BRIDGE = 258,
  LINKINFO_PORT_KIND_VRF = 259,
  LINKINFO_PORT_KIND_TEAM = 260
  /* End: written by tables/generate. */
};

/* The kind of a list in data: list_kind of its value. It is the kind of the
 * attributes in that list for linkinfo_values. Its numbers differ from those of
 * enum linkinfo_kind and enum linkinfo_port_kind. */
enum linkinfo_list_kind {
  LINKINFO_LIST_KIND_NONE = 0, /* no list, or a list of attributes of the same
                                  family, which have the kind of the data */
  LINKINFO_LIST_KIND_V4 = 512, /* IPv4 addresses */
  LINKINFO_LIST_KIND_V6 = 513, /* IPv6 addresses */
  /* Begin: written by tables/generate from tables/families (lists). */
  LINKINFO_LIST_KIND_VLANQOSMAPPING = 550,
  LINKINFO_LIST_KIND_BONDADINFO = 551,
  LINKINFO_LIST_KIND_BRIDGEQUERIERSTATE = 552,
  LINKINFO_LIST_KIND_CANTDC = 553,
  LINKINFO_LIST_KIND_CANCTRLMODEEXT = 554,
  LINKINFO_LIST_KIND_CANPWM = 555
  /* End: written by tables/generate. */
};

/* An error. With cause 0 there is none, and family and type are 0 too. */
struct linkinfo_error {
  uint16_t family; /* enum linkinfo_family */
  uint16_t type;   /* of the attribute with the error, without its two flag
                      bits */
  uint32_t cause;  /* enum linkinfo_cause */
};

/*
 * linkinfo_check - validates a list
 * @bytes: the list
 * @length: its length in bytes
 *
 * Return: the first error in byte order, or none (cause 0).
 * Time: linear; each header is examined once.
 * Threads: MT-Safe.
 */
LINKINFO_NODISCARD struct linkinfo_error
linkinfo_check(const uint8_t *bytes, size_t length);

/* An error and its offset. */
struct linkinfo_error_at {
  struct linkinfo_error error;
  size_t place; /* the offset of the attribute of the list that has the error,
                   itself or in its contents, or the offset at which no header
                   is accepted; 0 without an error */
};

/*
 * linkinfo_check_at - validates a list, and finds the attribute with the error
 * @bytes: the list
 * @length: its length in bytes
 *
 * Return: the error that linkinfo_check returns, with its offset.
 * Time: linear; each header is examined once, those of rejected data up to
 * three times.
 * Threads: MT-Safe.
 */
LINKINFO_NODISCARD struct linkinfo_error_at
linkinfo_check_at(const uint8_t *bytes, size_t length);

/* An error and two offsets: of the attribute of the list, and of the innermost
 * attribute. */
struct linkinfo_inner_error {
  struct linkinfo_error error;
  size_t place; /* the offset that linkinfo_check_at returns */
  size_t inner; /* the offset in the list of the innermost attribute that has
                   the error: in data, or in a nested list in data; there, of an
                   error of a header, the offset at which no header is accepted.
                   Of an address of another length, that of its list.
                   In data of veth and vxcan, which is no list, the offset of
                   its payload. place where the attribute of the list has the
                   error itself, and 0 without an error */
};

/*
 * linkinfo_check_inner - validates a list, and finds the innermost attribute
 * with the error
 * @bytes: the list
 * @length: its length in bytes
 *
 * linkinfo_error_message() makes a sentence of the error and the offset inner.
 *
 * Return: the error that linkinfo_check returns, with both offsets.
 * Time: linear, as linkinfo_check_at.
 * Threads: MT-Safe.
 */
LINKINFO_NODISCARD struct linkinfo_inner_error
linkinfo_check_inner(const uint8_t *bytes, size_t length);

/*
 * linkinfo_check_inner_opaque - validates a list, with bonds, bridges and their
 * like opaque
 * @bytes: the list
 * @length: its length in bytes
 *
 * As linkinfo_check_inner, but in data of bond, bridge, can, dsa, hsr, tun and
 * vlan links, and of ports of bonds and bridges, headers alone are examined.
 *
 * Return: the first error in byte order, with both offsets, or none.
 * Time: linear, as linkinfo_check_at.
 * Threads: MT-Safe.
 */
LINKINFO_NODISCARD struct linkinfo_inner_error
linkinfo_check_inner_opaque(const uint8_t *bytes, size_t length);

/* Whether two lists are equivalent. */
struct linkinfo_same_result {
  struct linkinfo_error error; /* of the first list, else of the second */
  uint32_t rejected;           /* which list has it: 1 or 2; 0 where neither has
                                  one */
  bool same;                   /* whether they are equivalent; false with an
                                  error */
};

/*
 * linkinfo_same - compares two lists for equal meaning
 * @a: the first list
 * @a_length: its length in bytes
 * @b: the second list
 * @b_length: its length in bytes
 *
 * The lists are two requests, or two canonical encodings. For a link and a
 * request, call linkinfo_first_unmet.
 *
 * Return: whether they are equivalent, or the error of a list.
 * Time: linear; each header is examined at most twice.
 * Threads: MT-Safe.
 */
LINKINFO_NODISCARD struct linkinfo_same_result
linkinfo_same(const uint8_t *a, size_t a_length, const uint8_t *b,
              size_t b_length);

/*
 * linkinfo_same_opaque - compares two lists, with bonds, bridges and their like
 * opaque
 * @a: the first list
 * @a_length: its length in bytes
 * @b: the second list
 * @b_length: its length in bytes
 *
 * As linkinfo_same, but attributes of bond, bridge, can, dsa, hsr, tun and vlan
 * links, and of ports of bonds and bridges, are compared as bytes, with their
 * flag bits.
 *
 * Return: whether they are equivalent, or the error of a list.
 * Time: linear; each header is examined at most twice.
 * Threads: MT-Safe.
 */
LINKINFO_NODISCARD struct linkinfo_same_result
linkinfo_same_opaque(const uint8_t *a, size_t a_length, const uint8_t *b,
                     size_t b_length);

/* Whether two lists are equivalent, and the first pair of attributes in which
 * they differ. Where there is no such pair, its family, type and offsets are
 * 0. */
struct linkinfo_difference {
  struct linkinfo_error error; /* of the first list, else of the second */
  uint32_t rejected;           /* which list has it: 1 or 2; 0 where neither has
                                  one */
  uint16_t family;             /* enum linkinfo_family: LINKINFO_FAMILY_LINKINFO
                                  of attributes of the list, or that of
                                  attributes in data or in a nested list */
  uint16_t type;               /* of the first list's attribute, else of the
                                  second's, without its two flag bits */
  size_t first;                /* where is_in_first, the offset of the header of
                                  the first list's attribute; else 0 */
  size_t second;               /* where is_in_second, that of the second list's;
                                  else 0 */
  bool same;                   /* whether they are equivalent; false with an
                                  error */
  bool is_in_first;            /* false where the first list, or the data, has
                                  ended there */
  bool is_in_second;           /* false where the second has */
};

/*
 * linkinfo_first_difference - finds where two lists differ first
 * @a: the first list
 * @a_length: its length in bytes
 * @b: the second list
 * @b_length: its length in bytes
 *
 * Attributes are compared in byte order, those of data and of nested lists one
 * by one. Lists of addresses, and data that is no list, as that of veth and
 * vxcan with its peer, are compared as a whole: the pair is that of the list or
 * of the data. As linkinfo_same, it is for two requests, or for two canonical
 * encodings.
 *
 * Return: the first pair of attributes in which they differ, or the error of a
 * list.
 * Time: linear; each header is examined at most four times.
 * Threads: MT-Safe.
 */
LINKINFO_NODISCARD struct linkinfo_difference
linkinfo_first_difference(const uint8_t *a, size_t a_length, const uint8_t *b,
                          size_t b_length);

/*
 * linkinfo_first_difference_opaque - finds where two lists differ first, with
 * bonds, bridges and their like opaque
 * @a: the first list
 * @a_length: its length in bytes
 * @b: the second list
 * @b_length: its length in bytes
 *
 * As linkinfo_first_difference, but attributes of bond, bridge, can, dsa, hsr,
 * tun and vlan links, and of ports of bonds and bridges, are compared as bytes,
 * with their flag bits.
 *
 * Return: the first pair of attributes in which they differ, or the error of a
 * list.
 * Time: linear; each header is examined at most four times.
 * Threads: MT-Safe.
 */
LINKINFO_NODISCARD struct linkinfo_difference
linkinfo_first_difference_opaque(const uint8_t *a, size_t a_length,
                                 const uint8_t *b, size_t b_length);

/* Whether a link meets a request, and the first attribute of the request that
 * it does not meet. Where there is no such attribute, its family, type and
 * offsets are 0. */
struct linkinfo_unmet {
  struct linkinfo_error error; /* of the first list, else of the second */
  uint32_t rejected;           /* which list has it: 1 or 2; 0 where neither has
                                  one */
  uint16_t family;             /* enum linkinfo_family: LINKINFO_FAMILY_LINKINFO
                                  of an attribute of the list, or that of an
                                  attribute in data or in a nested list */
  uint16_t type;               /* without its two flag bits */
  size_t want;                 /* the offset of its header in the second list */
  size_t have;                 /* where is_present, the offset in the first list
                                  of the header of the last attribute of that
                                  type; else 0 */
  bool met;                    /* whether each attribute is met, of those that
                                  are asked for; false with an error */
  bool is_present;             /* whether there is an attribute of that type: of
                                  an attribute of the list, in the first list,
                                  whatever its kind; of one in data, in the last
                                  data of the first list; of one in a nested
                                  list, in the last such list of that data.
                                  False of a mapping of priorities, of which the
                                  list has others */
};

/*
 * linkinfo_first_unmet - finds the first attribute of a request that a link
 * does not have
 * @have: the link, as the kernel returned it
 * @have_length: its length in bytes
 * @want: the request
 * @want_length: its length in bytes
 *
 * The order of attributes of different types does not matter, nor do the flag
 * bits of an attribute's own type, nor further attributes of the link.
 *
 * Of several attributes of a type the last one counts, as in the kernel. An
 * attribute of the request is met where that of the link has an equal payload
 * or is equivalent. Data, port data and statistics also require that the kind
 * or the port kind has the same name. Data that is a list is compared attribute
 * by attribute, so empty data of such a kind is met by any data of that kind,
 * and not without data. So are nested lists of shape NESTED: a request for
 * IFLA_CAN_TDC_TDCO alone is met by a link that has the limits too. Each
 * mapping of priorities of a VLAN, which a request adds, is met by an equal
 * one, in any order. Lists of shape SELF_LIST, V4_LIST and V6_LIST, and data
 * that is no list, as that of veth and vxcan, are compared as a whole, with
 * their order. The flag bits of types in lists of shape NESTED do not matter;
 * of SELF_LIST those of known types do not, and those of unknown types do.
 *
 * Return: the first attribute of the request that is not met, or the error of a
 * list.
 * Time: linear; three passes over the lists for types below 64, which are all
 * of the kernel's, and three more for each further 64 up to the largest type of
 * the request. Mappings of priorities take the product of the lengths of both
 * lists: the longest that fit, 5,460 mappings each, take some
 * 0.2 to 0.5 seconds.
 * Threads: MT-Safe.
 */
LINKINFO_NODISCARD struct linkinfo_unmet
linkinfo_first_unmet(const uint8_t *have, size_t have_length,
                     const uint8_t *want, size_t want_length);

/*
 * linkinfo_first_unmet_opaque - finds the first attribute of a request that a
 * link does not have, with bonds, bridges and their like opaque
 * @have: the link, as the kernel returned it
 * @have_length: its length in bytes
 * @want: the request
 * @want_length: its length in bytes
 *
 * As linkinfo_first_unmet, but attributes of bond, bridge, can, dsa, hsr, tun
 * and vlan links, and of ports of bonds and bridges, are compared as bytes,
 * whatever their flag bits.
 *
 * Return: the first attribute of the request that is not met, or the error of a
 * list.
 * Time: linear, as linkinfo_first_unmet without mappings.
 * Threads: MT-Safe.
 */
LINKINFO_NODISCARD struct linkinfo_unmet
linkinfo_first_unmet_opaque(const uint8_t *have, size_t have_length,
                            const uint8_t *want, size_t want_length);

/*
 * linkinfo_next_unmet - finds the next attribute of a request that a link does
 * not have, from an offset on
 * @have: the link, as the kernel returned it
 * @have_length: its length in bytes
 * @want: the request
 * @want_length: its length in bytes
 * @from: the offset in the request, in bytes, from which on its attributes are
 * told; 0 for the first one
 *
 * The offset is the caller's, and no state is kept. The next one after an
 * attribute at the offset want is that from want + 1 on. So each attribute that
 * is not met is told once, in the order of the request:
 *
 *   struct linkinfo_unmet unmet =
 *       linkinfo_next_unmet(have, have_length, want, want_length, 0);
 *   for (; unmet.rejected == 0 && !unmet.met;
 *        unmet = linkinfo_next_unmet(have, have_length, want, want_length,
 *                                    unmet.want + 1))
 *     printf("type %u at offset %zu\n", (unsigned)unmet.type, unmet.want);
 *
 * What is met is said at linkinfo_first_unmet, which returns what this does
 * with 0. An offset inside an attribute is accepted: that attribute is not
 * told, and attributes that begin later in it are, if it is a list that is
 * compared attribute by attribute. From the end of the request on none is left.
 * Of several attributes of a type only the last one is told, as only that one
 * counts; of mappings of priorities each one is.
 *
 * Return: the first attribute of the request, of those whose header is at the
 * offset or after it, that is not met; that all are met, where none of them is
 * left; or the error of a list, whatever the offset.
 * Time: as linkinfo_first_unmet, each time, so a loop over all takes that time
 * for each attribute that is not met. Attributes that end before the offset are
 * not compared.
 * Threads: MT-Safe.
 */
LINKINFO_NODISCARD struct linkinfo_unmet
linkinfo_next_unmet(const uint8_t *have, size_t have_length,
                    const uint8_t *want, size_t want_length, size_t from);

/*
 * linkinfo_next_unmet_opaque - finds the next attribute of a request that a
 * link does not have, from an offset on, with bonds, bridges and their like
 * opaque
 * @have: the link, as the kernel returned it
 * @have_length: its length in bytes
 * @want: the request
 * @want_length: its length in bytes
 * @from: the offset in the request, in bytes, from which on its attributes are
 * told; 0 for the first one
 *
 * As linkinfo_next_unmet, but attributes of bond, bridge, can, dsa, hsr, tun
 * and vlan links, and of ports of bonds and bridges, are compared as bytes,
 * whatever their flag bits.
 *
 * Return: the first attribute of the request, of those whose header is at the
 * offset or after it, that is not met; that all are met, where none of them is
 * left; or the error of a list, whatever the offset.
 * Time: linear, as linkinfo_first_unmet_opaque, each time.
 * Threads: MT-Safe.
 */
LINKINFO_NODISCARD struct linkinfo_unmet
linkinfo_next_unmet_opaque(const uint8_t *have, size_t have_length,
                           const uint8_t *want, size_t want_length,
                           size_t from);

/* The outcome of linkinfo_canon. */
enum linkinfo_canon_status {
  LINKINFO_CANON_WRITTEN = 0, /* the canonical encoding is in the buffer */
  LINKINFO_CANON_REFUSED = 1, /* the list has an error */
  LINKINFO_CANON_UNFIT = 2,   /* a payload would have more than 65531 bytes, or
                                 the whole more than a size_t counts */
  LINKINFO_CANON_SHORT = 3    /* the buffer is too short for it */
};

/* The outcome of linkinfo_canon, and the length of the canonical encoding. */
struct linkinfo_canon_result {
  struct linkinfo_error error; /* of the list, with status REFUSED */
  uint32_t status;             /* enum linkinfo_canon_status */
  size_t length;               /* of the canonical encoding, with status WRITTEN
                                  or SHORT; else 0 */
};

/*
 * linkinfo_canon - writes the canonical encoding of a list
 * @bytes: the list
 * @length: its length in bytes
 * @buffer: where the encoding is written; must not overlap the list
 * @buffer_length: its length in bytes
 *
 * All equivalent lists have one canonical encoding. The bytes of the buffer
 * after it are unchanged, and so is the whole buffer with any other status than
 * WRITTEN. Without a buffer (NULL and 0) the status is SHORT, with the length
 * that is needed.
 *
 * Return: the status, and the length of the encoding.
 * Time: linear; one pass validates and measures, one writes. In the first, a
 * list inside an attribute of data is visited twice.
 * Threads: MT-Safe.
 */
LINKINFO_NODISCARD struct linkinfo_canon_result
linkinfo_canon(const uint8_t *LINKINFO_RESTRICT bytes, size_t length,
               uint8_t *LINKINFO_RESTRICT buffer, size_t buffer_length);

/*
 * linkinfo_canon_opaque - writes the canonical encoding of a list, with bonds,
 * bridges and their like opaque
 * @bytes: the list
 * @length: its length in bytes
 * @buffer: where the encoding is written; must not overlap the list
 * @buffer_length: its length in bytes
 *
 * As linkinfo_canon, but attributes of bond, bridge, can, dsa, hsr, tun and
 * vlan links, and of ports of bonds and bridges, are written as they are, with
 * their flag bits. The padding after them is zeros.
 *
 * Return: the status, and the length of the encoding.
 * Time: linear, as linkinfo_canon.
 * Threads: MT-Safe.
 */
LINKINFO_NODISCARD struct linkinfo_canon_result
linkinfo_canon_opaque(const uint8_t *LINKINFO_RESTRICT bytes, size_t length,
                      uint8_t *LINKINFO_RESTRICT buffer, size_t buffer_length);

/* The number of headers that were examined. */
struct linkinfo_count_result {
  struct linkinfo_error error;
  size_t count; /* headers examined, at all depths, up to the error: at most a
                   quarter of the bytes */
};

/*
 * linkinfo_count - validates a list, and counts the headers that this examines
 * @bytes: the list
 * @length: its length in bytes
 *
 * It ends at the first error, also at one inside data; linkinfo_items does not
 * look inside data.
 *
 * Return: the error that linkinfo_check returns, and the number of headers, at
 * all depths, up to it.
 * Time: linear; each header is examined once.
 * Threads: MT-Safe.
 */
LINKINFO_NODISCARD struct linkinfo_count_result
linkinfo_count(const uint8_t *bytes, size_t length);

/*
 * linkinfo_count_opaque - validates a list, and counts the headers that this
 * examines, with bonds, bridges and their like opaque
 * @bytes: the list
 * @length: its length in bytes
 *
 * As linkinfo_count, but attributes of bond, bridge, can, dsa, hsr, tun and
 * vlan links, and of ports of bonds and bridges, are kept as bytes: of these
 * the headers of the attributes are counted, and none inside them.
 *
 * Return: the error that linkinfo_check_inner_opaque returns, and the number of
 * headers up to it.
 * Time: linear; each header is examined once.
 * Threads: MT-Safe.
 */
LINKINFO_NODISCARD struct linkinfo_count_result
linkinfo_count_opaque(const uint8_t *bytes, size_t length);

/* An attribute of the list. */
struct linkinfo_item {
  size_t place;       /* the offset of its header; its payload is four bytes
                         after that */
  size_t length;      /* of its payload */
  uint16_t raw_type;  /* with its flag bits NLA_F_NESTED and
                         NLA_F_NET_BYTEORDER */
  uint16_t kind;      /* the current kind of the link, before this attribute,
                         enum linkinfo_kind; linkinfo_kind_of_name() has that
                         of a payload of IFLA_INFO_KIND, without its NUL */
  uint16_t port_kind; /* the current port kind, before this attribute, enum
                         linkinfo_port_kind */
};

/* The number of attributes, and the error that ends them. */
struct linkinfo_list_result {
  struct linkinfo_error error;
  size_t place; /* the offset of that error; without one the number of bytes, or
                   0 where data is opaque bytes */
  size_t count; /* of all attributes, whatever room the array has: at most a
                   quarter of the bytes */
};

/*
 * linkinfo_items - writes the attributes of a list
 * @bytes: the list
 * @length: its length in bytes
 * @items: an array, into which the attributes are written in order
 * @items_length: the number of its items; length / 4 is enough for every list
 *
 * As many are written as the array has room for, and the rest of the array is
 * unchanged. They end at the first attribute that has no accepted header, no
 * current kind that it requires, or a name that is not UTF-8. No other payload
 * is examined. So they do not end at an error inside data, which
 * linkinfo_check returns and at which linkinfo_count ends.
 *
 * The values of the data of an item:
 *
 *   if ((item.raw_type & NLA_TYPE_MASK) == IFLA_INFO_DATA)
 *     found = linkinfo_values(bytes + item.place + NLA_HDRLEN, item.length,
 *                             item.kind, values, values_length);
 *
 * Return: the number of all attributes, whatever room the array has, and the
 * error that ends them.
 * Time: linear in the number of attributes and the length of names.
 * Threads: MT-Safe.
 */
LINKINFO_NODISCARD struct linkinfo_list_result
linkinfo_items(const uint8_t *LINKINFO_RESTRICT bytes, size_t length,
               struct linkinfo_item *LINKINFO_RESTRICT items,
               size_t items_length);

/* The shape of the payload of an attribute, in data or of the list. */
enum linkinfo_shape {
  LINKINFO_SHAPE_NONE = 0,  /* the type has no known shape: the attribute is
                               opaque */
  LINKINFO_SHAPE_U8 = 1,    /* a number of one byte */
  LINKINFO_SHAPE_LE16 = 2,  /* a little-endian number of two bytes */
  LINKINFO_SHAPE_LE32 = 3,  /* of four */
  LINKINFO_SHAPE_LE64 = 4,  /* of eight */
  LINKINFO_SHAPE_BE16 = 5,  /* a big-endian number of two bytes */
  LINKINFO_SHAPE_BE32 = 6,  /* of four */
  LINKINFO_SHAPE_BE64 = 7,  /* of eight */
  LINKINFO_SHAPE_I32 = 8,   /* a signed little-endian number of four bytes */
  LINKINFO_SHAPE_TRUTH = 9, /* one byte, true where it is not 0 */
  LINKINFO_SHAPE_TRUTH_ONE = 10, /* one byte, true where it is 1 */
  LINKINFO_SHAPE_MARK = 11,      /* a presence flag; its bytes are ignored */
  LINKINFO_SHAPE_NAME = 12,      /* a text, without one trailing NUL */
  LINKINFO_SHAPE_V4 = 13,        /* an IPv4 address */
  LINKINFO_SHAPE_V6 = 14,        /* an IPv6 address */
  LINKINFO_SHAPE_GENEVE_V4 = 15, /* an IPv4 address; 16 bytes have the cause
                                    ADDRESS_KIND */
  LINKINFO_SHAPE_GENEVE_V6 = 16, /* an IPv6 address; 4 bytes have the cause
                                    ADDRESS_KIND */
  LINKINFO_SHAPE_IP = 17,        /* an address of either version */
  LINKINFO_SHAPE_MAC = 18,       /* a hardware address of six bytes */
  LINKINFO_SHAPE_BE_PAIR = 19,   /* two big-endian numbers of two bytes */
  LINKINFO_SHAPE_FLAG_PAIR = 20, /* two little-endian numbers of four bytes:
                                    flags and their mask; of IFLA_CAN_CTRLMODE
                                    the mask is first, and of a mapping of
                                    priorities they are from and to */
  LINKINFO_SHAPE_EMPTY_OR_BYTE = 21, /* nothing or one byte */
  LINKINFO_SHAPE_SCRUB = 22,     /* a little-endian number of four bytes: 0 is
                                    no scrubbing */
  LINKINFO_SHAPE_RAW = 23,       /* any bytes */
  LINKINFO_SHAPE_SELF_LIST = 24, /* a list of attributes of the same family */
  LINKINFO_SHAPE_PEER = 25,      /* the peer of a veth, vxcan or netkit */
  LINKINFO_SHAPE_NESTED = 26,    /* a list of attributes of another family */
  LINKINFO_SHAPE_BRIDGE_ID = 27, /* the identifier of a bridge, 8 bytes: a
                                    big-endian priority of two bytes, then a
                                    hardware address (struct ifla_bridge_id) */
  LINKINFO_SHAPE_LE_PAIR16 = 28, /* two little-endian numbers of two bytes
                                    (struct can_berr_counter) */
  LINKINFO_SHAPE_LE32X8 = 29,    /* eight little-endian numbers of four bytes
                                    (struct can_bittiming) */
  LINKINFO_SHAPE_CAN_BIT_TIMING_CONST = 30, /* a name of 16 bytes, then eight
                                               such numbers (struct
                                               can_bittiming_const) */
  LINKINFO_SHAPE_LE16S = 31,     /* any number of little-endian numbers of two
                                    bytes */
  LINKINFO_SHAPE_LE32S = 32,     /* of four */
  LINKINFO_SHAPE_V4_LIST = 33,   /* a list of attributes of any types, each an
                                    IPv4 address */
  LINKINFO_SHAPE_V6_LIST = 34    /* an IPv6 address */
};

/* An attribute in data or port data. */
struct linkinfo_attribute {
  size_t place;      /* the offset of its header in the data; its payload is
                        four bytes after that */
  size_t length;     /* of its payload */
  uint64_t number;   /* the number that its payload means, else 0 */
  uint16_t raw_type; /* with its flag bits */
  uint16_t shape;    /* enum linkinfo_shape */
  bool is_number;    /* whether the payload means an unsigned number: of shape
                        U8, LE16 .. BE64, or one byte of EMPTY_OR_BYTE; not of
                        I32 or SCRUB */
};

/*
 * linkinfo_attributes - writes the attributes of data, with their numbers
 * @bytes: data or port data: the payload of an item of type IFLA_INFO_DATA or
 * IFLA_INFO_SLAVE_DATA; or a nested list, the payload of an attribute in data
 * @length: its length in bytes
 * @kind: that item's kind for data, or its port_kind for port data; for a
 * nested list the list_kind of its value, or if that is 0, the kind of the data
 * @attributes: an array, into which the attributes are written in order
 * @attributes_length: the number of its items; length / 4 is enough
 *
 * As many are written as the array has room for, and the rest of the array is
 * unchanged. They end at the first attribute without an accepted header.
 * Payloads are not validated here: that is for linkinfo_check of the list.
 *
 * Where data of the kind is opaque bytes, there are none, and place is 0.
 * Attributes of wireguard and pfcp data, and of ports of teams, have no known
 * shape. The payload of shape SELF_LIST is such data again. What follows the
 * first attribute of veth and vxcan data is written here too, though parsing
 * ignores it.
 *
 * Return: the number of all attributes, whatever room the array has, and the
 * error that ends them.
 * Time: linear.
 * Threads: MT-Safe.
 */
LINKINFO_NODISCARD struct linkinfo_list_result
linkinfo_attributes(const uint8_t *LINKINFO_RESTRICT bytes, size_t length,
                    uint16_t kind,
                    struct linkinfo_attribute *LINKINFO_RESTRICT attributes,
                    size_t attributes_length);

/* Which members of struct linkinfo_value have the value of a payload. */
enum linkinfo_value_type {
  LINKINFO_VALUE_NONE = 0,    /* none: the type has no known shape, or the shape
                                 does not accept the payload */
  LINKINFO_VALUE_NUMBER = 1,  /* number: U8, LE16 .. BE64, and one byte of
                                 EMPTY_OR_BYTE */
  LINKINFO_VALUE_SIGNED = 2,  /* signed_number: I32 */
  LINKINFO_VALUE_TRUTH = 3,   /* truth: TRUTH, true where the byte is not 0;
                                 TRUTH_ONE, true where it is 1; SCRUB, true for
                                 the default scrubbing */
  LINKINFO_VALUE_PRESENT = 4, /* truth, which is true: MARK, and EMPTY_OR_BYTE
                                 without a byte */
  LINKINFO_VALUE_TEXT = 5,    /* length: NAME, the first bytes of the payload,
                                 without one trailing NUL; it is UTF-8 and may
                                 have other NULs */
  LINKINFO_VALUE_IPV4 = 6,    /* octets, 4: V4, GENEVE_V4, IP */
  LINKINFO_VALUE_IPV6 = 7,    /* octets, 16: V6, GENEVE_V6, IP */
  LINKINFO_VALUE_MAC = 8,     /* octets, 6: MAC */
  LINKINFO_VALUE_PAIR = 9,    /* first and second: BE_PAIR, and FLAG_PAIR */
  LINKINFO_VALUE_LIST = 10,   /* length and list_kind: SELF_LIST, NESTED,
                                 V4_LIST and V6_LIST, the payload, whose
                                 attributes are those of another call; they may
                                 have an error */
  LINKINFO_VALUE_BYTES = 11   /* length: RAW, PEER, BRIDGE_ID, LE_PAIR16,
                                 LE32X8, CAN_BIT_TIMING_CONST, LE16S and LE32S,
                                 the payload, to be copied into the kernel's
                                 struct or an array */
};

/* What a payload means. Members that do not have the value are 0 or false. */
struct linkinfo_value {
  uint64_t number;
  int64_t signed_number;
  size_t length;       /* of the text, of the address, or of the payload that is
                          a list or bytes */
  uint8_t octets[16];  /* of the address, in network byte order, followed by
                          zeros */
  uint32_t first;      /* of a pair; the flags, but of IFLA_CAN_CTRLMODE the
                          mask */
  uint32_t second;     /* of a pair; the mask, but of IFLA_CAN_CTRLMODE the
                          flags */
  uint32_t value_type; /* enum linkinfo_value_type */
  uint16_t list_kind;  /* enum linkinfo_list_kind, of a list */
  bool truth;
};

/* An attribute in data or port data, or of the list, with its value. */
struct linkinfo_valued_attribute {
  size_t place;                /* the offset of its header in the data; its
                                  payload is four bytes after that */
  size_t length;               /* of its payload */
  struct linkinfo_value value; /* what its payload means */
  uint16_t raw_type;           /* with its flag bits */
  uint16_t shape;              /* enum linkinfo_shape */
};

/*
 * linkinfo_values - writes the attributes of data, with their values
 * @bytes: data, port data or a nested list, as for linkinfo_attributes
 * @length: its length in bytes
 * @kind: the kind, the port kind or the list_kind, as for linkinfo_attributes
 * @values: an array, into which the attributes are written in order
 * @values_length: the number of its items; length / 4 is enough
 *
 * Writes the attributes that linkinfo_attributes writes, each with what its
 * payload means: numbers, truth values, flags, texts, addresses and pairs. A
 * payload that linkinfo_check rejects for its own length or text has no value.
 *
 * The values of a nested list, as of the mappings of priorities of a VLAN:
 *
 *   if (value.value_type == LINKINFO_VALUE_LIST)
 *     found = linkinfo_values(payload, value.length,
 *                             value.list_kind ? value.list_kind : kind,
 *                             inner, inner_length);
 *
 * Return: the result of linkinfo_attributes.
 * Time: linear.
 * Threads: MT-Safe.
 */
LINKINFO_NODISCARD struct linkinfo_list_result
linkinfo_values(const uint8_t *LINKINFO_RESTRICT bytes, size_t length,
                uint16_t kind,
                struct linkinfo_valued_attribute *LINKINFO_RESTRICT values,
                size_t values_length);

/* The attribute at an offset in a list, with its value. */
struct linkinfo_placed_value {
  struct linkinfo_valued_attribute attribute; /* its place is the offset in the
                                                 list; 0 if is_found is false */
  uint16_t family; /* enum linkinfo_family: LINKINFO_FAMILY_LINKINFO of an
                      attribute of the list */
  bool is_found;
};

/*
 * linkinfo_value_at - returns the attribute at an offset in a list, with its
 * value
 * @bytes: the list
 * @length: its length in bytes
 * @offset: the offset of the attribute's header in the list: an offset of
 *          struct linkinfo_unmet or linkinfo_difference, or inner of struct
 *          linkinfo_inner_error if an attribute has the error
 *
 * The attribute is one of the list, of data or port data, or of a list nested
 * there. The payload of a name is a text, that of data and of statistics bytes,
 * and an attribute of an unknown type has no value.
 *
 * Both values of an attribute that a link does not meet:
 *
 *   if (unmet.rejected == 0 && !unmet.met)
 *     wanted = linkinfo_value_at(want, want_length, unmet.want);
 *   if (unmet.is_present)
 *     present = linkinfo_value_at(have, have_length, unmet.have);
 *
 * Return: the attribute; is_found is false if none begins at the offset, as at
 * that of an element of a list of addresses.
 * Time: linear; no payload is examined but those of names before the offset,
 * those around it, and the attribute's own.
 * Threads: MT-Safe.
 */
LINKINFO_NODISCARD struct linkinfo_placed_value
linkinfo_value_at(const uint8_t *bytes, size_t length, size_t offset);

/* The outcome of linkinfo_next_link. */
enum linkinfo_link_status {
  LINKINFO_LINK_END = 0,     /* no link message is left */
  LINKINFO_LINK_FOUND = 1,   /* a link message */
  LINKINFO_LINK_REJECTED = 2 /* a message is rejected */
};

/* What has happened to a link. */
enum linkinfo_link_event {
  LINKINFO_EVENT_NONE = 0,   /* no link message */
  LINKINFO_EVENT_NEW = 1,    /* RTM_NEWLINK: the link is new, has changed, or is
                                part of a dump */
  LINKINFO_EVENT_DELETED = 2 /* RTM_DELLINK: the link is deleted */
};

/* What is wrong with a message. */
enum linkinfo_message_cause {
  LINKINFO_MESSAGE_CAUSE_NONE = 0,
  LINKINFO_MESSAGE_CAUSE_HEADER = 1, /* fewer than 16 bytes are left, the length
                                        of struct nlmsghdr */
  LINKINFO_MESSAGE_CAUSE_SHORT = 2,  /* nlmsg_len is less than 16 */
  LINKINFO_MESSAGE_CAUSE_LONG = 3,   /* nlmsg_len exceeds the bytes that are
                                        left */
  LINKINFO_MESSAGE_CAUSE_LINK_HEADER = 4, /* a link message whose nlmsg_len has
                                             no room for struct ifinfomsg */
  LINKINFO_MESSAGE_CAUSE_ATTRIBUTE = 5    /* a link message with an attribute
                                             whose header is not accepted */
};

/* An error of a message. With cause 0 there is none, and place and length are 0
 * too. */
struct linkinfo_message_error {
  size_t place;    /* with cause ATTRIBUTE, the offset at which no header of an
                      attribute is accepted; else the offset of the message */
  uint32_t length; /* with causes SHORT, LONG and LINK_HEADER, nlmsg_len; else
                      0 */
  uint32_t cause;  /* enum linkinfo_message_cause */
};

/* A link message, or why there is none. All offsets are from the beginning of
 * the bytes. */
struct linkinfo_link {
  struct linkinfo_message_error error; /* with status REJECTED; else none */
  size_t place;       /* the offset of the struct nlmsghdr of the link message,
                         or of the one that is rejected; 0 with status END */
  size_t next;        /* the cursor of the next call: after a link message the
                         offset of the next message; with any other status the
                         number of bytes */
  size_t name_place;  /* where has_name, the offset of the name: the payload of
                         IFLA_IFNAME; else 0 */
  size_t name_length; /* its length, without its closing NUL; else 0 */
  size_t list_place;  /* where has_list, the offset of the list: the payload of
                         IFLA_LINKINFO; else 0 */
  size_t list_length; /* its length; else 0 */
  int32_t index;      /* ifi_index of a link message; else 0 */
  uint32_t flags;     /* ifi_flags of a link message; else 0 */
  uint32_t status;    /* enum linkinfo_link_status */
  uint16_t event;     /* enum linkinfo_link_event */
  bool has_name;      /* whether there is an IFLA_IFNAME, also an empty one */
  bool has_list;      /* whether there is an IFLA_LINKINFO, also an empty one */
};

/*
 * linkinfo_next_link - finds the next link message in the bytes of a netlink
 * socket
 * @bytes: what recv() returned from a socket of NETLINK_ROUTE, or several such
 * strings concatenated, each but the last padded to a multiple of four bytes
 * @length: their length in bytes
 * @cursor: 0 at first, then the member next of each result
 *
 * Messages of types other than RTM_NEWLINK and RTM_DELLINK are skipped, also
 * NLMSG_ERROR and NLMSG_DONE, which with NLM_F_DUMP_INTR are the caller's. Of
 * an attribute that is there several times the last one counts, as in the
 * kernel. The padding of the last message may be absent or cut short. The
 * contents of the list are not examined: without one, list_length is 0, and
 * linkinfo_check accepts it.
 *
 *   size_t cursor = 0;
 *   struct linkinfo_link link;
 *   while ((link = linkinfo_next_link(bytes, length, cursor)).status ==
 *          LINKINFO_LINK_FOUND) {
 *     error = linkinfo_check(bytes + link.list_place, link.list_length);
 *     cursor = link.next;
 *   }
 *
 * The calls of such a loop return each link message once, in order, then the
 * first error, if there is one, and then the end. With a cursor that is length
 * or more the result is the end. With a cursor that is not the offset of a
 * message, the bytes there are read as a message.
 *
 * Return: the first link message at the cursor or after it; the error of a
 * message, if that comes first; or the end.
 * Time: linear in the bytes from the cursor to next, or to the error. Each
 * header there is examined once.
 * Threads: MT-Safe.
 */
LINKINFO_NODISCARD struct linkinfo_link
linkinfo_next_link(const uint8_t *bytes, size_t length, size_t cursor);

/* Texts. Each call writes a text and a NUL, truncated where the buffer has no
 * room for both, and returns the length of the whole text without the NUL, as
 * snprintf does. The text of 0, and of a number that is in no table, is
 * empty. */

/*
 * linkinfo_family_name - the name of a family, as "linkinfo" or "vxlan"
 * @family: enum linkinfo_family
 * @buffer: where the name and a NUL are written, truncated to the buffer
 * @buffer_length: its length in bytes
 *
 * Return: the length of the whole name without the NUL, as snprintf; 0 for a
 * number that is no family.
 * Time: constant.
 * Threads: MT-Safe.
 */
size_t linkinfo_family_name(uint16_t family, char *buffer,
                            size_t buffer_length);

/*
 * linkinfo_cause_name - the name of a cause, as "header" or "length"
 * @cause: enum linkinfo_cause
 * @buffer: where the name and a NUL are written, truncated to the buffer
 * @buffer_length: its length in bytes
 *
 * Return: the length of the whole name without the NUL, as snprintf; 0 for a
 * number that is no cause.
 * Time: constant.
 * Threads: MT-Safe.
 */
size_t linkinfo_cause_name(uint32_t cause, char *buffer, size_t buffer_length);

/*
 * linkinfo_kind_name - the name of a kind, as "vxlan"
 * @kind: enum linkinfo_kind
 * @buffer: where the name and a NUL are written, truncated to the buffer
 * @buffer_length: its length in bytes
 *
 * Return: the length of the whole name without the NUL, as snprintf; 0 for a
 * number that is no kind, and for LINKINFO_KIND_OTHER, whose names are in the
 * list.
 * Time: constant.
 * Threads: MT-Safe.
 */
size_t linkinfo_kind_name(uint16_t kind, char *buffer, size_t buffer_length);

/*
 * linkinfo_port_kind_name - the name of a port kind, as "bridge"
 * @port_kind: enum linkinfo_port_kind
 * @buffer: where the name and a NUL are written, truncated to the buffer
 * @buffer_length: its length in bytes
 *
 * Return: the length of the whole name without the NUL, as snprintf; 0 for a
 * number that is no port kind, and for LINKINFO_PORT_KIND_OTHER.
 * Time: constant.
 * Threads: MT-Safe.
 */
size_t linkinfo_port_kind_name(uint16_t port_kind, char *buffer,
                               size_t buffer_length);

/*
 * linkinfo_error_text - family, type and cause of an error as a text
 * @error: the error
 * @buffer: where the text and a NUL are written, truncated to the buffer; 37
 * bytes are enough
 * @buffer_length: its length in bytes
 *
 * The text is as "linkinfo 2 order", and empty without an error.
 *
 * Return: the length of the whole text without the NUL, as snprintf.
 * Time: constant.
 * Threads: MT-Safe.
 */
size_t linkinfo_error_text(struct linkinfo_error error, char *buffer,
                           size_t buffer_length);

/*
 * linkinfo_error_message - an error as a sentence for people
 * @error: the error
 * @offset: the offset that the sentence names, as that of
 * linkinfo_check_inner()
 * @buffer: where the sentence and a NUL are written, truncated to the buffer;
 * 121 bytes are enough
 * @buffer_length: its length in bytes
 *
 * The sentence is as "IFLA_INFO_DATA before IFLA_INFO_KIND, at offset 0". It is
 * empty without an error, and for a number that is no family or no cause. For
 * an error of a call that returns no offset, as linkinfo_same(),
 * linkinfo_check_inner() of that list returns both.
 *
 * Return: the length of the whole sentence without the NUL, as snprintf.
 * Time: constant.
 * Threads: MT-Safe.
 */
size_t linkinfo_error_message(struct linkinfo_error error, size_t offset,
                              char *buffer, size_t buffer_length);

/*
 * linkinfo_message_error_text - an error of a message as a sentence for people
 * @error: the error
 * @place: the offset of the message: the member place of the struct
 * linkinfo_link that has the error
 * @buffer: where the sentence and a NUL are written, truncated to the buffer;
 * 97 bytes are enough
 * @buffer_length: its length in bytes
 *
 * The sentence is as "message at offset 48: its length 12 is less than that of
 * its header". It is empty without an error, and for a number that is no cause.
 *
 * Return: the length of the whole sentence without the NUL, as snprintf.
 * Time: constant.
 * Threads: MT-Safe.
 */
size_t linkinfo_message_error_text(struct linkinfo_message_error error,
                                   size_t place, char *buffer,
                                   size_t buffer_length);

/*
 * linkinfo_attribute_name - the kernel's name of an attribute's type
 * @family: enum linkinfo_family
 * @type: the type without its two flag bits
 * @buffer: where the name and a NUL are written, truncated to the buffer; 48
 * bytes are enough
 * @buffer_length: its length in bytes
 *
 * The name is as "IFLA_VXLAN_ID". Attributes without a shape have no name. That
 * of a vrf's port, IFLA_VRF_PORT_TABLE, has the family and the type of
 * IFLA_VRF_TABLE, and that name.
 *
 * Return: the length of the whole name without the NUL, as snprintf; 0 for a
 * type that has no name, and for a number that is no family.
 * Time: constant.
 * Threads: MT-Safe.
 */
size_t linkinfo_attribute_name(uint16_t family, uint16_t type, char *buffer,
                               size_t buffer_length);

/* How the kernel uses a type of attributes. */
enum linkinfo_attribute_use {
  LINKINFO_USE_NONE = 0,           /* the type has no name */
  LINKINFO_USE_READ_WRITE = 1,     /* a request sets it, and a reply has it */
  LINKINFO_USE_READ_ONLY = 2,      /* a reply has it; a request with it is
                                      rejected, or it is ignored there */
  LINKINFO_USE_COMMAND = 3,        /* a request with it makes the kernel do
                                      something, and no reply has it */
  LINKINFO_USE_NEVER_RETURNED = 4  /* a request sets it, and no reply has it;
                                      IFLA_BRPORT_LEARNING_SYNC is ignored in
                                      requests too */
};

/*
 * linkinfo_attribute_use - how the kernel uses an attribute's type
 * @family: enum linkinfo_family
 * @type: the type without its two flag bits
 *
 * For a daemon that mends a link: it leaves out what is read only, and repeats
 * no command. IFLA_BRPORT_NO is read only, IFLA_BR_FDB_FLUSH is a command, and
 * IFLA_PPP_DEV_FD is never returned. The kernel is Linux 7.3; older ones and
 * some kinds of links return less, and take less in requests.
 *
 * Return: enum linkinfo_attribute_use; LINKINFO_USE_NONE for a type that has no
 * name, and for a number that is no family.
 * Time: constant.
 * Threads: MT-Safe.
 */
LINKINFO_NODISCARD uint16_t
linkinfo_attribute_use(uint16_t family, uint16_t type);

/*
 * linkinfo_kind_of_name - the kind of a name
 * @name: a name, without a trailing NUL
 * @length: its length in bytes
 *
 * Return: the number of the kind, enum linkinfo_kind; LINKINFO_KIND_OTHER where
 * the name is not known.
 * Time: constant.
 * Threads: MT-Safe.
 */
LINKINFO_NODISCARD uint16_t
linkinfo_kind_of_name(const char *name, size_t length);

/*
 * linkinfo_port_kind_of_name - the port kind of a name
 * @name: a name, without a trailing NUL
 * @length: its length in bytes
 *
 * Return: the number of the port kind, enum linkinfo_port_kind;
 * LINKINFO_PORT_KIND_OTHER where the name is not known.
 * Time: constant.
 * Threads: MT-Safe.
 */
LINKINFO_NODISCARD uint16_t
linkinfo_port_kind_of_name(const char *name, size_t length);

#ifdef __cplusplus
}
#endif

#ifdef LINKINFO_POP_DIAGNOSTIC
#pragma clang diagnostic pop
#undef LINKINFO_POP_DIAGNOSTIC
#endif
#endif
