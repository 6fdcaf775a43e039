// show HEX [WANTED]: the attributes in the contents of IFLA_LINKINFO, and the first one of a
// request that they do not meet. Status 0 where they meet it, or nothing is wanted.
//
// (linkinfo_same is for two requests, or two canonical encodings: it is false for a request and the
// link that the kernel made for it, to which it adds attributes.)
#include <cstdio>
#include <linkinfo.h>
#include <linux/if_link.h>
#include <linux/netlink.h>
#include <optional>
#include <string>
#include <string_view>
#include <vector>

using bytes = std::vector<uint8_t>;

// The bytes of a text of hexadecimal digits.
static std::optional<bytes> from_hex(const std::string &text) {
  if (text.size() % 2 != 0 || text.find_first_not_of("0123456789abcdefABCDEF") != text.npos)
    return std::nullopt;
  bytes list;
  for (size_t i = 0; i < text.size(); i += 2)
    list.push_back(static_cast<uint8_t>(std::stoul(text.substr(i, 2), nullptr, 16)));
  return list;
}

static unsigned type_of(uint16_t raw_type) { return raw_type & NLA_TYPE_MASK; }

// A text that a call writes: the call, and what its text is of.
template <typename Call, typename Of> static std::string text(Call call, Of of) {
  std::string text(37, 0);
  text.resize(call(of, text.data(), text.size()));
  return text;
}

// Prints the error of a list, where it has one.
static bool is_rejected(const char *whose, const bytes &list) {
  auto [error, place] = linkinfo_check_at(list.data(), list.size());
  if (error.cause == LINKINFO_CAUSE_NONE) return false;
  std::printf("%s%s at byte %zu\n", whose, text(linkinfo_error_text, error).c_str(), place);
  return true;
}

// The kind of the link, or of the port, whose data or statistics the item is.
static std::string kind_of(const linkinfo_item &item) {
  switch (type_of(item.raw_type)) {
  case IFLA_INFO_DATA:
  case IFLA_INFO_XSTATS: return text(linkinfo_kind_name, item.kind);
  case IFLA_INFO_SLAVE_DATA: return text(linkinfo_port_kind_name, item.port_kind);
  default: return "";
  }
}

// A value, as the shape of its attribute means it.
static std::string value_text(const linkinfo_valued_attribute &attribute,
                              std::string_view payload) {
  const linkinfo_value &value = attribute.value;
  switch (value.value_type) {
  case LINKINFO_VALUE_NUMBER: return " = " + std::to_string(value.number);
  case LINKINFO_VALUE_SIGNED: return " = " + std::to_string(value.signed_number);
  case LINKINFO_VALUE_TRUTH:
  case LINKINFO_VALUE_PRESENT: return value.truth ? " = true" : " = false";
  case LINKINFO_VALUE_TEXT: return " = \"" + std::string(payload.substr(0, value.length)) + "\"";
  case LINKINFO_VALUE_PAIR:
    return " = " + std::to_string(value.first) + ", " + std::to_string(value.second);
  case LINKINFO_VALUE_IPV4:
  case LINKINFO_VALUE_IPV6:
  case LINKINFO_VALUE_MAC: break;
  default: return ", " + std::to_string(attribute.length) + " bytes";
  }
  std::string octets = " =";
  for (size_t i = 0; i < value.length; i++) {
    char octet[4];
    std::snprintf(octet, sizeof octet, " %02x", value.octets[i]);
    octets += octet;
  }
  return octets;
}

// The attributes in data of a kind, or in a nested list, and in the lists in them.
static void show_attributes(const bytes &list, size_t begin, size_t length, uint16_t kind,
                            int indent) {
  std::vector<linkinfo_valued_attribute> attributes(length / 4);
  attributes.resize(linkinfo_values(list.data() + begin, length, kind, attributes.data(),
                                    attributes.size())
                        .count);
  for (const auto &attribute : attributes) {
    const linkinfo_value &value = attribute.value;
    size_t place = begin + attribute.place;
    std::string_view payload(reinterpret_cast<const char *>(&list[place]) + NLA_HDRLEN,
                             attribute.length);
    std::printf("%*s%zu: type %u%s\n", indent, "", place, type_of(attribute.raw_type),
                value_text(attribute, payload).c_str());
    if (value.value_type == LINKINFO_VALUE_LIST)
      show_attributes(list, place + NLA_HDRLEN, value.length,
                      value.list_kind != 0 ? value.list_kind : kind, indent + 2);
  }
}

// The attributes in data or port data.
static void show_data(const bytes &list, const linkinfo_item &item) {
  bool is_data = type_of(item.raw_type) == IFLA_INFO_DATA;
  if (!is_data && type_of(item.raw_type) != IFLA_INFO_SLAVE_DATA) return;
  show_attributes(list, item.place + NLA_HDRLEN, item.length,
                  is_data ? item.kind : item.port_kind, 2);
}

static void show(const bytes &list) {
  std::vector<linkinfo_item> items(list.size() / 4);
  items.resize(linkinfo_items(list.data(), list.size(), items.data(), items.size()).count);
  for (const auto &item : items) {
    std::string kind = kind_of(item);
    std::printf("%zu: type %u, %zu bytes%s%s\n", item.place, type_of(item.raw_type), item.length,
                kind.empty() ? "" : " of ", kind.c_str());
    show_data(list, item);
  }
}

// Whether the link has all that is wanted; prints the first attribute that it has not.
static bool is_as_wanted(const bytes &have, const bytes &want) {
  auto unmet = linkinfo_first_unmet(have.data(), have.size(), want.data(), want.size());
  if (unmet.met) {
    std::puts("as wanted");
    return true;
  }
  std::printf("not as wanted: %s %u at byte %zu of what is wanted, ",
              text(linkinfo_family_name, unmet.family).c_str(), unmet.type, unmet.want);
  if (unmet.is_present)
    std::printf("and another one at byte %zu\n", unmet.have);
  else
    std::puts("and none");
  return false;
}

int main(int count, char **arguments) {
  std::vector<bytes> lists;
  for (int i = 1; i < count; i++)
    if (auto list = from_hex(arguments[i])) lists.push_back(*list);
  if (lists.size() + 1 != static_cast<size_t>(count) || (count != 2 && count != 3)) {
    std::fputs("usage: show HEX [WANTED]\n", stderr);
    return 2;
  }
  if (is_rejected("", lists[0]) || (count == 3 && is_rejected("wanted: ", lists[1]))) return 1;
  show(lists[0]);
  return count == 2 || is_as_wanted(lists[0], lists[1]) ? 0 : 1;
}
