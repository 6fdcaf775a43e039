/* Each call whose result the compiler must not let drop, one a line: c/test counts the warnings. */
#include "linkinfo.h"

int main(void) {
  linkinfo_version();
  linkinfo_check(NULL, 0);
  linkinfo_check_at(NULL, 0);
  linkinfo_check_inner(NULL, 0);
  linkinfo_check_inner_opaque(NULL, 0);
  linkinfo_same(NULL, 0, NULL, 0);
  linkinfo_same_opaque(NULL, 0, NULL, 0);
  linkinfo_first_difference(NULL, 0, NULL, 0);
  linkinfo_first_difference_opaque(NULL, 0, NULL, 0);
  linkinfo_first_unmet(NULL, 0, NULL, 0);
  linkinfo_first_unmet_opaque(NULL, 0, NULL, 0);
  linkinfo_next_unmet(NULL, 0, NULL, 0, 0);
  linkinfo_next_unmet_opaque(NULL, 0, NULL, 0, 0);
  linkinfo_canon(NULL, 0, NULL, 0);
  linkinfo_canon_opaque(NULL, 0, NULL, 0);
  linkinfo_count(NULL, 0);
  linkinfo_count_opaque(NULL, 0);
  linkinfo_items(NULL, 0, NULL, 0);
  linkinfo_attributes(NULL, 0, 0, NULL, 0);
  linkinfo_values(NULL, 0, 0, NULL, 0);
  linkinfo_value_at(NULL, 0, 0);
  linkinfo_next_link(NULL, 0, 0);
  linkinfo_attribute_use(0, 0);
  linkinfo_kind_of_name(NULL, 0);
  linkinfo_port_kind_of_name(NULL, 0);
  return 0;
}
