/* SPDX-License-Identifier: MIT */
/* The version of the library. It is C, and not a call of the crates, so that it is the version of
 * the header by which the library was built. */
#include "linkinfo.h"

const char *linkinfo_version(void) { return LINKINFO_VERSION_STRING; }
