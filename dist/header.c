/* SPDX-License-Identifier: Apache-2.0 OR MIT */
/* The functions of the library that aren't proved: those whose bodies sec1.h has, as symbols for
 * programs that don't read it, and the version. */
#define SEC1_INLINE
#include "sec1.h"

uint32_t sec1_version(void)
{
    return SEC1_VERSION;
}
