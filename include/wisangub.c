/*
 * The functions of wisangub.h with external linkage, and the library's version. It is compiled into the library, for
 * callers that do not read C.
 */
#define WISANGUB_INLINE
#include "wisangub.h"

const uint8_t WISANGUB_OF_THIS_VERSION = 1;

const char *wisangub_version(void) { return WISANGUB_VERSION; }
