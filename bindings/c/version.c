/* What the library says of its own age, beside the proved functions: there is nothing to prove of a constant. It is the
 * header's, with which the library was made; a program that was compiled with another header can tell by it. */
#include "chimenickel.h"

uint64_t chim_version(void) { return CHIM_VERSION; }
