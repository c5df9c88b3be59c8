/* One call of padding or stripping on slices between guards or walls, with the checks that hold for
 * every call: nothing outside is touched, what is only read stays. */
#ifndef TRIES_H
#define TRIES_H

#include <stddef.h>
#include <stdint.h>

#include "areas.h"

#define BLOCK 256
#define MOST 245

/* Pads; after gets the buffer as the call left it. */
size_t try_pad(enum place place, const uint8_t *message, size_t n, const uint8_t *before, size_t len, uint8_t *after);
size_t try_strip(enum place place, const uint8_t *block, size_t len);

#endif
