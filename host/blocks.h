/* Checks of the two functions on bytes alone. What is expected is written from document 01, "Padding
 * and delivery", byte by byte. */
#ifndef BLOCKS_H
#define BLOCKS_H

#include <stddef.h>
#include <stdint.h>

void check_blocks(void);

/* Bytes of no special value, and a block of type 2 with its separator at the index given; 256: none. */
void fill_plain(uint8_t *bytes, size_t len);
void fill_type_2(uint8_t block[256], size_t separator);

#endif
