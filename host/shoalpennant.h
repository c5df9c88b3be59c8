/* The two functions that crates/pkcs1_c exports for the key host: RSA block padding and stripping
 * (RFC 8017, PKCS #1 v1.5) for RSA 2048. The archive is built by `host/build --only-archive`.
 *
 * A slice of bytes passes as a pointer and then a length. Nothing compares this file with
 * crates/pkcs1_c/src/lib.rt: whoever changes the one changes the other.
 *
 * What the caller owes:
 *   - a pointer is not NULL, also where its length is 0;
 *   - message and block point to at least so many bytes that may be read, buffer to at least so many
 *     that may be read and written;
 *   - message and buffer do not overlap.
 * Nothing else is asked: every length that memory can have, 0 included, and every value of every
 * byte has a defined answer.
 *
 * Both functions always return and keep no state. The time that stripping takes depends on the bytes.
 */
#ifndef SHOALPENNANT_H
#define SHOALPENNANT_H

#include <stddef.h>
#include <stdint.h>

/* Padding, block type 1.
 *
 * Where message_len <= 245 and buffer_len >= 256: answers 256, and the first 256 bytes of the buffer
 * are 00 01, then 253 - message_len bytes FF (8 or more), then 00, then the message. The bytes of the
 * buffer from 256 on stay as they were.
 *
 * Where message_len > 245 or buffer_len < 256: answers 0, and every byte of the buffer stays as it was.
 *
 * Never touched: the message is read and not changed; no byte outside the message and the buffer is
 * read or written.
 */
size_t shoalpennant_pad(const uint8_t *message, size_t message_len, uint8_t *buffer, size_t buffer_len);

/* Stripping, block type 2.
 *
 * A block that stripping takes has 256 bytes: 00 02, then 8 or more non-zero bytes, then 00, then the
 * message, which may be empty. The 00 that ends the padding is the first 00 from byte 2 on.
 *
 * For such a block: answers the index of the message's first byte, 11 to 256. The message is
 * block[answer] to block[255], 256 - answer bytes; 256 says that it is empty.
 *
 * For any other block, block_len other than 256 included: answers 0.
 *
 * Never touched: the block is read and not changed; no byte outside it is read or written.
 */
size_t shoalpennant_strip(const uint8_t *block, size_t block_len);

#endif
