/* Deliberate errors, one at a time, to see that the checks notice each. They are put over what the two
 * functions did, or over the data of a check; the archive itself stays as it is. */
#ifndef SPOILS_H
#define SPOILS_H

#include <stdbool.h>
#include <stddef.h>
#include <stdint.h>

enum spoil {
    NO_SPOIL,
    PAD_ANSWERS_255,
    PAD_REFUSES_WITH_256,
    PAD_BYTE_0,
    PAD_BYTE_1,
    PAD_AN_FF,
    PAD_SEPARATOR,
    PAD_FIRST_MESSAGE_BYTE,
    PAD_LAST_MESSAGE_BYTE,
    PAD_WRITES_BYTE_256,
    PAD_WRITES_AND_REFUSES,
    PAD_TAKES_246,
    PAD_REFUSES_245,
    PAD_TAKES_BUFFER_255,
    PAD_REFUSES_LONGER_BUFFER,
    PAD_16_BIT_MESSAGE_LENGTH,
    PAD_16_BIT_BUFFER_LENGTH,
    PAD_CHANGES_MESSAGE,
    PAD_WRITES_BEFORE_BUFFER,
    PAD_WRITES_AFTER_BUFFER,
    PAD_READS_BEFORE_MESSAGE,
    PAD_READS_AFTER_MESSAGE,
    STRIP_ONE_MORE,
    STRIP_TAKES_7,
    STRIP_REFUSES_8,
    STRIP_LAST_ZERO,
    STRIP_NEEDS_NO_SEPARATOR,
    STRIP_REFUSES_EMPTY,
    STRIP_IGNORES_BYTE_0,
    STRIP_IGNORES_BYTE_1,
    STRIP_STOPS_AT_80,
    STRIP_TAKES_ANY_LENGTH,
    STRIP_16_BIT_LENGTH,
    STRIP_CHANGES_BLOCK,
    STRIP_WRITES_BEFORE,
    STRIP_WRITES_AFTER,
    STRIP_READS_BEFORE,
    STRIP_READS_AFTER,
    /* From here on only the checks with OpenSSL can notice. */
    DIGEST_HEADER,
    SIGNATURE_BYTE,
    CRYPTOGRAM_BYTE,
    VECTOR_RESPONSE,
    VECTOR_CHALLENGE,
    SPOILS
};
#define FIRST_SPOIL_WITH_OPENSSL DIGEST_HEADER

extern enum spoil spoil;

const char *spoil_name(enum spoil s);

/* The two functions of the archive, under the present spoil. */
size_t spoiled_pad(uint8_t *message, size_t n, uint8_t *buffer, size_t len);
size_t spoiled_strip(uint8_t *block, size_t len);

/* Changes a byte under the spoil s, and else leaves it. */
void spoil_byte(enum spoil s, uint8_t *byte);

#endif
