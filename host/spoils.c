#include "spoils.h"

#include <string.h>

#include "shoalpennant.h"

enum spoil spoil = NO_SPOIL;

static const char *const names[SPOILS] = {
    [NO_SPOIL] = "nothing",
    [PAD_ANSWERS_255] = "pad answers 255 for 256",
    [PAD_REFUSES_WITH_256] = "pad answers 256 for 0",
    [PAD_BYTE_0] = "pad: byte 0 is wrong",
    [PAD_BYTE_1] = "pad: byte 1 is wrong",
    [PAD_AN_FF] = "pad: an FF is wrong",
    [PAD_SEPARATOR] = "pad: the 00 before the message is wrong",
    [PAD_FIRST_MESSAGE_BYTE] = "pad: the message's first byte is wrong",
    [PAD_LAST_MESSAGE_BYTE] = "pad: the message's last byte is wrong",
    [PAD_WRITES_BYTE_256] = "pad writes byte 256 of a longer buffer",
    [PAD_WRITES_AND_REFUSES] = "pad writes the buffer's last byte and refuses",
    [PAD_TAKES_246] = "pad takes 246 bytes",
    [PAD_REFUSES_245] = "pad refuses 245 bytes",
    [PAD_TAKES_BUFFER_255] = "pad takes a buffer of 255 bytes",
    [PAD_REFUSES_LONGER_BUFFER] = "pad refuses a buffer over 256 bytes",
    [PAD_16_BIT_MESSAGE_LENGTH] = "pad reads 16 bits of the message's length",
    [PAD_16_BIT_BUFFER_LENGTH] = "pad reads 16 bits of the buffer's length",
    [PAD_CHANGES_MESSAGE] = "pad changes the message",
    [PAD_WRITES_BEFORE_BUFFER] = "pad writes before the buffer",
    [PAD_WRITES_AFTER_BUFFER] = "pad writes after the buffer",
    [PAD_READS_BEFORE_MESSAGE] = "pad reads before the message",
    [PAD_READS_AFTER_MESSAGE] = "pad reads after the message",
    [STRIP_ONE_MORE] = "strip answers one more",
    [STRIP_TAKES_7] = "strip takes 7 non-zero bytes",
    [STRIP_REFUSES_8] = "strip refuses 8 non-zero bytes",
    [STRIP_LAST_ZERO] = "strip goes to the last zero",
    [STRIP_NEEDS_NO_SEPARATOR] = "strip takes a block with no separator",
    [STRIP_REFUSES_EMPTY] = "strip refuses an empty message",
    [STRIP_IGNORES_BYTE_0] = "strip does not look at byte 0",
    [STRIP_IGNORES_BYTE_1] = "strip does not look at byte 1",
    [STRIP_STOPS_AT_80] = "strip takes 80h for a separator",
    [STRIP_TAKES_ANY_LENGTH] = "strip takes any length",
    [STRIP_16_BIT_LENGTH] = "strip reads 16 bits of the length",
    [STRIP_CHANGES_BLOCK] = "strip changes the block",
    [STRIP_WRITES_BEFORE] = "strip writes before the block",
    [STRIP_WRITES_AFTER] = "strip writes after the block",
    [STRIP_READS_BEFORE] = "strip reads before the block",
    [STRIP_READS_AFTER] = "strip reads after the block",
    [DIGEST_HEADER] = "a byte of each digest's header is wrong",
    [SIGNATURE_BYTE] = "a byte of each signature is wrong",
    [CRYPTOGRAM_BYTE] = "a byte of each cryptogram is wrong",
    [VECTOR_RESPONSE] = "a byte of 003's response is wrong",
    [VECTOR_CHALLENGE] = "a byte of 003's challenge is wrong",
};

const char *spoil_name(enum spoil s) {
    return names[s];
}

void spoil_byte(enum spoil s, uint8_t *byte) {
    if (spoil == s) {
        *byte ^= 0x10;
    }
}

static void read_byte(const uint8_t *byte) {
    (void)*(const volatile uint8_t *)byte;
}

/* The bytes that pad wrote, spoiled. */
static void spoil_block(uint8_t *buffer, size_t n, size_t len) {
    spoil_byte(PAD_BYTE_0, &buffer[0]);
    spoil_byte(PAD_BYTE_1, &buffer[1]);
    spoil_byte(PAD_AN_FF, &buffer[9]);
    spoil_byte(PAD_SEPARATOR, &buffer[255 - n]);
    if (n > 0) {
        spoil_byte(PAD_FIRST_MESSAGE_BYTE, &buffer[256 - n]);
        spoil_byte(PAD_LAST_MESSAGE_BYTE, &buffer[255]);
    }
    if (len > 256) {
        spoil_byte(PAD_WRITES_BYTE_256, &buffer[256]);
    }
}

/* What touches more than it may. */
static void spoil_around_pad(uint8_t *message, size_t n, uint8_t *buffer, size_t len) {
    if (n > 0) {
        spoil_byte(PAD_CHANGES_MESSAGE, &message[n - 1]);
    }
    if (spoil == PAD_WRITES_BEFORE_BUFFER) {
        buffer[-1] ^= 1;
    }
    if (spoil == PAD_WRITES_AFTER_BUFFER) {
        buffer[len] ^= 1;
    }
    if (spoil == PAD_READS_BEFORE_MESSAGE) {
        read_byte(message - 1);
    }
    if (spoil == PAD_READS_AFTER_MESSAGE) {
        read_byte(message + n);
    }
}

/* The answer for what pad took. */
static size_t spoil_taken(size_t n, size_t len) {
    switch (spoil) {
    case PAD_ANSWERS_255:
        return 255;
    case PAD_REFUSES_245:
        return n == 245 ? 0 : 256;
    case PAD_REFUSES_LONGER_BUFFER:
        return len > 256 ? 0 : 256;
    case PAD_16_BIT_BUFFER_LENGTH:
        return (len & 0xFFFF) < 256 ? 0 : 256;
    default:
        return 256;
    }
}

/* The answer for what pad refused. */
static size_t spoil_refused(uint8_t *message, size_t n, uint8_t *buffer, size_t len) {
    switch (spoil) {
    case PAD_REFUSES_WITH_256:
        return 256;
    case PAD_WRITES_AND_REFUSES:
        if (len > 0) {
            buffer[len - 1] ^= 1;
        }
        return 0;
    case PAD_TAKES_246:
        return n == 246 && len >= 256 ? 256 : 0;
    case PAD_TAKES_BUFFER_255:
        return n <= 245 && len == 255 ? 256 : 0;
    case PAD_16_BIT_MESSAGE_LENGTH:
        return shoalpennant_pad(message, n & 0xFFFF, buffer, len);
    default:
        return 0;
    }
}

size_t spoiled_pad(uint8_t *message, size_t n, uint8_t *buffer, size_t len) {
    size_t answer = shoalpennant_pad(message, n, buffer, len);
    if (spoil == NO_SPOIL) {
        return answer;
    }
    spoil_around_pad(message, n, buffer, len);
    if (answer != 256) {
        return spoil_refused(message, n, buffer, len);
    }
    spoil_block(buffer, n, len);
    return spoil_taken(n, len);
}

/* Stripping of a copy whose byte i is x. */
static size_t strip_with(const uint8_t *block, size_t len, size_t i, uint8_t x) {
    uint8_t copy[256];
    if (len != 256) {
        return 0;
    }
    memcpy(copy, block, 256);
    copy[i] = x;
    return shoalpennant_strip(copy, 256);
}

/* 00 02, at least so many bytes other than x, then x: where what follows starts, else 0; in a block of any length. */
static size_t strip_loosely(const uint8_t *block, size_t len, uint8_t x, size_t least) {
    if (len < 2 || block[0] != 0x00 || block[1] != 0x02) {
        return 0;
    }
    const uint8_t *found = memchr(block + 2, x, len - 2);
    size_t n = found == NULL ? 0 : (size_t)(found - block) - 2;
    return found == NULL || n < least ? 0 : n + 3;
}

static size_t after_last_zero(const uint8_t *block) {
    size_t i = 256;
    while (block[i - 1] != 0) {
        i--;
    }
    return i;
}

static void spoil_around_strip(uint8_t *block, size_t len) {
    if (len > 0) {
        spoil_byte(STRIP_CHANGES_BLOCK, &block[len - 1]);
    }
    if (spoil == STRIP_WRITES_BEFORE) {
        block[-1] ^= 1;
    }
    if (spoil == STRIP_WRITES_AFTER) {
        block[len] ^= 1;
    }
    if (spoil == STRIP_READS_BEFORE) {
        read_byte(block - 1);
    }
    if (spoil == STRIP_READS_AFTER) {
        read_byte(block + len);
    }
}

static size_t spoil_strip_answer(const uint8_t *block, size_t len, size_t answer) {
    switch (spoil) {
    case STRIP_ONE_MORE:
        return answer + 1;
    case STRIP_TAKES_7:
        return len == 256 ? strip_loosely(block, len, 0x00, 7) : answer;
    case STRIP_REFUSES_8:
        return answer == 11 ? 0 : answer;
    case STRIP_LAST_ZERO:
        return answer == 0 ? 0 : after_last_zero(block);
    case STRIP_NEEDS_NO_SEPARATOR:
        return answer != 0 ? answer : strip_with(block, len, 255, 0x00);
    case STRIP_REFUSES_EMPTY:
        return answer == 256 ? 0 : answer;
    case STRIP_IGNORES_BYTE_0:
        return strip_with(block, len, 0, 0x00);
    case STRIP_IGNORES_BYTE_1:
        return strip_with(block, len, 1, 0x02);
    case STRIP_STOPS_AT_80:
        return answer != 0 && memchr(block + 2, 0x80, answer - 3) != NULL ? strip_loosely(block, len, 0x80, 8) : answer;
    case STRIP_TAKES_ANY_LENGTH:
        return strip_loosely(block, len, 0x00, 8);
    case STRIP_16_BIT_LENGTH:
        return shoalpennant_strip(block, len & 0xFFFF);
    default:
        return answer;
    }
}

size_t spoiled_strip(uint8_t *block, size_t len) {
    size_t answer = shoalpennant_strip(block, len);
    if (spoil == NO_SPOIL) {
        return answer;
    }
    spoil_around_strip(block, len);
    return spoil_strip_answer(block, len, answer);
}
