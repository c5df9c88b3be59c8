#include "blocks.h"

#include <string.h>

#include "checks.h"
#include "tries.h"

#define LONG 65536
#define COUNT(list) (sizeof(list) / sizeof((list)[0]))

static uint8_t message[ROOM], before[ROOM], after[ROOM], block[ROOM];

void fill_plain(uint8_t *bytes, size_t len) {
    for (size_t i = 0; i < len; i++) {
        bytes[i] = (uint8_t)(i * 7 + i / 256 + 3);
    }
}

/* Byte i of the padded block of a message of n bytes, n <= 245. */
static uint8_t padded_byte(size_t i, const uint8_t *data, size_t n) {
    if (i == 0 || i == 255 - n) {
        return 0x00;
    }
    if (i == 1) {
        return 0x01;
    }
    return i < 255 - n ? 0xFF : data[i - (256 - n)];
}

/* The buffer before the call: where a block is to be written no byte is right yet. */
static void fill_before(size_t n, size_t len) {
    fill_plain(before, len);
    for (size_t i = 0; n <= MOST && i < len && i < BLOCK; i++) {
        before[i] = (uint8_t)~padded_byte(i, message, n);
    }
}

static bool is_padded(const uint8_t *bytes, const uint8_t *data, size_t n) {
    for (size_t i = 0; i < BLOCK; i++) {
        if (bytes[i] != padded_byte(i, data, n)) {
            return false;
        }
    }
    return true;
}

static size_t count_of(uint8_t x, const uint8_t *bytes, size_t len) {
    size_t count = 0;
    for (size_t i = 0; i < len; i++) {
        count += bytes[i] == x;
    }
    return count;
}

/* Pads the first n bytes of message in a buffer of len bytes, and checks all that is promised. */
static void check_pad_at(enum place place, size_t n, size_t len) {
    fill_before(n, len);
    size_t answer = try_pad(place, message, n, before, len, after);
    if (n > MOST || len < BLOCK) {
        check(answer == 0, "pad answers 0", n, len);
        check(memcmp(after, before, len) == 0, "pad writes nothing", n, len);
        return;
    }
    check(answer == BLOCK, "pad answers 256", n, len);
    check(is_padded(after, message, n), "pad writes the block", n, len);
    if (len > BLOCK) {
        check(memcmp(after + BLOCK, before + BLOCK, len - BLOCK) == 0, "pad leaves the rest of the buffer", n, len);
    }
}

static void check_pad(size_t n, size_t len) {
    for (int place = 0; place < PLACES; place++) {
        check_pad_at((enum place)place, n, len);
    }
}

static const size_t buffers[] = {0, 1, 2, 128, 254, 255, 256, 257, 300};
static const size_t lengths[] = {0, 1, 24, 244, 245, 246, 300};

static void pad_every_message(void) {
    group_begin("pad: messages of 0 to 300 bytes, buffers 0, 1, 255 to 257, 300");
    fill_plain(message, 300);
    for (size_t n = 0; n <= 300; n++) {
        for (size_t i = 0; i < COUNT(buffers); i++) {
            check_pad(n, buffers[i]);
        }
    }
    group_end();
}

static void pad_every_buffer(void) {
    group_begin("pad: buffers of 0 to 300 bytes, messages 0, 1, 244 to 246, 300");
    fill_plain(message, 300);
    for (size_t len = 0; len <= 300; len++) {
        for (size_t i = 0; i < COUNT(lengths); i++) {
            check_pad(lengths[i], len);
        }
    }
    group_end();
}

static void pad_every_value(void) {
    group_begin("pad: messages of one byte value, each of 00 to FF");
    for (int x = 0; x < 256; x++) {
        memset(message, x, 300);
        for (size_t i = 0; i < COUNT(lengths); i++) {
            check_pad(lengths[i], BLOCK);
        }
    }
    group_end();
}

/* Case P10 of document 01. */
static void pad_case_p10(void) {
    group_begin("pad: case P10, 245 bytes leave 8 FF, 246 are refused");
    memset(message, 0x41, 246);
    fill_before(245, BLOCK);
    check(try_pad(BEFORE_A_WALL, message, 245, before, BLOCK, after) == 256, "245 bytes answer 256", 245, BLOCK);
    check(count_of(0xFF, after, BLOCK) == 8, "the block has 8 FF", count_of(0xFF, after, BLOCK), 8);
    fill_before(246, BLOCK);
    check(try_pad(BEFORE_A_WALL, message, 246, before, BLOCK, after) == 0, "246 bytes answer 0", 246, BLOCK);
    group_end();
}

static void pad_long(void) {
    group_begin("pad: lengths of 65536 and more");
    static const size_t more[] = {0, 1, 24, 245, 256};
    fill_plain(message, LONG + 300);
    for (size_t i = 0; i < COUNT(more); i++) {
        check_pad(LONG + more[i], BLOCK);
        check_pad(24, LONG + more[i]);
        check_pad(LONG + more[i], LONG + more[i]);
    }
    group_end();
}

void fill_type_2(uint8_t bytes[256], size_t separator) {
    bytes[0] = 0x00;
    bytes[1] = 0x02;
    for (size_t i = 2; i < BLOCK; i++) {
        bytes[i] = (uint8_t)(1 + i * 11 % 255);
    }
    if (separator < BLOCK) {
        bytes[separator] = 0x00;
    }
}

static void check_strip(size_t len, size_t expected, size_t which) {
    for (int place = 0; place < PLACES; place++) {
        size_t answer = try_strip((enum place)place, block, len);
        if (expected == 0) {
            check(answer == 0, "strip refuses", len, which);
        } else {
            check(answer == expected, "strip answers where the message starts", answer, expected);
        }
    }
}

/* The answer for a good beginning and the first zero at the index given. */
static size_t start_after(size_t separator) {
    return separator < 10 ? 0 : separator + 1;
}

static void strip_every_separator(void) {
    group_begin("strip: the separator at 2 to 255, message with and without zeros");
    for (size_t at = 2; at < BLOCK; at++) {
        fill_type_2(block, at);
        check_strip(BLOCK, start_after(at), at);
        block[BLOCK - 1] = 0x00;
        check_strip(BLOCK, start_after(at), at);
        memset(block + at, 0x00, BLOCK - at);
        check_strip(BLOCK, start_after(at), at);
    }
    group_end();
}

static void strip_short_padding(void) {
    group_begin("strip: 0 to 7 non-zero bytes, and a second zero at 2 to 255");
    for (size_t first = 2; first < 10; first++) {
        for (size_t second = first; second < BLOCK; second++) {
            fill_type_2(block, first);
            block[second] = 0x00;
            check_strip(BLOCK, 0, second);
        }
    }
    group_end();
}

static void strip_no_separator(void) {
    group_begin("strip: no separator, each non-zero value");
    for (int x = 1; x < 256; x++) {
        fill_type_2(block, BLOCK);
        memset(block + 2, x, BLOCK - 2);
        check_strip(BLOCK, 0, (size_t)x);
    }
    group_end();
}

static void strip_every_value(void) {
    group_begin("strip: each non-zero value before the separator");
    static const size_t separators[] = {9, 10, 11, 128, 254, 255};
    for (int x = 1; x < 256; x++) {
        for (size_t i = 0; i < COUNT(separators); i++) {
            fill_type_2(block, separators[i]);
            memset(block + 2, x, separators[i] - 2);
            check_strip(BLOCK, start_after(separators[i]), (size_t)x);
        }
    }
    group_end();
}

static void strip_wrong_start(void) {
    group_begin("strip: each wrong first byte, each wrong second byte");
    for (int x = 0; x < 256; x++) {
        fill_type_2(block, 20);
        block[0] = (uint8_t)x;
        check_strip(BLOCK, x == 0x00 ? 21 : 0, (size_t)x);
        fill_type_2(block, 20);
        block[1] = (uint8_t)x;
        check_strip(BLOCK, x == 0x02 ? 21 : 0, (size_t)x);
    }
    group_end();
}

static void strip_padded(void) {
    group_begin("strip: what pad wrote for 0 to 245 bytes");
    fill_plain(message, MOST);
    for (size_t n = 0; n <= MOST; n++) {
        fill_before(n, BLOCK);
        try_pad(BEFORE_A_WALL, message, n, before, BLOCK, block);
        check_strip(BLOCK, 0, n);
    }
    group_end();
}

static void strip_wrong_length(void) {
    group_begin("strip: lengths 0 to 600 but 256, and 65536 and more");
    static const size_t more[] = {0, 1, 11, 255, 256, 257};
    for (int shape = 0; shape < 2; shape++) {
        fill_plain(block, LONG + 300);
        fill_type_2(block + shape, 10); /* at 1: a block with a byte 00 in front of it */
        block[0] = 0x00;
        for (size_t len = 0; len <= 600; len++) {
            if (len != BLOCK) {
                check_strip(len, 0, (size_t)shape);
            }
        }
        for (size_t i = 0; i < COUNT(more); i++) {
            check_strip(LONG + more[i], 0, (size_t)shape);
        }
    }
    group_end();
}

void check_blocks(void) {
    pad_every_message();
    pad_every_buffer();
    pad_every_value();
    pad_case_p10();
    pad_long();
    strip_every_separator();
    strip_short_padding();
    strip_no_separator();
    strip_every_value();
    strip_wrong_start();
    strip_padded();
    strip_wrong_length();
}
