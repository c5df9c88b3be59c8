/* Padding and stripping line by line, to be compared with second-pad of second/: reads the same lines
 * from standard input and prints the same lines.
 *
 *   p <hex of data> <buffer length>    prints the answer and the buffer, which holds EE before the call
 *   s <hex of block>                   prints the answer
 *
 * Hex is upper case; the buffer length is decimal, at most 65535. Any other line prints a question mark.
 */
#define _POSIX_C_SOURCE 200809L
#include <stdbool.h>
#include <stdio.h>
#include <stdlib.h>
#include <string.h>

#include "shoalpennant.h"

#define LONGEST_BUFFER 65535

static uint8_t *room(size_t len) {
    uint8_t *bytes = malloc(len > 0 ? len : 1);
    if (bytes == NULL) {
        fprintf(stderr, "pad_lines: no memory\n");
        exit(2);
    }
    return bytes;
}

/* 0 to 15, or 16 for what is no digit. */
static unsigned digit(char c) {
    if ('0' <= c && c <= '9') {
        return (unsigned)(c - '0');
    }
    return 'A' <= c && c <= 'F' ? (unsigned)(c - 'A') + 10 : 16;
}

/* The bytes of len hex digits; NULL where they are not that. */
static uint8_t *from_hex(const char *text, size_t len) {
    if (len % 2 != 0) {
        return NULL;
    }
    uint8_t *bytes = room(len / 2);
    for (size_t i = 0; i < len / 2; i++) {
        unsigned high = digit(text[2 * i]), low = digit(text[2 * i + 1]);
        if (high > 15 || low > 15) {
            free(bytes);
            return NULL;
        }
        bytes[i] = (uint8_t)(high * 16 + low);
    }
    return bytes;
}

static bool from_decimal(const char *text, size_t len, size_t *number) {
    *number = 0;
    for (size_t i = 0; i < len; i++) {
        unsigned d = digit(text[i]);
        if (d > 9) {
            return false;
        }
        *number = *number * 10 + d;
        if (*number > LONGEST_BUFFER) {
            return false;
        }
    }
    return len > 0;
}

/* Each of these prints its line, or answers false. */
static bool pad_line(const char *data, size_t data_len, const char *length, size_t length_len) {
    size_t buffer_len;
    uint8_t *message = from_hex(data, data_len);
    if (message == NULL || !from_decimal(length, length_len, &buffer_len)) {
        free(message);
        return false;
    }
    uint8_t *buffer = room(buffer_len);
    memset(buffer, 0xEE, buffer_len);
    printf("%zu ", shoalpennant_pad(message, data_len / 2, buffer, buffer_len));
    for (size_t i = 0; i < buffer_len; i++) {
        printf("%02X", (unsigned)buffer[i]);
    }
    printf("\n");
    free(buffer);
    free(message);
    return true;
}

static bool strip_line(const char *hex, size_t len) {
    uint8_t *block = from_hex(hex, len);
    if (block == NULL) {
        return false;
    }
    printf("%zu\n", shoalpennant_strip(block, len / 2));
    free(block);
    return true;
}

static bool answer(const char *line, size_t len) {
    if (len < 2 || line[1] != ' ') {
        return false;
    }
    const char *first = line + 2, *end = line + len;
    const char *blank = memchr(first, ' ', (size_t)(end - first));
    if (line[0] == 's') {
        return blank == NULL && strip_line(first, (size_t)(end - first));
    }
    if (line[0] == 'p' && blank != NULL) {
        return pad_line(first, (size_t)(blank - first), blank + 1, (size_t)(end - blank - 1));
    }
    return false;
}

int main(void) {
    char *line = NULL;
    size_t size = 0;
    ssize_t len;
    while ((len = getline(&line, &size, stdin)) > 0) {
        if (line[len - 1] == '\n') {
            len--;
        }
        if (!answer(line, (size_t)len)) {
            printf("?\n");
        }
        fflush(stdout);
    }
    free(line);
    return ferror(stdin) || ferror(stdout) ? 1 : 0;
}
