/* Lidvauma for a host written in C: link with liblines.a. */
#ifndef LIDVAUMA_H
#define LIDVAUMA_H

#include <stddef.h>
#include <stdint.h>

/* What lidvauma_check_line answers. The lowest number that applies is told. */
enum {
    LIDVAUMA_OK = 0,                 /* the line is a step */
    LIDVAUMA_BAD_LINE = 11,          /* over 40 bytes, not ended by byte 10, or a byte that no line has */
    LIDVAUMA_UNKNOWN_LETTER = 12,    /* the first field is not one of W P R H N Y L Q */
    LIDVAUMA_WRONG_FIELD_COUNT = 13, /* too few or too many fields for the letter */
    LIDVAUMA_BAD_FIELD = 14          /* a field is no number, no set or no flag, as its letter wants it */
};

/* Checks one line, given with the byte 10 that ends it. The line is only read, and nothing is kept of it.
   `line` points to `length` bytes, and may not be null, also where `length` is 0. */
uint32_t lidvauma_check_line(const uint8_t *line, size_t length);

#endif
