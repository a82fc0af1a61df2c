/* Checks the lines of standard input, and prints for each its number and the answer. */
#include <stdio.h>
#include <stdlib.h>

#include "lidvauma.h"

static const char *word(uint32_t answer)
{
    switch (answer) {
    case LIDVAUMA_OK:
        return "ok";
    case LIDVAUMA_BAD_LINE:
        return "bad line";
    case LIDVAUMA_UNKNOWN_LETTER:
        return "unknown letter";
    case LIDVAUMA_WRONG_FIELD_COUNT:
        return "wrong field count";
    case LIDVAUMA_BAD_FIELD:
        return "bad field";
    default:
        return "no such answer";
    }
}

/* All of standard input, or null where reading or memory failed. */
static uint8_t *read_all(size_t *length)
{
    size_t room = 4096, n = 0;
    uint8_t *bytes = malloc(room);
    while (bytes != NULL) {
        n += fread(bytes + n, 1, room - n, stdin);
        if (n < room)
            break;
        room *= 2;
        uint8_t *more = realloc(bytes, room);
        if (more == NULL)
            free(bytes);
        bytes = more;
    }
    if (bytes != NULL && ferror(stdin)) {
        free(bytes);
        return NULL;
    }
    *length = n;
    return bytes;
}

int main(void)
{
    size_t length = 0;
    uint8_t *bytes = read_all(&length);
    if (bytes == NULL) {
        fputs("check: standard input could not be read\n", stderr);
        return 2;
    }
    size_t number = 0;
    int bad = 0;
    for (size_t from = 0; from < length;) {
        size_t to = from;
        while (to < length && bytes[to] != '\n')
            to++;
        if (to < length)
            to++; /* the line has its byte 10; an unended rest has none */
        uint32_t answer = lidvauma_check_line(bytes + from, to - from);
        printf("%zu %u %s\n", ++number, (unsigned)answer, word(answer));
        bad |= answer != LIDVAUMA_OK;
        from = to;
    }
    free(bytes);
    if (fflush(stdout) != 0)
        return 2;
    return bad;
}
