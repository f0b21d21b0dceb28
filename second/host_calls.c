/* Drives the host call for the comparison: for each line of standard input, the order as eight hexadecimal digits, a space, and the bytes as two digits
 * each (`-` for none), it prints the answer as 16 digits. A line that is not of this form ends it with a failure. */
#define _POSIX_C_SOURCE 200809L
#include <inttypes.h>
#include <stdio.h>
#include <stdlib.h>
#include <string.h>

#include "s800.h"

static int digit(char c) {
    if (c >= '0' && c <= '9') {
        return c - '0';
    }
    return c >= 'a' && c <= 'f' ? c - 'a' + 10 : -1;
}

/* The bytes of the digits, over the text itself; -1 where a character is no digit or the count is odd. */
static ssize_t bytes_of(char *text, size_t size) {
    if (size == 1 && text[0] == '-') {
        return 0;
    }
    if (size == 0 || size % 2 != 0) {
        return -1;
    }
    for (size_t i = 0; i < size / 2; i++) {
        int high = digit(text[2 * i]), low = digit(text[2 * i + 1]);
        if (high < 0 || low < 0) {
            return -1;
        }
        text[i] = (char)(high * 16 + low);
    }
    return (ssize_t)(size / 2);
}

static int answer_line(char *line, size_t size) {
    uint32_t order = 0;
    if (size < 10 || line[8] != ' ') {
        return 0;
    }
    for (size_t i = 0; i < 8; i++) {
        int value = digit(line[i]);
        if (value < 0) {
            return 0;
        }
        order = order * 16 + (uint32_t)value;
    }
    ssize_t count = bytes_of(line + 9, size - 9);
    if (count < 0) {
        return 0;
    }
    /* Bytes of their own, so that a read past them shows under valgrind; a null pointer where there are none. */
    uint8_t *bytes = count > 0 ? malloc((size_t)count) : NULL;
    if (count > 0) {
        if (bytes == NULL) {
            return 0;
        }
        memcpy(bytes, line + 9, (size_t)count);
    }
    printf("%016" PRIx64 "\n", s800_check(bytes, (size_t)count, order));
    free(bytes);
    return 1;
}

int main(void) {
    char *line = NULL;
    size_t room = 0;
    ssize_t size;
    int good = 1;
    while (good && (size = getline(&line, &room, stdin)) > 0) {
        size_t length = (size_t)size;
        if (line[length - 1] == '\n') {
            line[--length] = 0;
        }
        good = answer_line(line, length);
    }
    free(line);
    return good && fflush(stdout) == 0 ? EXIT_SUCCESS : EXIT_FAILURE;
}
