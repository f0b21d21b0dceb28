/* Drives the library's comparison of two events: each line of standard input is a call, six numbers of eight hexadecimal digits (the width of the words,
 * the dialect, the stamp order, the elements lent for the word list, for the row list and for the answer), then the words of each event without spaces
 * (`-` for none). It prints every element that was lent: the answer's in one line, then those of the word list, three in a line, and those of the row
 * list, nine in a line. A line that is not of this form ends it with a failure. */
#define _POSIX_C_SOURCE 200809L
#include <inttypes.h>
#include <stdio.h>
#include <stdlib.h>
#include <string.h>

void compare_call16(uint32_t dialect, uint32_t order, const uint16_t *first, size_t first_length, const uint16_t *second, size_t second_length,
                    uint64_t *words, size_t words_length, uint32_t *rows, size_t rows_length, uint64_t *answer, size_t answer_length);
void compare_call32(uint32_t dialect, uint32_t order, const uint32_t *first, size_t first_length, const uint32_t *second, size_t second_length,
                    uint64_t *words, size_t words_length, uint32_t *rows, size_t rows_length, uint64_t *answer, size_t answer_length);

enum { WIDTH, DIALECT, ORDER, WORDS, ROWS, ANSWER, NUMBERS };

static _Noreturn void fail(const char *why) {
    fprintf(stderr, "pair_calls: %s\n", why);
    exit(EXIT_FAILURE);
}

/* The number of so many digits at the front of a text. */
static uint32_t number_of(const char *text, size_t digits) {
    uint32_t number = 0;
    for (size_t i = 0; i < digits; i++) {
        const char *known = "0123456789abcdef", *found = text[i] == 0 ? NULL : strchr(known, text[i]);
        if (found == NULL) {
            fail("not a digit");
        }
        number = number * 16 + (uint32_t)(found - known);
    }
    return number;
}

/* Elements of their own, so that a read or a write past them shows under valgrind; a null pointer where there are none. */
static void *lent(size_t count, size_t size) {
    if (count == 0) {
        return NULL;
    }
    void *elements = malloc(count * size);
    if (elements == NULL) {
        fail("no memory");
    }
    return memset(elements, 0xa5, count * size);
}

/* The words of an event of so many bits each. */
static void *words_of(const char *text, size_t bits, size_t *length) {
    size_t digits = bits / 4, size = strcmp(text, "-") == 0 ? 0 : strlen(text);
    *length = size / digits;
    if (size % digits != 0) {
        fail("not whole words");
    }
    void *words = lent(*length, bits / 8);
    for (size_t i = 0; i < *length; i++) {
        uint32_t word = number_of(text + i * digits, digits);
        if (bits == 16) {
            ((uint16_t *)words)[i] = (uint16_t)word;
        } else {
            ((uint32_t *)words)[i] = word;
        }
    }
    return words;
}

/* Lines of so many elements each, a name before them. */
static void print64(const char *name, const uint64_t *elements, size_t count, size_t in_line) {
    for (size_t i = 0; i < count; i++) {
        printf("%s %016" PRIx64 "%s", i % in_line == 0 ? name : "", elements[i], i % in_line == in_line - 1 || i == count - 1 ? "\n" : "");
    }
}

static void print32(const char *name, const uint32_t *elements, size_t count, size_t in_line) {
    for (size_t i = 0; i < count; i++) {
        printf("%s %08" PRIx32 "%s", i % in_line == 0 ? name : "", elements[i], i % in_line == in_line - 1 || i == count - 1 ? "\n" : "");
    }
}

static void answer_call(const uint32_t *numbers, const char *first_text, const char *second_text) {
    size_t bits = numbers[WIDTH], first_length, second_length;
    void *first = words_of(first_text, bits, &first_length), *second = words_of(second_text, bits, &second_length);
    uint64_t *words = lent(numbers[WORDS], sizeof *words), *answer = lent(numbers[ANSWER], sizeof *answer);
    uint32_t *rows = lent(numbers[ROWS], sizeof *rows);
    if (bits == 16) {
        compare_call16(numbers[DIALECT], numbers[ORDER], first, first_length, second, second_length, words, numbers[WORDS], rows, numbers[ROWS], answer,
                       numbers[ANSWER]);
    } else {
        compare_call32(numbers[DIALECT], numbers[ORDER], first, first_length, second, second_length, words, numbers[WORDS], rows, numbers[ROWS], answer,
                       numbers[ANSWER]);
    }
    if (numbers[ANSWER] == 0) {
        puts("answer");
    }
    print64("answer", answer, numbers[ANSWER], numbers[ANSWER]);
    print64("word", words, numbers[WORDS], 3);
    print32("row", rows, numbers[ROWS], 9);
    free(first);
    free(second);
    free(words);
    free(rows);
    free(answer);
}

static void answer_line(char *line) {
    uint32_t numbers[NUMBERS];
    for (size_t i = 0; i < NUMBERS; i++, line += 9) {
        numbers[i] = number_of(line, 8);
        if (line[8] != ' ') {
            fail("not six numbers");
        }
    }
    char *space = strchr(line, ' ');
    if (space == NULL || (numbers[WIDTH] != 16 && numbers[WIDTH] != 32)) {
        fail("not two events of 16 or 32 bits");
    }
    *space = 0;
    answer_call(numbers, line, space + 1);
}

int main(void) {
    char *line = NULL;
    size_t room = 0;
    ssize_t size;
    while ((size = getline(&line, &room, stdin)) > 0) {
        if (line[size - 1] == '\n') {
            line[size - 1] = 0;
        }
        answer_line(line);
    }
    free(line);
    return fflush(stdout) == 0 ? EXIT_SUCCESS : EXIT_FAILURE;
}
