/* Drives the library's page of recent events. Each line of standard input lends something or makes a call; numbers are hexadecimal, words four digits each
 * without spaces (`-` for none):
 *
 *   page LENGTH NUMBER..    a page buffer of so many numbers, these first and 0 behind them, for the calls behind
 *   room LENGTH FACTOR      a room of so many words, word i being (i + 1) * FACTOR, for the calls behind
 *   put PLACE WORDS         puts words into the room
 *   clear                   the calls, with the elements lent for the answer, for an event's words and for the counts
 *   add ANSWER WORDS
 *   drop ANSWER
 *   find ANSWER K
 *   event LENGTH K
 *   find-plane ANSWER
 *   plane LENGTH
 *
 * After each call it prints every element that was lent: the answer's in one line, the page's in one, the 64-bit FNV-1a of the room's words, low byte first, then
 * the elements lent for an event's words or for the counts, 64 in a line. A line that is not of this form ends it with a failure. */
#define _POSIX_C_SOURCE 200809L
#include <inttypes.h>
#include <stdio.h>
#include <stdlib.h>
#include <string.h>

void page_clear(uint64_t *page, size_t page_length);
void page_add(uint64_t *page, size_t page_length, const uint16_t *words, size_t words_length, uint16_t *room, size_t room_length, uint64_t *answer,
              size_t answer_length);
void page_drop(uint64_t *page, size_t page_length, const uint16_t *room, size_t room_length, uint64_t *answer, size_t answer_length);
void page_find(const uint64_t *page, size_t page_length, const uint16_t *room, size_t room_length, uint64_t k, uint64_t *answer, size_t answer_length);
void page_event(const uint64_t *page, size_t page_length, const uint16_t *room, size_t room_length, uint64_t k, uint16_t *words, size_t words_length);
void page_find_plane(const uint64_t *page, size_t page_length, const uint16_t *room, size_t room_length, uint64_t *answer, size_t answer_length);
void page_plane(const uint64_t *page, size_t page_length, const uint16_t *room, size_t room_length, uint32_t *counts, size_t counts_length);

enum { IN_LINE = 64 };

/* What is lent from one call to the next. */
static uint64_t *page;
static uint16_t *room;
static size_t page_length, room_length;

static _Noreturn void fail(const char *why) {
    fprintf(stderr, "page_calls: %s\n", why);
    exit(EXIT_FAILURE);
}

static uint32_t digit_of(char character) {
    const char *known = "0123456789abcdef", *found = character == 0 ? NULL : strchr(known, character);
    if (found == NULL) {
        fail("not a digit");
    }
    return (uint32_t)(found - known);
}

/* The number behind the space that a text begins with; the text then begins behind it. */
static uint64_t take_number(char **text) {
    size_t digits = **text == ' ' ? strcspn(*text + 1, " ") : 0;
    uint64_t number = 0;
    if (digits == 0 || digits > 16) {
        fail("not a number");
    }
    for (size_t i = 1; i <= digits; i++) {
        number = number * 16 + digit_of((*text)[i]);
    }
    *text += 1 + digits;
    return number;
}

/* Elements of their own, so that a read or a write past them shows under valgrind; a null pointer where there are none. */
static void *lent(size_t count, size_t size) {
    if (count == 0) {
        return NULL;
    }
    void *elements = malloc(count * size);
    if (elements == NULL) {
        fail("no memory");
    }
    return memset(elements, 0xa5, count * size);
}

/* The words behind the space that a text begins with, up to its end. */
static uint16_t *take_words(char **text, size_t *length) {
    const char *digits = *text + 1;
    size_t size = **text != ' ' || strcmp(digits, "-") == 0 ? 0 : strlen(digits);
    if (**text != ' ' || size % 4 != 0) {
        fail("not whole words");
    }
    *length = size / 4;
    uint16_t *words = lent(*length, sizeof *words);
    for (size_t i = 0; i < *length; i++) {
        words[i] = 0;
        for (size_t digit = 0; digit < 4; digit++) {
            words[i] = (uint16_t)(words[i] * 16 + digit_of(digits[4 * i + digit]));
        }
    }
    *text += strlen(*text);
    return words;
}

static void lend_page(char **text) {
    free(page);
    page_length = take_number(text);
    page = lent(page_length, sizeof *page);
    for (size_t i = 0; i < page_length; i++) {
        page[i] = **text == 0 ? 0 : take_number(text);
    }
}

static void lend_room(char **text) {
    free(room);
    room_length = take_number(text);
    uint64_t factor = take_number(text);
    room = lent(room_length, sizeof *room);
    for (size_t i = 0; i < room_length; i++) {
        room[i] = (uint16_t)((i + 1) * factor);
    }
}

static void put(char **text) {
    size_t place = take_number(text), length;
    uint16_t *words = take_words(text, &length);
    if (place > room_length || length > room_length - place) {
        fail("words outside the room");
    }
    for (size_t i = 0; i < length; i++) {
        room[place + i] = words[i];
    }
    free(words);
}

/* The answer's elements, the page's, the room's hash. */
static void print_kept(const uint64_t *answer, size_t answer_length) {
    uint64_t hash = 0xcbf29ce484222325u;
    for (size_t i = 0; i < room_length; i++) {
        hash = (hash ^ (room[i] & 0xff)) * 0x100000001b3u;
        hash = (hash ^ (room[i] >> 8)) * 0x100000001b3u;
    }
    fputs("answer", stdout);
    for (size_t i = 0; i < answer_length; i++) {
        printf(" %016" PRIx64, answer[i]);
    }
    fputs("\npage", stdout);
    for (size_t i = 0; i < page_length; i++) {
        printf(" %" PRIx64, page[i]);
    }
    printf("\nroom %016" PRIx64 "\n", hash);
}

/* Before an element the name of its line, behind it the line's end, where it is the first or the last there. */
static const char *begin(const char *name, size_t i) {
    return i % IN_LINE == 0 ? name : "";
}

static const char *end(size_t i, size_t count) {
    return i % IN_LINE == IN_LINE - 1 || i == count - 1 ? "\n" : "";
}

static void call_event(char **text) {
    size_t length = take_number(text);
    uint64_t k = take_number(text);
    uint16_t *words = lent(length, sizeof *words);
    page_event(page, page_length, room, room_length, k, words, length);
    print_kept(NULL, 0);
    for (size_t i = 0; i < length; i++) {
        printf("%s %04" PRIx16 "%s", begin("words", i), words[i], end(i, length));
    }
    free(words);
}

static void call_plane(char **text) {
    size_t length = take_number(text);
    uint32_t *counts = lent(length, sizeof *counts);
    page_plane(page, page_length, room, room_length, counts, length);
    print_kept(NULL, 0);
    for (size_t i = 0; i < length; i++) {
        printf("%s %08" PRIx32 "%s", begin("counts", i), counts[i], end(i, length));
    }
    free(counts);
}

/* A call that has an answer; whether its name is one. */
static int call_with_answer(const char *name, char **text) {
    int is_add = strcmp(name, "add") == 0, is_find = strcmp(name, "find") == 0;
    int is_drop = strcmp(name, "drop") == 0;
    if (!is_add && !is_find && !is_drop && strcmp(name, "find-plane") != 0) {
        return 0;
    }
    size_t answer_length = take_number(text), words_length = 0;
    uint64_t k = is_find ? take_number(text) : 0;
    uint16_t *words = is_add ? take_words(text, &words_length) : NULL;
    uint64_t *answer = lent(answer_length, sizeof *answer);
    if (is_add) {
        page_add(page, page_length, words, words_length, room, room_length, answer, answer_length);
    } else if (is_drop) {
        page_drop(page, page_length, room, room_length, answer, answer_length);
    } else if (is_find) {
        page_find(page, page_length, room, room_length, k, answer, answer_length);
    } else {
        page_find_plane(page, page_length, room, room_length, answer, answer_length);
    }
    print_kept(answer, answer_length);
    free(words);
    free(answer);
    return 1;
}

static void take_line(char *line) {
    size_t size = strcspn(line, " ");
    char name[16] = "", *text = line + size;
    if (size < sizeof name) {
        memcpy(name, line, size);
    }
    if (strcmp(name, "page") == 0) {
        lend_page(&text);
    } else if (strcmp(name, "room") == 0) {
        lend_room(&text);
    } else if (strcmp(name, "put") == 0) {
        put(&text);
    } else if (strcmp(name, "clear") == 0) {
        page_clear(page, page_length);
        print_kept(NULL, 0);
    } else if (strcmp(name, "event") == 0) {
        call_event(&text);
    } else if (strcmp(name, "plane") == 0) {
        call_plane(&text);
    } else if (!call_with_answer(name, &text)) {
        fail("no such line");
    }
    if (*text != 0) {
        fail("more than the line needs");
    }
}

int main(void) {
    char *line = NULL;
    size_t size_of_line = 0;
    ssize_t size;
    while ((size = getline(&line, &size_of_line, stdin)) > 0) {
        if (line[size - 1] == '\n') {
            line[size - 1] = 0;
        }
        take_line(line);
    }
    free(line);
    free(page);
    free(room);
    return fflush(stdout) == 0 ? EXIT_SUCCESS : EXIT_FAILURE;
}
