/* Calls the check of dialect S from C.
 *
 *   host                       runs the cases below and says whether each answer is document 01's
 *   host FILE crossed|rising   checks the event whose bytes are the file's, in that stamp order
 */
#include <stdio.h>
#include <stdlib.h>
#include <string.h>

#include "s800.h"

/* One byte more than the largest event has: enough to be refused. */
enum { ONE_BYTE_TOO_MANY = 8193 };

/* Document 01's event M, its words low byte first. */
static const uint8_t M[28] = {
    0x0e, 0x00, 0x00, 0x58, 0x05, 0x00, 0x06, 0x00, 0x03, 0x58, 0x34, 0x12, 0x00, 0x00,
    0x01, 0x00, 0x00, 0x00, 0x05, 0x00, 0x04, 0x58, 0x07, 0x00, 0x00, 0x00, 0x00, 0x00,
};

static void show(const char *what, uint64_t answer) {
    if (s800_refusal(answer) == 0) {
        printf("%s: %u rows\n", what, s800_rows(answer));
    } else {
        printf("%s: refused %u at %u\n", what, s800_refusal(answer), s800_place(answer));
    }
}

/* Whether the answer is this refusal, or with refusal 0 so many rows. */
static int holds(const char *what, uint64_t answer, uint32_t refusal, uint32_t rows_or_place) {
    uint32_t given = refusal == 0 ? s800_rows(answer) : s800_place(answer);
    show(what, answer);
    if (s800_refusal(answer) == refusal && given == rows_or_place) {
        return 1;
    }
    printf("%s: wrong, document 01 has %u, %u\n", what, refusal, rows_or_place);
    return 0;
}

/* M with another word k, which is below 14, followed by `more` bytes of 0. The caller frees it. */
static uint8_t *changed(size_t k, uint16_t word, size_t more) {
    uint8_t *bytes = calloc(sizeof M + more, 1);
    if (bytes == NULL) {
        exit(EXIT_FAILURE);
    }
    memcpy(bytes, M, sizeof M);
    bytes[2 * k] = (uint8_t)(word & 0xff);
    bytes[2 * k + 1] = (uint8_t)(word >> 8);
    return bytes;
}

/* The check of M changed so. */
static int changed_holds(const char *what, size_t k, uint16_t word, size_t more, uint32_t refusal, uint32_t place) {
    uint8_t *bytes = changed(k, word, more);
    int good = holds(what, s800_check(bytes, sizeof M + more, S800_CROSSED), refusal, place);
    free(bytes);
    return good;
}

static int spoken_cases(void) {
    int good = holds("case 1, M crossed", s800_check(M, sizeof M, S800_CROSSED), 0, 4);
    good &= holds("case 2, M rising", s800_check(M, sizeof M, S800_RISING), 0, 4);
    good &= changed_holds("case 3, word 0 = 000d", 0, 0x000d, 0, 2, 0);
    good &= changed_holds("case 4, word 3 = 000b", 3, 0x000b, 0, 7, 3);
    good &= changed_holds("case 5, word 3 = 000c", 3, 0x000c, 0, 5, 3);
    good &= changed_holds("case 6, word 0 = 000f, 0000 added", 0, 0x000f, 2, 5, 14);
    return good;
}

/* M with a packet behind it: words low byte first. */
static int packet_holds(const char *what, const uint8_t *packet, size_t size, uint32_t rows) {
    uint8_t *bytes = changed(0, (uint16_t)((sizeof M + size) / 2), size);
    memcpy(bytes + sizeof M, packet, size);
    int good = holds(what, s800_check(bytes, sizeof M + size, S800_CROSSED), 0, rows);
    free(bytes);
    return good;
}

static int spoken_words(void) {
    static const uint8_t samples[24] = {
        0x0c, 0x00, 0x40, 0x58, 0x00, 0x00, 0x05, 0x00, 0x41, 0x58, 0x00, 0x00,
        0x52, 0x89, 0x2c, 0x09, 0x04, 0x00, 0x45, 0x58, 0x64, 0x00, 0xc8, 0x00,
    };
    static const uint8_t adc[8] = {0x04, 0x00, 0xc0, 0x58, 0x02, 0x00, 0x2c, 0x61};
    static const uint8_t trigger[8] = {0x04, 0x00, 0x01, 0x58, 0x01, 0x00, 0x64, 0x80};
    int good = packet_holds("case 7, the group 8952 092c", samples, sizeof samples, 9);
    good &= packet_holds("case 8, word 612c under id 2 of 0x58C0", adc, sizeof adc, 6);
    good &= packet_holds("case 9, time word 8064", trigger, sizeof trigger, 7);
    return good;
}

static int edges(void) {
    uint8_t *large = calloc(ONE_BYTE_TOO_MANY, 1);
    if (large == NULL) {
        exit(EXIT_FAILURE);
    }
    int good = holds("no bytes", s800_check(NULL, 0, S800_CROSSED), 1, 0);
    good &= holds("27 bytes", s800_check(M, 27, S800_CROSSED), 1, 0);
    good &= holds("order 2", s800_check(M, sizeof M, 2), 31, 0);
    good &= holds("order 2^32 - 1", s800_check(M, sizeof M, UINT32_MAX), 31, 0);
    good &= holds("order 2, 27 bytes", s800_check(M, 27, 2), 31, 0);
    good &= holds("8,192 bytes", s800_check(large, ONE_BYTE_TOO_MANY - 1, S800_RISING), 2, 0);
    good &= holds("8,193 bytes", s800_check(large, ONE_BYTE_TOO_MANY, S800_RISING), 1, 0);
    free(large);
    return good;
}

static int check_file(const char *name, uint32_t order) {
    static uint8_t bytes[ONE_BYTE_TOO_MANY];
    FILE *file = fopen(name, "rb");
    if (file == NULL) {
        perror(name);
        return 0;
    }
    size_t length = fread(bytes, 1, sizeof bytes, file);
    int read = ferror(file) == 0;
    fclose(file);
    if (!read) {
        fprintf(stderr, "%s: not read\n", name);
        return 0;
    }
    uint64_t answer = s800_check(bytes, length, order);
    show(name, answer);
    return s800_refusal(answer) == 0;
}

int main(int count, char **arguments) {
    int good = 0;
    if (count == 1) {
        good = spoken_cases();
        good &= spoken_words();
        good &= edges();
        printf(good ? "every answer is document 01's\n" : "an answer is wrong\n");
    } else if (count == 3 && strcmp(arguments[2], "crossed") == 0) {
        good = check_file(arguments[1], S800_CROSSED);
    } else if (count == 3 && strcmp(arguments[2], "rising") == 0) {
        good = check_file(arguments[1], S800_RISING);
    } else {
        fprintf(stderr, "usage: host [FILE crossed|rising]\n");
    }
    return good ? EXIT_SUCCESS : EXIT_FAILURE;
}
