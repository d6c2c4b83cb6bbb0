/*
 * Calls compare with empty, damaged and huge texts, with buffers of every size, and with the largest numbers. Each call
 * is made twice, on two different patterns in the buffer, and has guard bytes on both sides of it: what must stay is
 * compared byte for byte, and the answers must be equal.
 *
 *   compare_test TABLE...     each TABLE is a file of row text
 */
#include "formbook.h"

#include <stdio.h>
#include <stdlib.h>
#include <string.h>

enum { GUARD = 64, ROOM = 32768, LONG = 1 << 20 };

static unsigned long calls, failures;

static void fail(const char *what, uint64_t result) {
    failures++;
    fprintf(stderr, "call %lu: %s (the result was %llu)\n", calls, what, (unsigned long long)result);
}

/* A fault has a code of its layer, and a place that the code allows. */
static int well_formed(uint64_t result, size_t room) {
    unsigned code = formbook_code(result);
    uint64_t place = formbook_place(result);
    switch (formbook_layer(result)) {
    case FORMBOOK_ANSWER:
        return result == 0 || (code == FORMBOOK_NO && place <= room && place <= ROOM);
    case FORMBOOK_OUR_TEXT:
    case FORMBOOK_THEIR_TEXT:
        return code == FORMBOOK_WRONG_LINE ? place < 4 * 64 : (code == FORMBOOK_TEXT_TOO_LONG || code == FORMBOOK_TOO_MANY_LINES) && place == 0;
    case FORMBOOK_OUR_TABLE:
    case FORMBOOK_THEIR_TABLE:
        return code == FORMBOOK_NO_ROWS ? place == 0 : (code == FORMBOOK_NUMBER_OUTSIDE || code == FORMBOOK_LABEL_TWICE) && place < 64;
    case FORMBOOK_JOINING:
        return code == FORMBOOK_TOO_MANY_ROWS && place == 0;
    case FORMBOOK_BOOK:
        return code == FORMBOOK_ROW_OUTSIDE && place <= 1;
    case FORMBOOK_WRITING:
        return code == FORMBOOK_ORDER_TOO_LONG && place == 0;
    default:
        return 0;
    }
}

/* What a call left in its buffer: the order after a no, else nothing. */
static uint8_t order[ROOM];
static size_t order_length;

static int is_filled(const uint8_t *bytes, size_t count, uint8_t with) {
    size_t k;
    for (k = 0; k < count; k++) {
        if (bytes[k] != with) {
            return 0;
        }
    }
    return 1;
}

/* One call on a buffer that is filled with one byte. */
static uint64_t call_on(const uint8_t *ours, size_t ours_length, const uint8_t *theirs, size_t theirs_length, uint64_t p, uint64_t q, uint64_t t, size_t room, uint8_t with) {
    uint8_t *memory = malloc(room + 2 * GUARD);
    uint64_t result;
    size_t kept;
    if (memory == NULL) {
        perror("malloc");
        exit(2);
    }
    memset(memory, with, room + 2 * GUARD);
    result = compare(ours, ours_length, theirs, theirs_length, p, q, t, memory + GUARD, room);
    calls++;
    if (!well_formed(result, room)) {
        fail("no such result", result);
    }
    kept = formbook_is_no(result) ? formbook_order_length(result) : 0;
    if (kept > room) {
        fail("the order is longer than the buffer", result);
        kept = room;
    }
    if (!is_filled(memory, GUARD, with)) {
        fail("bytes before the buffer were written", result);
    }
    if (!is_filled(memory + GUARD + kept, room - kept + GUARD, with)) {
        fail("bytes that must stay were written", result);
    }
    memcpy(order, memory + GUARD, kept);
    order_length = kept;
    free(memory);
    return result;
}

/* The same call twice, on two patterns. */
static uint64_t ask(const uint8_t *ours, size_t ours_length, const uint8_t *theirs, size_t theirs_length, uint64_t p, uint64_t q, uint64_t t, size_t room) {
    static uint8_t first_order[ROOM];
    size_t first_length;
    uint64_t first = call_on(ours, ours_length, theirs, theirs_length, p, q, t, room, 0x5a);
    uint64_t second;
    memcpy(first_order, order, order_length);
    first_length = order_length;
    second = call_on(ours, ours_length, theirs, theirs_length, p, q, t, room, 0xc3);
    if (first != second || first_length != order_length || memcmp(first_order, order, order_length) != 0) {
        fail("the same call gave another answer", second);
    }
    return second;
}

static uint64_t ask_words(const char *ours, const char *theirs, uint64_t p, uint64_t q, uint64_t t, size_t room) {
    return ask((const uint8_t *)ours, strlen(ours), (const uint8_t *)theirs, strlen(theirs), p, q, t, room);
}

static uint64_t packed(unsigned code, unsigned layer, uint64_t place) { return code + 256u * layer + 65536u * place; }

static void expect(const char *what, uint64_t result, uint64_t wanted) {
    if (result != wanted) {
        fail(what, result);
        fprintf(stderr, "    wanted %llu\n", (unsigned long long)wanted);
    }
}

static const char two_labels[] = "V,,,\nE,0000000000000006,0,0,\n";
static const char our_words[] = "V,,,\nE,0000000000000006,0,0\n";
static const char their_words[] = "V,,,\nE,0000000000000002,0,0\n";

/* The worked case, its answer in buffers of all sizes near its length, and each layer's faults. */
static void worked(void) {
    static const uint64_t most = UINT64_MAX;
    size_t room;
    expect("the worked case", ask_words(our_words, their_words, 1, 1, 0, ROOM), 196609);
    if (order_length != 3 || memcmp(order, "2[]", 3) != 0) {
        fail("the worked order", 0);
    }
    for (room = 0; room < 6; room++) {
        expect("the worked case in a small buffer", ask_words(our_words, their_words, 1, 1, 0, room), room < 3 ? packed(FORMBOOK_ORDER_TOO_LONG, FORMBOOK_WRITING, 0) : 196609);
    }
    expect("the same turned round", ask_words(their_words, our_words, 1, 1, 0, ROOM), 0);
    expect("a yes without room", ask_words(their_words, our_words, 1, 1, 0, 0), 0);
    expect("the empty order", ask_words("V,,,\nN,,,\n", "N,,,\n", 0, 0, 0, 0), packed(FORMBOOK_NO, FORMBOOK_ANSWER, 0));
    expect("a comma too many", ask_words(two_labels, their_words, 0, 0, 0, ROOM), packed(FORMBOOK_WRONG_LINE, FORMBOOK_OUR_TEXT, 4 + 3));
    expect("the same in theirs", ask_words(their_words, two_labels, 0, 0, 0, ROOM), packed(FORMBOOK_WRONG_LINE, FORMBOOK_THEIR_TEXT, 4 + 3));
    expect("no rows of ours", ask_words("", their_words, 0, 0, 0, ROOM), packed(FORMBOOK_NO_ROWS, FORMBOOK_OUR_TABLE, 0));
    expect("no rows of theirs", ask_words(our_words, "", 0, 0, 0, ROOM), packed(FORMBOOK_NO_ROWS, FORMBOOK_THEIR_TABLE, 0));
    expect("a number outside", ask_words("V,,,\nU,,0,2\n", their_words, 0, 0, 0, ROOM), packed(FORMBOOK_NUMBER_OUTSIDE, FORMBOOK_OUR_TABLE, 1));
    expect("a label twice", ask_words(our_words, "V,,,\nE,0000000000000001,0,0\nE,0000000000000001,0,1\nU,,1,2\n", 0, 0, 0, ROOM), packed(FORMBOOK_LABEL_TWICE, FORMBOOK_THEIR_TABLE, 3));
    expect("p outside", ask_words(our_words, their_words, 2, 9, 0, ROOM), packed(FORMBOOK_ROW_OUTSIDE, FORMBOOK_BOOK, 0));
    expect("q outside", ask_words(our_words, their_words, 1, 2, 0, ROOM), packed(FORMBOOK_ROW_OUTSIDE, FORMBOOK_BOOK, 1));
    expect("the largest p", ask_words(our_words, their_words, most, 1, 0, ROOM), packed(FORMBOOK_ROW_OUTSIDE, FORMBOOK_BOOK, 0));
    expect("the largest q", ask_words(our_words, their_words, 1, most, 0, ROOM), packed(FORMBOOK_ROW_OUTSIDE, FORMBOOK_BOOK, 1));
    expect("both the largest", ask_words(our_words, their_words, most, most, most, 0), packed(FORMBOOK_ROW_OUTSIDE, FORMBOOK_BOOK, 0));
    expect("not turned", ask_words("V,,,\nC,i,0,\n", "V,,,\nC,o,0,\n", 1, 1, 0, ROOM), packed(FORMBOOK_NO, FORMBOOK_ANSWER, 2));
    expect("turned", ask_words("V,,,\nC,i,0,\n", "V,,,\nC,o,0,\n", 1, 1, 1, ROOM), 0);
    expect("turned by a larger number", ask_words("V,,,\nC,i,0,\n", "V,,,\nC,o,0,\n", 1, 1, most, ROOM), 0);
}

/* Texts at and past the limits, and two texts that share their bytes. */
static void limits(void) {
    static uint8_t text[LONG];
    static char rows[5 * 65 + 1];
    size_t k;
    memset(text, 'V', sizeof text);
    expect("1,601 bytes", ask(text, 1601, text, 1601, 0, 0, 0, ROOM), packed(FORMBOOK_TEXT_TOO_LONG, FORMBOOK_OUR_TEXT, 0));
    expect("1,600 bytes of nonsense", ask(text, 1600, text, 1601, 0, 0, 0, ROOM), packed(FORMBOOK_WRONG_LINE, FORMBOOK_OUR_TEXT, 0));
    expect("a megabyte", ask(text, LONG, text, 0, 0, 0, 0, ROOM), packed(FORMBOOK_TEXT_TOO_LONG, FORMBOOK_OUR_TEXT, 0));
    for (k = 0; k < 65; k++) {
        memcpy(rows + 5 * k, "V,,,\n", 5);
    }
    expect("65 lines", ask((uint8_t *)rows, 5 * 65, (uint8_t *)rows, 5, 0, 0, 0, ROOM), packed(FORMBOOK_TOO_MANY_LINES, FORMBOOK_OUR_TEXT, 0));
    expect("64 and 1 rows", ask((uint8_t *)rows, 5 * 64, (uint8_t *)rows, 5, 0, 0, 0, ROOM), packed(FORMBOOK_TOO_MANY_ROWS, FORMBOOK_JOINING, 0));
    expect("63 and 1 rows", ask((uint8_t *)rows, 5 * 63, (uint8_t *)rows, 5, 62, 0, 0, ROOM), 0);
    for (k = 0; k <= 20; k++) {
        ask((uint8_t *)rows, k, (uint8_t *)rows, 20 - k, 0, 0, 0, ROOM);
        ask((uint8_t *)rows + k, 20, (uint8_t *)rows, 20, 0, 3, 0, k);
    }
}

static uint64_t state = 88172645463325252u;

static uint64_t next(void) {
    state ^= state << 13;
    state ^= state >> 7;
    state ^= state << 17;
    return state;
}

struct text {
    uint8_t bytes[4096];
    size_t length;
};

static void load(struct text *text, const char *path) {
    FILE *file = fopen(path, "rb");
    if (file == NULL || (text->length = fread(text->bytes, 1, sizeof text->bytes, file)) == 0) {
        perror(path);
        exit(2);
    }
    fclose(file);
}

/* Takes a byte away, puts one in, changes one, or cuts the text off. */
static void damage(struct text *text) {
    static const char likely[] = "VNCEUiob,\n0123456789abcdef\r \0\377";
    size_t at = (size_t)(next() % (text->length + 1));
    uint8_t byte = next() % 4 == 0 ? (uint8_t)next() : (uint8_t)likely[next() % (sizeof likely - 1)];
    switch (next() % 4) {
    case 0:
        if (at < text->length) {
            memmove(text->bytes + at, text->bytes + at + 1, text->length - at - 1);
            text->length--;
        }
        break;
    case 1:
        if (text->length < sizeof text->bytes) {
            memmove(text->bytes + at + 1, text->bytes + at, text->length - at);
            text->bytes[at] = byte;
            text->length++;
        }
        break;
    case 2:
        if (at < text->length) {
            text->bytes[at] = byte;
        }
        break;
    default:
        if (next() % 8 == 0) {
            text->length = at;
        }
    }
}

/* The tables against one another, whole and damaged. */
static void against_one_another(struct text *tables, size_t count, unsigned long rounds) {
    unsigned long seen[8] = {0};
    unsigned long k;
    for (k = 0; k < rounds; k++) {
        static struct text ours, theirs;
        uint64_t times = next() % 3;
        size_t room = next() % 4 == 0 ? ROOM : (size_t)(next() % 40);
        uint64_t result;
        ours = tables[next() % count];
        theirs = tables[next() % count];
        while (times-- > 0) {
            damage(next() % 2 == 0 ? &ours : &theirs);
        }
        result = ask(ours.bytes, ours.length, theirs.bytes, theirs.length, next() % 20, next() % 20, next() % 2, room);
        seen[formbook_layer(result) & 7]++;
    }
    for (k = 0; k < 8; k++) {
        if (k != FORMBOOK_JOINING && seen[k] == 0) {
            fprintf(stderr, "no call ended in layer %lu, so the tables test too little\n", k);
            failures++;
        }
    }
}

int main(int argc, char **argv) {
    enum { MOST = 16 };
    static struct text tables[MOST];
    int k;
    if (argc < 2 || argc > MOST + 1) {
        fprintf(stderr, "compare_test TABLE...: from 1 to %d tables are asked for\n", MOST);
        return 2;
    }
    for (k = 1; k < argc; k++) {
        load(&tables[k - 1], argv[k]);
    }
    worked();
    limits();
    against_one_another(tables, (size_t)argc - 1, 4000);
    printf("%lu calls of compare from C, %lu failures\n", calls, failures);
    return failures == 0 ? 0 : 1;
}
