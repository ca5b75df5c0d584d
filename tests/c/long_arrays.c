/* Reads headers with an array of scalars whose count is at, above or far above the items that are
 * there, and prints each answer on a line: the same text from every build that answers alike, which
 * is what tests/beside compares. The last line says how many headers there were.
 *
 * The counts are those at which a product of 64 bits wraps: to 0, to the bytes that are there, and
 * to a place before the array. */
#include <inttypes.h>
#include <stdio.h>
#include <stdlib.h>
#include <string.h>
#include "strutpebble.h"

/* A header that is being made. */
typedef struct header {
    uint8_t bytes[256];
    size_t length;
    int big;
    unsigned size; /* the bytes of a size */
} header;

/* What one header is made of. */
typedef struct shape {
    uint32_t version, order;
    unsigned type;   /* of the items */
    unsigned around; /* so many arrays stand around the array */
    unsigned items;  /* the bytes that stand where the items do */
    int more;        /* whether another entry follows those */
} shape;

static const unsigned widths[] = {1, 1, 2, 2, 4, 4, 4, 1, 0, 0, 8, 8, 8};
static const char key[] = "tokenizer.ggml.scores";
static uint64_t made;

static void put(header *to, uint64_t value, unsigned width) {
    for (unsigned i = 0; i < width; i++)
        to->bytes[to->length++] = (uint8_t)(value >> 8 * (to->big ? width - 1 - i : i));
}

static void put_key(header *to, const char *text) {
    put(to, strlen(text), to->size);
    memcpy(to->bytes + to->length, text, strlen(text));
    to->length += strlen(text);
}

/* Magic, version and counts: no tensor, and one entry or two. */
static void put_front(header *to, const shape *of) {
    static const uint8_t empty_sheet[] = {1};
    uint64_t answer[SP_ANSWER_WORDS];
    if (sp_write(empty_sheet, 1, of->version, of->order, 32, to->bytes, sizeof to->bytes, answer))
        abort();
    to->big = of->order != SP_LITTLE_ENDIAN;
    to->size = of->version == 1 ? 4 : 8;
    to->length = 8;
    put(to, 0, to->size);
    put(to, of->more ? 2 : 1, to->size);
}

/* The entry up to its items, and the place of the count. */
static size_t put_array(header *to, const shape *of) {
    put_key(to, key);
    put(to, SP_TYPE_ARRAY, 4);
    for (unsigned i = 0; i < of->around; i++) {
        put(to, SP_TYPE_ARRAY, 4);
        put(to, 1, to->size);
    }
    put(to, of->type, 4);
    size_t place = to->length;
    put(to, 0, to->size);
    return place;
}

/* What follows the count. */
static void put_rest(header *to, const shape *of) {
    memset(to->bytes + to->length, 0xa5, of->items);
    to->length += of->items;
    if (of->more) {
        put_key(to, "z");
        put(to, SP_TYPE_U8, 4);
        put(to, 7, 1);
    }
}

/* Goes on from a hash over so many bytes (FNV-1a). */
static uint64_t hashed(uint64_t hash, const void *of, size_t length) {
    const uint8_t *bytes = of;
    for (size_t i = 0; i < length; i++)
        hash = (hash ^ bytes[i]) * UINT64_C(1099511628211);
    return hash;
}

/* What sp_read answers, with a hash over all that it and the other questions leave. */
static void print_answers(const header *of) {
    uint64_t answer[SP_ANSWER_WORDS], other[SP_ANSWER_WORDS], hash = UINT64_C(14695981039346656037);
    sp_entry rows[2];
    memset(rows, 7, sizeof rows);
    uint64_t refusal = sp_read(of->bytes, of->length, 3, 39, 3, rows, 2, NULL, 0, answer);
    hash = hashed(hash, rows, sizeof rows);
    hash = hashed(hash, answer, sizeof answer);
    uint64_t measured = sp_measure(of->bytes, of->length, 3, 39, other);
    hash = hashed(hashed(hash, &measured, sizeof measured), other, sizeof other);
    uint64_t found = sp_find(of->bytes, of->length, (const uint8_t *)key, strlen(key), other);
    hash = hashed(hashed(hash, &found, sizeof found), other, sizeof other);
    printf("%" PRIu64 " %" PRIu64 " %016" PRIx64 "\n", refusal, answer[0], hash);
}

/* The header with another count, which stands at the place. */
static void try_count(header *of, const shape *as, size_t place, uint64_t count) {
    size_t length = of->length;
    of->length = place;
    put(of, count, of->size);
    of->length = length;
    printf("version %u, order %u, type %u, in %u, %u bytes, %d, count %" PRIu64 ": ", as->version,
           as->order, as->type, as->around, as->items, as->more, count);
    print_answers(of);
    made++;
}

/* Whether a number is one of so many. */
static int is_among(uint64_t number, const uint64_t *numbers, size_t length) {
    size_t i = 0;
    while (i < length && numbers[i] != number)
        i++;
    return i < length;
}

/* Each count once, of those that the version can say. */
static void try_shape(const shape *as) {
    header of = {0};
    put_front(&of, as);
    size_t place = put_array(&of, as);
    uint64_t first = of.length, width = widths[as->type];
    put_rest(&of, as);
    uint64_t there = as->items / width, left = (of.length - first) / width;
    uint64_t wraps = UINT64_MAX / width + 1, to_front = (0 - first) / width;
    const uint64_t one = 1;
    const uint64_t counts[] = {
        0, 1, there - 1, there, there + 1, left, left + 1,
        wraps - 1, wraps, wraps + 1, wraps + there, wraps + left, wraps + left + 1,
        to_front, to_front + 1, to_front + there,
        one << 61, (one << 61) - 1, (one << 61) + there, one << 63, UINT64_MAX, UINT64_MAX - 1,
        UINT32_MAX, UINT32_MAX - 1, one << 32, one << 29, (one << 29) + there,
    };
    for (size_t i = 0; i < sizeof counts / sizeof *counts; i++)
        if (!is_among(counts[i], counts, i) && (as->version > 1 || counts[i] <= UINT32_MAX))
            try_count(&of, as, place, counts[i]);
}

/* All item types and depths, and up to 24 bytes of items. */
static void try_form(uint32_t version, uint32_t order) {
    for (unsigned type = 0; type < sizeof widths / sizeof *widths; type++)
        for (unsigned around = 0; widths[type] && around < 4; around++)
            for (unsigned items = 0; items <= 24; items++)
                for (int more = 0; more < 2; more++)
                    try_shape(&(shape){version, order, type, around, items, more});
}

int main(void) {
    for (uint32_t version = 1; version <= 3; version++)
        for (uint32_t order = SP_LITTLE_ENDIAN; order <= SP_BIG_ENDIAN_MAGIC; order++)
            if (version == 3 || order != SP_BIG_ENDIAN)
                try_form(version, order);
    printf("%" PRIu64 " headers\n", made);
    return 0;
}
