/* Lists the entries and the tensors of a GGUF file.
 *
 *     mkdir -p target
 *     (cd crates/strutpebble && rt lib)
 *     cc -O2 -I include examples/c/list.c crates/strutpebble/out/libstrutpebble.a -o target/list
 *     target/list FILE
 *
 * It reads the front of the file, 64 KiB at first, and twice as much each time that the header does
 * not end inside it. It leaves with 0, with 1 where the header is refused or a tensor ends after
 * the file, and with 2 where it was called wrongly, the file can't be read, or there is no
 * memory. */
#include <inttypes.h>
#include <stdio.h>
#include <stdlib.h>
#include <string.h>
#include "strutpebble.h"

static const char *const type_names[] = {"u8",   "i8",     "u16",   "i16", "u32", "i32", "f32",
                                         "bool", "string", "array", "u64", "i64", "f64"};

static void fail(const char *what) {
    perror(what);
    exit(2);
}

/* Signed words are in two's complement, and floats are their bits. */
static void print_scalar(uint64_t type, uint64_t word) {
    int64_t whole;
    float single;
    double twice;
    uint32_t low = (uint32_t)word;
    switch (type) {
    case SP_TYPE_I8:
    case SP_TYPE_I16:
    case SP_TYPE_I32:
    case SP_TYPE_I64:
        memcpy(&whole, &word, sizeof whole);
        printf("%" PRId64 "\n", whole);
        break;
    case SP_TYPE_F32:
        memcpy(&single, &low, sizeof single);
        printf("%.9g\n", single);
        break;
    case SP_TYPE_F64:
        memcpy(&twice, &word, sizeof twice);
        printf("%.17g\n", twice);
        break;
    case SP_TYPE_BOOL:
        puts(word ? "true" : "false");
        break;
    default:
        printf("%" PRIu64 "\n", word);
    }
}

/* Names and strings are bytes of the file, and are written as they are. */
static void print_text(const uint8_t *prefix, uint64_t place, uint64_t length) {
    fwrite(prefix + place, 1, length, stdout);
}

static void print_entry(const uint8_t *prefix, const sp_entry *entry) {
    print_text(prefix, entry->key_place, entry->key_length);
    printf(" %s ", type_names[entry->type]);
    if (entry->type == SP_TYPE_STRING) {
        print_text(prefix, entry->place, entry->length);
        putchar('\n');
    } else if (entry->type == SP_TYPE_ARRAY) {
        printf("of %" PRIu64 " %s\n", entry->count, type_names[entry->item_type]);
    } else {
        print_scalar(entry->type, entry->value);
    }
}

static void print_tensor(const uint8_t *prefix, const sp_tensor *tensor, uint64_t data_start) {
    print_text(prefix, tensor->name_place, tensor->name_length);
    printf(" kind %" PRIu64 " [", tensor->kind);
    for (uint64_t i = 0; i < tensor->dimensions; i++)
        printf(i ? " %" PRIu64 : "%" PRIu64, tensor->lengths[i]);
    printf("] %" PRIu64 " bytes from %" PRIu64 " on\n", tensor->size, data_start + tensor->offset);
}

/* The front of the file that the whole header is in, as far as it can be had, and what sp_measure
 * says of it. */
static uint8_t *front(FILE *file, size_t *length, uint64_t *refusal, uint64_t *answer) {
    size_t room = 65536, had = 0;
    uint8_t *prefix = NULL;
    for (;;) {
        uint8_t *longer = realloc(prefix, room);
        if (!longer)
            fail("list");
        prefix = longer;
        had += fread(prefix + had, 1, room - had, file);
        if (ferror(file))
            fail("list");
        *refusal = sp_measure(prefix, had, SP_ALL_VERSIONS, SP_ALL_KINDS, answer);
        if (*refusal != SP_CUT_OFF || had < room)
            break;
        room *= 2;
    }
    *length = had;
    return prefix;
}

/* Rows that are all 0. The counts are sp_measure's: no more than the prefix holds records. */
static void *rows(uint64_t count, size_t size) {
    void *table = calloc(count, size);
    if (count && !table)
        fail("list");
    return table;
}

/* Prints all that a header lists, and gives the refusal of the range check. */
static uint64_t list(const uint8_t *prefix, size_t length, uint64_t file_length, uint64_t *answer) {
    uint64_t entry_count = answer[SP_ANSWER_ENTRIES], tensor_count = answer[SP_ANSWER_TENSORS];
    sp_entry *entries = rows(entry_count, sizeof *entries);
    sp_tensor *tensors = rows(tensor_count, sizeof *tensors);
    uint64_t refusal = sp_read(prefix, length, SP_ALL_VERSIONS, SP_ALL_KINDS, SP_DEFAULT_CAP,
                               entries, entry_count, tensors, tensor_count, answer);
    if (!refusal) {
        uint64_t start = answer[SP_ANSWER_DATA_START];
        printf("version %" PRIu64 ", %s-endian, alignment %" PRIu64 ", data from %" PRIu64 " on\n",
               answer[SP_ANSWER_VERSION],
               answer[SP_ANSWER_BYTE_ORDER] == SP_LITTLE_ENDIAN ? "little" : "big",
               answer[SP_ANSWER_ALIGNMENT], start);
        for (uint64_t i = 0; i < entry_count; i++)
            print_entry(prefix, &entries[i]);
        /* Before any sum of a start and an offset is made: past this check none wraps. */
        refusal = sp_check_ranges(tensors, tensor_count, start, file_length, answer);
        uint64_t inside = refusal ? answer[SP_ANSWER_TENSOR] : tensor_count;
        for (uint64_t i = 0; i < inside; i++)
            print_tensor(prefix, &tensors[i], start);
    }
    free(tensors);
    free(entries);
    return refusal;
}

int main(int count, char **words) {
    uint64_t answer[SP_ANSWER_WORDS], refusal;
    size_t length;
    if (count != 2) {
        fputs("usage: list FILE\n", stderr);
        return 2;
    }
    FILE *file = fopen(words[1], "rb");
    if (!file)
        fail(words[1]);
    uint8_t *prefix = front(file, &length, &refusal, answer);
    if (!refusal) {
        if (fseek(file, 0, SEEK_END) != 0)
            fail(words[1]);
        refusal = list(prefix, length, (uint64_t)ftell(file), answer);
    }
    if (refusal)
        printf("refused %" PRIu64 " at %" PRIu64 ": %s\n", refusal, answer[SP_ANSWER_PLACE],
               sp_reason(refusal));
    free(prefix);
    fclose(file);
    return refusal ? 1 : 0;
}
