/* The exported functions as C has them: structs, words, null pointers, reasons, versions. Leaves
 * with 0 where all is as it must be; a line on standard error says what is not. */
#include <stdio.h>
#include <string.h>
#include "strutpebble.h"

static int failed;

#define CHECK(fact)                                                            \
    do {                                                                       \
        if (!(fact)) {                                                         \
            fprintf(stderr, "%s:%d: not so: %s\n", __FILE__, __LINE__, #fact); \
            failed = 1;                                                        \
        }                                                                      \
    } while (0)

/* The sheet of README.md: one tensor "b", three 16-bit floats. */
static const uint8_t sheet[] = {1, 0, 0, 0, 0x13, 2, 0, 0, 0, 1, 'b', 0, 0, 0, 1, 1,
                                0, 0, 0, 0, 0, 0, 0, 3};

/* An empty sheet's header, with the key general.alignment. */
static const uint8_t empty_sheet[] = {1};

static void a_tensor_is_a_struct(void) {
    uint8_t file[128];
    uint64_t answer[SP_ANSWER_WORDS];
    sp_tensor tensors[1];
    CHECK(sp_write(sheet, sizeof sheet, 3, 0, 32, file, sizeof file, answer) == 0);
    CHECK(answer[SP_WRITTEN_END] == 57 && answer[SP_WRITTEN_DATA_START] == 64);
    CHECK(sp_read(file, 57, SP_ALL_VERSIONS, SP_ALL_KINDS, SP_DEFAULT_CAP, NULL, 0, tensors, 1,
                  answer) == 0);
    CHECK(answer[SP_ANSWER_VERSION] == 3 && answer[SP_ANSWER_DATA_START] == 64);
    CHECK(tensors[0].name_length == 1 && file[tensors[0].name_place] == 'b');
    CHECK(tensors[0].kind == 1 && tensors[0].dimensions == 1 && tensors[0].lengths[0] == 3);
    CHECK(tensors[0].lengths[3] == 1 && tensors[0].offset == 0 && tensors[0].size == 6);
    const uint64_t *words = (const uint64_t *)tensors;
    CHECK(words[SP_TENSOR_SIZE] == 6 && words[SP_TENSOR_NAME_LENGTH] == 1);
    CHECK(sp_check_ranges(tensors, 1, 64, 70, answer) == 0);
    CHECK(sp_check_ranges(tensors, 1, 64, 69, answer) == SP_PAST_THE_FILE && answer[0] == 0);
}

static void an_entry_is_a_struct(void) {
    uint8_t file[128];
    uint64_t answer[SP_ANSWER_WORDS];
    sp_entry entries[1], found;
    CHECK(sp_write(empty_sheet, 1, 3, SP_BIG_ENDIAN, 64, file, sizeof file, answer) == 0);
    CHECK(sp_read(file, answer[SP_WRITTEN_END], SP_ALL_VERSIONS, SP_ALL_KINDS, SP_DEFAULT_CAP,
                  entries, 1, NULL, 0, answer) == 0);
    CHECK(answer[SP_ANSWER_BYTE_ORDER] == SP_BIG_ENDIAN && answer[SP_ANSWER_ALIGNMENT] == 64);
    CHECK(entries[0].type == SP_TYPE_U32 && entries[0].value == 64);
    CHECK(entries[0].key_length == 17);
    CHECK(memcmp(file + entries[0].key_place, "general.alignment", 17) == 0);
    CHECK(sp_find(file, sizeof file, (const uint8_t *)"general.alignment", 17, answer) == 0);
    memcpy(&found, answer, sizeof found);
    CHECK(memcmp(&found, entries, sizeof found) == 0);
}

static void null_is_no_bytes(void) {
    uint64_t answer[SP_ANSWER_WORDS], tensor[SP_FOUND_WORDS];
    uint8_t file[64];
    CHECK(sp_measure(NULL, 0, 3, 39, answer) == SP_CUT_OFF && answer[0] == 0);
    CHECK(sp_read(NULL, 0, 3, 39, 3, NULL, 0, NULL, 0, answer) == SP_CUT_OFF);
    CHECK(sp_find(NULL, 0, NULL, 0, answer) == SP_CUT_OFF);
    CHECK(sp_find_string(NULL, 0, NULL, 0, answer) == SP_CUT_OFF);
    CHECK(sp_model_family(NULL, 0, answer) == SP_CUT_OFF);
    CHECK(sp_file_type(NULL, 0, answer) == SP_CUT_OFF);
    CHECK(sp_find_tensor(NULL, 0, NULL, 0, tensor, answer) == SP_CUT_OFF);
    CHECK(sp_check_ranges(NULL, 0, 1, 0, answer) == 0);
    CHECK(sp_replay_fetches(NULL, 0, 1, 0, NULL, 0, NULL, 0, answer) == SP_BAD_TRACE);
    CHECK(answer[0] == 0);
    CHECK(sp_replay_fetches(NULL, 0, 1, 0, empty_sheet, 1, NULL, 0, answer) == 0);
    CHECK(sp_write(NULL, 0, 3, 0, 32, NULL, 0, answer) == SP_BAD_SHEET && answer[0] == 0);
    CHECK(sp_write(empty_sheet, 1, 3, 0, 32, NULL, 0, answer) == SP_OUTPUT_TOO_SHORT);
    CHECK(sp_write(empty_sheet, 1, 3, 0, 32, file, sizeof file, answer) == 0);
    CHECK(sp_read(file, 24, 3, 39, 3, NULL, 0, NULL, 0, answer) == 0);
    CHECK(sp_measure(file, 24, 3, 39, answer) == 0);
    CHECK(sp_find(file, 24, NULL, 0, answer) == SP_ABSENT);
    CHECK(sp_find_string(file, 24, NULL, 0, answer) == SP_ABSENT);
    CHECK(sp_find_tensor(file, 24, NULL, 0, tensor, answer) == SP_ABSENT && answer[0] == 0);
}

static void ceilings_hold(void) {
    uint64_t answer[SP_ANSWER_WORDS];
    uint8_t file[128];
    CHECK(sp_write(sheet, sizeof sheet, 3, 0, 32, file, sizeof file, answer) == 0);
    CHECK(sp_measure(file, 57, 2, 39, answer) == SP_VERSION_ABOVE_CEILING && answer[0] == 4);
    CHECK(sp_measure(file, 57, 3, 0, answer) == SP_KIND_ABOVE_CEILING && answer[0] == 45);
    CHECK(sp_read(file, 57, 3, 39, 3, NULL, 0, NULL, 0, answer) == SP_TOO_FEW_ROWS);
}

/* Reads the header of the sheet with another kind, at 45 of it, and another length, at 37. */
static uint64_t read_other(uint8_t kind, uint16_t length, sp_tensor *row, uint64_t *answer) {
    uint8_t file[64];
    CHECK(sp_write(sheet, sizeof sheet, 3, 0, 32, file, sizeof file, answer) == 0);
    file[45] = kind;
    file[37] = length & 255;
    file[38] = length >> 8;
    return sp_read(file, 57, 3, 39, 3, NULL, 0, row, 1, answer);
}

static void sizes_are_those_of_whole_blocks(void) {
    uint64_t answer[SP_ANSWER_WORDS];
    sp_tensor row;
    CHECK(read_other(30, 256, &row, answer) == 0);
    CHECK(row.kind == 30 && row.lengths[0] == 256 && row.size == 512);
    /* Half of the file, and all of it but a byte. */
    CHECK(sp_check_ranges(&row, 1, 64, 288, answer) == SP_PAST_THE_FILE && answer[0] == 0);
    CHECK(sp_check_ranges(&row, 1, 64, 575, answer) == SP_PAST_THE_FILE && answer[0] == 0);
    CHECK(sp_check_ranges(&row, 1, 64, 576, answer) == 0);
    CHECK(read_other(39, 32, &row, answer) == 0 && row.size == 17);
    CHECK(read_other(9, 32, &row, answer) == 0 && row.size == 36);
    CHECK(read_other(20, 32, &row, answer) == 0 && row.size == 18);
    CHECK(read_other(2, 0, &row, answer) == 0 && row.size == 0);
    /* A kind whose data takes no bytes need not have whole blocks. */
    CHECK(read_other(31, 33, &row, answer) == 0 && row.size == 0 && row.lengths[0] == 33);
}

static void a_partial_block_is_not_read(void) {
    uint64_t answer[SP_ANSWER_WORDS];
    sp_tensor row, before;
    memset(&row, 7, sizeof row);
    before = row;
    CHECK(read_other(2, 33, &row, answer) == SP_PARTIAL_BLOCK && answer[SP_ANSWER_PLACE] == 24);
    CHECK(read_other(39, 31, &row, answer) == SP_PARTIAL_BLOCK && answer[SP_ANSWER_PLACE] == 24);
    CHECK(read_other(12, 32, &row, answer) == SP_PARTIAL_BLOCK && answer[SP_ANSWER_PLACE] == 24);
    CHECK(memcmp(&row, &before, sizeof row) == 0);
    for (size_t i = 1; i < SP_ANSWER_WORDS; i++)
        CHECK(answer[i] == 0);
}

enum { TWICE = 2 * sizeof sheet - 1 };

/* The sheet with its tensor twice. */
static void put_twice(uint8_t twice[TWICE]) {
    memcpy(twice, sheet, sizeof sheet);
    memcpy(twice + sizeof sheet, sheet + 1, sizeof sheet - 1);
}

/* The second tensor has another kind and length. */
static void a_partial_block_is_not_written(void) {
    uint64_t answer[SP_ANSWER_WORDS];
    uint8_t twice[TWICE], out[128], before[128];
    put_twice(twice);
    uint8_t *kind = &twice[sizeof twice - 10], *length = &twice[sizeof twice - 1];
    memset(out, 7, sizeof out);
    memcpy(before, out, sizeof out);
    *kind = 2;
    *length = 33;
    CHECK(sp_write(twice, sizeof twice, 3, 0, 32, out, sizeof out, answer) == SP_PARTIAL_BLOCK);
    CHECK(answer[SP_ANSWER_TENSOR] == 1 && memcmp(out, before, sizeof out) == 0);
    *kind = 31;
    CHECK(sp_write(twice, sizeof twice, 3, 0, 32, out, sizeof out, answer) == SP_KIND_NOT_WRITTEN);
    CHECK(answer[SP_ANSWER_TENSOR] == 1 && memcmp(out, before, sizeof out) == 0);
    *kind = 39;
    *length = 32;
    CHECK(sp_write(twice, sizeof twice, 3, 0, 32, out, sizeof out, answer) == 0);
    CHECK(answer[SP_WRITTEN_END] == 90 && answer[SP_WRITTEN_DATA_START] == 96);
}

/* Two tensors: the first has its offset at 49, the second its kind at 78 and its offset, which is
 * the header's last field, at 82. */
static void a_misaligned_offset_is_not_read(void) {
    uint64_t answer[SP_ANSWER_WORDS];
    uint8_t twice[TWICE], file[128];
    sp_entry entry, entry_before;
    sp_tensor rows[2], rows_before[2];
    put_twice(twice);
    memset(&entry, 7, sizeof entry);
    memset(rows, 7, sizeof rows);
    entry_before = entry;
    memcpy(rows_before, rows, sizeof rows);
    CHECK(sp_write(twice, sizeof twice, 3, 0, 32, file, sizeof file, answer) == 0);
    CHECK(sp_measure(file, 90, 3, 39, answer) == 0 && file[82] == 32);
    file[82] = 33;
    CHECK(sp_read(file, 90, 3, 39, 3, &entry, 1, rows, 2, answer) == SP_MISALIGNED);
    CHECK(answer[SP_ANSWER_PLACE] == 82);
    CHECK(memcmp(&entry, &entry_before, sizeof entry) == 0);
    CHECK(memcmp(rows, rows_before, sizeof rows) == 0);
    for (size_t i = 1; i < SP_ANSWER_WORDS; i++)
        CHECK(answer[i] == 0);
    CHECK(sp_measure(file, 90, 3, 39, answer) == SP_MISALIGNED && answer[SP_ANSWER_PLACE] == 82);
    CHECK(sp_find(file, 90, NULL, 0, answer) == SP_MISALIGNED && answer[SP_ANSWER_PLACE] == 82);
    CHECK(sp_find_string(file, 90, NULL, 0, answer) == SP_MISALIGNED);
    CHECK(sp_model_family(file, 90, answer) == SP_MISALIGNED);
    CHECK(sp_file_type(file, 90, answer) == SP_MISALIGNED && answer[SP_ANSWER_PLACE] == 82);
    /* The first one decides, and after every other check. */
    file[49] = 8;
    CHECK(sp_measure(file, 90, 3, 39, answer) == SP_MISALIGNED && answer[SP_ANSWER_PLACE] == 49);
    CHECK(sp_measure(file, 89, 3, 39, answer) == SP_CUT_OFF && answer[SP_ANSWER_PLACE] == 82);
    file[78] = 40;
    CHECK(sp_measure(file, 90, 3, 39, answer) == SP_UNKNOWN_KIND && answer[SP_ANSWER_PLACE] == 78);
    /* Behind an entry of 33 bytes, which says that the alignment is 64. */
    CHECK(sp_write(twice, sizeof twice, 3, 0, 64, file, sizeof file, answer) == 0);
    CHECK(sp_measure(file, 123, 3, 39, answer) == 0 && file[115] == 64);
    file[115] = 32;
    CHECK(sp_read(file, 123, 3, 39, 3, &entry, 1, rows, 2, answer) == SP_MISALIGNED);
    CHECK(answer[SP_ANSWER_PLACE] == 115);
    CHECK(memcmp(&entry, &entry_before, sizeof entry) == 0);
    CHECK(memcmp(rows, rows_before, sizeof rows) == 0);
}

/* Asks for a tensor, and sees that its words are written only where it is found, and that answer has
 * one word. */
static uint64_t find_tensor(const uint8_t *file, size_t length, const char *name, sp_tensor *found,
                            uint64_t *passed) {
    uint64_t answer[SP_ANSWER_WORDS], tensor[SP_FOUND_WORDS], before[SP_FOUND_WORDS];
    memset(answer, 0xff, sizeof answer);
    memset(tensor, 7, sizeof tensor);
    memcpy(before, tensor, sizeof tensor);
    uint64_t number =
        sp_find_tensor(file, length, (const uint8_t *)name, strlen(name), tensor, answer);
    CHECK((number == 0) == (memcmp(tensor, before, sizeof tensor) != 0));
    for (size_t i = 1; i < SP_ANSWER_WORDS; i++)
        CHECK(answer[i] == 0);
    memcpy(found, tensor, sizeof tensor);
    *passed = answer[SP_ANSWER_PASSED];
    return number;
}

/* Two tensors, a and b, at 24 and at 57: found as sp_read has them, and absent; with a bad tensor
 * before, at, and after the one that is asked for; and up to the end of that one. */
static void a_tensor_by_its_name(void) {
    uint64_t answer[SP_ANSWER_WORDS], passed;
    uint8_t twice[TWICE], file[128];
    sp_tensor rows[2], found;
    put_twice(twice);
    CHECK(sp_write(twice, sizeof twice, 3, 0, 32, file, sizeof file, answer) == 0);
    CHECK(file[32] == 'b' && file[65] == 'b');
    CHECK(find_tensor(file, 90, "b", &found, &passed) == 0 && passed == 1);
    file[32] = 'a';
    CHECK(sp_read(file, 90, 3, 39, 3, NULL, 0, rows, 2, answer) == 0);
    CHECK(find_tensor(file, 90, "a", &found, &passed) == 0 && passed == 1);
    CHECK(memcmp(&found, &rows[0], sizeof found) == 0);
    CHECK(find_tensor(file, 90, "b", &found, &passed) == 0 && passed == 2);
    CHECK(memcmp(&found, &rows[1], sizeof found) == 0);
    CHECK(find_tensor(file, 90, "c", &found, &passed) == SP_ABSENT && passed == 2);
    CHECK(find_tensor(file, 90, "", &found, &passed) == SP_ABSENT && passed == 2);
    CHECK(find_tensor(file, 90, "ab", &found, &passed) == SP_ABSENT && passed == 2);
    for (size_t n = 0; n <= sizeof file; n++) {
        CHECK(find_tensor(file, n, "a", &found, &passed) == (n < 57 ? SP_CUT_OFF : 0));
        CHECK(find_tensor(file, n, "b", &found, &passed) == (n < 90 ? SP_CUT_OFF : 0));
        CHECK(find_tensor(file, n, "c", &found, &passed) == (n < 90 ? SP_CUT_OFF : SP_ABSENT));
    }
    /* An offset that sp_read refuses, and then a kind, of b and of a. */
    file[82] = 33;
    CHECK(sp_measure(file, 90, 3, 39, answer) == SP_MISALIGNED);
    CHECK(find_tensor(file, 90, "b", &found, &passed) == 0 && found.offset == 33);
    file[78] = 40;
    CHECK(find_tensor(file, 90, "a", &found, &passed) == 0 && passed == 1);
    CHECK(find_tensor(file, 90, "b", &found, &passed) == SP_UNKNOWN_KIND && passed == 78);
    CHECK(find_tensor(file, 90, "c", &found, &passed) == SP_UNKNOWN_KIND && passed == 78);
    file[45] = 40;
    CHECK(find_tensor(file, 90, "b", &found, &passed) == SP_UNKNOWN_KIND && passed == 45);
}

/* The header of the sheet ends at 57. Fewer bytes are cut off; with that many, or more, the answer
 * and the row are the same, whatever the bytes after it are. */
static void more_bytes_change_nothing(void) {
    uint64_t whole[SP_ANSWER_WORDS], answer[SP_ANSWER_WORDS];
    uint8_t file[128];
    sp_tensor row, again;
    memset(file, 0xff, sizeof file);
    CHECK(sp_write(sheet, sizeof sheet, 3, 0, 32, file, 64, answer) == 0);
    CHECK(sp_read(file, 57, 3, 39, 3, NULL, 0, &row, 1, whole) == 0);
    for (size_t n = 0; n <= sizeof file; n++) {
        memset(&again, 0, sizeof again);
        uint64_t refusal = sp_read(file, n, 3, 39, 3, NULL, 0, &again, 1, answer);
        CHECK(refusal == (n < 57 ? SP_CUT_OFF : 0));
        CHECK(n < 57 || memcmp(answer, whole, sizeof answer) == 0);
        CHECK(n < 57 ? again.size == 0 : memcmp(&again, &row, sizeof row) == 0);
        CHECK(sp_measure(file, n, 3, 39, answer) == refusal);
        CHECK(n < 57 || memcmp(answer, whole, sizeof answer) == 0);
        CHECK(sp_model_family(file, n, answer) == (n < 57 ? SP_CUT_OFF : SP_ABSENT));
        CHECK(n < 8 || sp_measure(file, n, 2, 39, answer) == SP_VERSION_ABOVE_CEILING);
    }
}

/* The header of an empty sheet in each byte order, byte by byte; it ends at 24, and at 16 in
 * version 1. What sp_read says of its byte order, sp_write takes. */
static void byte_orders(void) {
    static const struct {
        uint32_t version, order;
        uint8_t front[8];
    } forms[] = {
        {1, SP_LITTLE_ENDIAN, {0x47, 0x47, 0x55, 0x46, 1, 0, 0, 0}},
        {2, SP_LITTLE_ENDIAN, {0x47, 0x47, 0x55, 0x46, 2, 0, 0, 0}},
        {3, SP_LITTLE_ENDIAN, {0x47, 0x47, 0x55, 0x46, 3, 0, 0, 0}},
        {3, SP_BIG_ENDIAN, {0x47, 0x47, 0x55, 0x46, 0, 0, 0, 3}},
        {1, SP_BIG_ENDIAN_MAGIC, {0x46, 0x55, 0x47, 0x47, 0, 0, 0, 1}},
        {2, SP_BIG_ENDIAN_MAGIC, {0x46, 0x55, 0x47, 0x47, 0, 0, 0, 2}},
        {3, SP_BIG_ENDIAN_MAGIC, {0x46, 0x55, 0x47, 0x47, 0, 0, 0, 3}},
    };
    static const uint8_t zeros[24];
    uint64_t answer[SP_ANSWER_WORDS];
    uint8_t file[33];
    for (size_t i = 0; i < sizeof forms / sizeof *forms; i++) {
        uint64_t end = forms[i].version == 1 ? 16 : 24;
        memset(file, 7, sizeof file);
        CHECK(sp_write(empty_sheet, 1, forms[i].version, forms[i].order, 32, file, sizeof file,
                       answer) == 0);
        CHECK(answer[SP_WRITTEN_END] == end && answer[SP_WRITTEN_DATA_START] == 32);
        CHECK(memcmp(file, forms[i].front, 8) == 0);
        CHECK(memcmp(file + 8, zeros, 24) == 0 && file[32] == 7);
        CHECK(sp_measure(file, end, 3, 39, answer) == 0);
        CHECK(answer[SP_ANSWER_VERSION] == forms[i].version);
        CHECK(answer[SP_ANSWER_BYTE_ORDER] == forms[i].order);
        CHECK(answer[SP_ANSWER_DATA_START] == 32);
        CHECK(sp_measure(file, end, forms[i].version - 1, 39, answer) == SP_VERSION_ABOVE_CEILING);
        CHECK(answer[SP_ANSWER_PLACE] == 4);
    }
}

/* Behind the magic 47 47 55 46 there is no big-endian header but of version 3. */
static void big_endian_is_version_3(void) {
    static const uint8_t untouched[64] = {0};
    uint64_t answer[SP_ANSWER_WORDS];
    uint8_t file[64] = {0};
    for (uint32_t version = 0; version <= 4; version++) {
        uint64_t refusal = sp_write(empty_sheet, 1, version, SP_BIG_ENDIAN, 32, file, 64, answer);
        CHECK(refusal == (version == 3 ? 0 : SP_VERSION_NOT_WRITTEN));
        CHECK(version == 3 || (answer[0] == 0 && memcmp(file, untouched, 64) == 0));
        memset(file, 0, sizeof file);
    }
    memcpy(file, "GGUF", 4);
    for (unsigned version = 0; version <= 255; version++) {
        file[7] = (uint8_t)version;
        uint64_t refusal = sp_measure(file, 24, 3, 39, answer);
        CHECK(refusal == (version == 3 ? 0 : SP_UNKNOWN_VERSION));
        CHECK(version == 3 || answer[SP_ANSWER_PLACE] == 4);
    }
    /* Every other number asks for the same. */
    uint8_t again[64] = {0};
    file[7] = 3;
    for (uint32_t order = 3; order != 0; order *= 2) {
        CHECK(sp_write(empty_sheet, 1, 3, order, 32, again, 64, answer) == 0);
        CHECK(memcmp(file, again, 64) == 0);
        CHECK(sp_write(empty_sheet, 1, 2, order, 32, again, 64, answer) == SP_VERSION_NOT_WRITTEN);
    }
}

/* What is printed of an array: its place, how its file writes numbers, and the text so far. */
typedef struct printing {
    const uint8_t *file;
    uint64_t at;
    int big;
    unsigned size; /* the bytes of a size */
    char text[128];
} printing;

static uint64_t number(printing *out, unsigned width) {
    uint64_t value = 0;
    for (unsigned i = 0; i < width; i++)
        value = value << 8 | out->file[out->at + (out->big ? i : width - 1 - i)];
    out->at += width;
    return value;
}

static void print(printing *out, const char *words) {
    strncat(out->text, words, sizeof out->text - strlen(out->text) - 1);
}

/* So many items of a type, bytes, strings or arrays, which stand one after the other. */
static void print_items(printing *out, uint64_t type, uint64_t count) {
    print(out, "[");
    for (uint64_t i = 0; i < count; i++) {
        char words[32] = "";
        print(out, i ? ", " : "");
        if (type == SP_TYPE_ARRAY) {
            uint64_t inner = number(out, 4);
            print_items(out, inner, number(out, out->size));
            continue;
        }
        uint64_t value = number(out, type == SP_TYPE_STRING ? out->size : 1);
        if (type == SP_TYPE_STRING) {
            memcpy(words, out->file + out->at, value < 31 ? value : 31);
            out->at += value;
        } else
            snprintf(words, sizeof words, "%u", (unsigned)value);
        print(out, words);
    }
    print(out, "]");
}

/* A sheet of one entry, whose value is a list of lists: written, read back and printed. */
static void check_printed(const uint8_t *made, size_t length, uint32_t version, uint32_t order,
                          const char *text) {
    uint64_t answer[SP_ANSWER_WORDS];
    uint8_t file[256];
    sp_entry entry[1];
    CHECK(sp_write(made, length, version, order, 32, file, sizeof file, answer) == 0);
    uint64_t end = answer[SP_WRITTEN_END];
    CHECK(sp_read(file, end, 3, 39, 1, entry, 1, NULL, 0, answer) == 0);
    CHECK(entry->type == SP_TYPE_ARRAY && entry->item_type == SP_TYPE_ARRAY);
    printing out = {file, entry->first, order != SP_LITTLE_ENDIAN, version == 1 ? 4 : 8, ""};
    print_items(&out, entry->item_type, entry->count);
    CHECK(strcmp(out.text, text) == 0 && out.at == end);
    /* Wherever it is cut, the header does not end inside the bytes. */
    for (uint64_t i = 0; i < end; i++)
        CHECK(sp_measure(file, i, 3, 39, answer) == SP_CUT_OFF);
}

static void lists_of_lists(void) {
    /* [[1, 2], [3]] */
    static const uint8_t two[] = {1, 0, 0, 0, 25, 1, 0, 0, 0, 1, 'a', 9, 9, 0, 0, 0,
                                  2, 0, 0, 0, 0,  2, 1, 2, 0, 0, 0,   0, 1, 3};
    /* [[[[x, yz]]], []] */
    static const uint8_t four[] = {1, 0, 0, 0, 43, 1, 0, 0, 0, 1, 'a', 9, 9,   0, 0, 0,
                                   2, 9, 0, 0, 0,  1, 9, 0, 0, 0, 1,   8, 0,   0, 0, 2,
                                   0, 0, 0, 1, 'x', 0, 0, 0, 2, 'y', 'z', 0, 0, 0, 0, 0};
    for (uint32_t version = 1; version <= 3; version++)
        for (uint32_t order = SP_LITTLE_ENDIAN; order <= SP_BIG_ENDIAN_MAGIC; order++) {
            if (order == SP_BIG_ENDIAN && version < 3)
                continue;
            check_printed(two, sizeof two, version, order, "[[1, 2], [3]]");
            check_printed(four, sizeof four, version, order, "[[[[x, yz]]], []]");
        }
}

/* In a sheet, the item type of arrays is bad in the fourth array; before it, it is good even where
 * there are no items. */
static void arrays_are_four_deep(void) {
    uint8_t made[] = {1, 0, 0, 0, 27, 1, 0, 0, 0, 1, 'a', 9, 9, 0, 0, 0, 1,
                      9, 0, 0, 0, 1,  9, 0, 0, 0, 1, 9,   0, 0, 0, 0};
    uint64_t answer[SP_ANSWER_WORDS];
    uint8_t file[128] = {0};
    CHECK(sp_write(made, sizeof made, 1, 0, 32, file, sizeof file, answer) == SP_BAD_SHEET);
    CHECK(answer[SP_ANSWER_PLACE] == 1 && file[0] == 0);
    made[27] = SP_TYPE_U8;
    CHECK(sp_write(made, sizeof made, 1, 0, 32, file, sizeof file, answer) == 0);
    /* In a file it is good there too, and refused where it has an item. */
    uint64_t end = answer[SP_WRITTEN_END];
    file[end - 8] = SP_TYPE_ARRAY;
    CHECK(sp_measure(file, end, 3, 39, answer) == 0);
    file[end - 4] = 1;
    CHECK(sp_measure(file, end, 3, 39, answer) == SP_NESTED_ARRAY);
    CHECK(answer[SP_ANSWER_PLACE] == end - 8);
}

/* Measures a header of version 3 whose only entry is an array of so many items of a type. The first
 * stands at 49, and 23 bytes are there. */
static uint64_t measure_array(uint8_t type, uint64_t count, uint64_t *answer) {
    uint8_t file[72] = {'G', 'G', 'U', 'F', 3};
    file[16] = 1;
    file[24] = 1;
    file[32] = 'k';
    file[33] = SP_TYPE_ARRAY;
    file[37] = type;
    for (unsigned i = 0; i < 8; i++)
        file[41 + i] = (uint8_t)(count >> 8 * i);
    return sp_measure(file, sizeof file, 3, 39, answer);
}

/* An array that is too long is refused at its first item that is missing, whatever its count: also
 * where, in 64 bits, its bytes would be those that are there, or its end before its start. */
static void arrays_too_long(void) {
    static const struct {
        uint8_t type;
        uint64_t there, wraps, end;
    } of[] = {
        {SP_TYPE_U8, 23, UINT64_MAX - 24, 72},
        {SP_TYPE_I16, 11, (UINT64_C(1) << 63) + 11, 71},
        {SP_TYPE_F32, 5, (UINT64_C(1) << 62) + 5, 69},
        {SP_TYPE_U64, 2, (UINT64_C(1) << 61) + 2, 65},
    };
    uint64_t answer[SP_ANSWER_WORDS];
    for (size_t i = 0; i < sizeof of / sizeof *of; i++) {
        const uint64_t counts[] = {of[i].there + 1, UINT32_MAX, (UINT64_C(1) << 61) - 1,
                                   UINT64_C(1) << 61, of[i].wraps, UINT64_MAX};
        CHECK(measure_array(of[i].type, of[i].there, answer) == 0);
        CHECK(answer[SP_ANSWER_HEADER_END] == of[i].end);
        for (size_t j = 0; j < sizeof counts / sizeof *counts; j++) {
            CHECK(measure_array(of[i].type, counts[j], answer) == SP_CUT_OFF);
            CHECK(answer[SP_ANSWER_PLACE] == of[i].end);
        }
    }
}

/* The bytes of a trace so far. */
typedef struct trace {
    uint8_t bytes[256];
    size_t length;
} trace;

static void append(trace *to, unsigned width, uint64_t value) {
    for (unsigned i = 0; i < width; i++)
        to->bytes[to->length++] = (uint8_t)(value >> 8 * (width - 1 - i));
}

static void fetch(trace *to, uint64_t place, uint64_t count) {
    append(to, 4, 16);
    append(to, 8, place);
    append(to, 8, count);
}

/* The tensors a, 20 bytes at 0, b, 6 bytes at 32, and one of no bytes. Their data starts at 96. */
static const sp_tensor replayed[] = {
    {32, 1, 0, 1, {5, 1, 1, 1}, 0, 20},
    {65, 1, 1, 1, {3, 1, 1, 1}, 32, 6},
    {98, 1, 0, 1, {0, 1, 1, 1}, 64, 0},
};

/* Replays a trace over them, and sees that the fourth answer, of no tensor, stays. */
static void check_replay(const trace *of, uint64_t file, uint64_t a, uint64_t b) {
    uint64_t answers[4] = {7, 7, 7, 7}, answer[SP_ANSWER_WORDS];
    memset(answer, 0xff, sizeof answer);
    CHECK(sp_replay_fetches(replayed, 3, 96, file, of->bytes, of->length, answers, 4, answer) == 0);
    CHECK(answers[0] == a && answers[1] == b && answers[2] == 0 && answers[3] == 7);
    for (size_t i = 0; i < SP_ANSWER_WORDS; i++)
        CHECK(answer[i] == 0);
}

static void replays(void) {
    trace one = {{1}, 1}, parts = {{1}, 1};
    check_replay(&one, 134, SP_NEVER, SP_NEVER);
    fetch(&one, 90, 44);
    check_replay(&one, 134, 1, 1);
    check_replay(&one, 133, 1, SP_NEVER);
    check_replay(&one, UINT64_MAX, 1, 1);
    fetch(&one, UINT64_MAX, 0);
    check_replay(&one, 134, 1, 1);
    /* b backwards; a in three parts, of which the middle comes last, and one of them twice. */
    for (uint64_t byte = 134; byte-- > 128;)
        fetch(&parts, byte, 1);
    check_replay(&parts, 134, SP_NEVER, 6);
    fetch(&parts, 106, 10);
    fetch(&parts, 106, 10);
    fetch(&parts, 96, 5);
    check_replay(&parts, 134, SP_NEVER, 6);
    fetch(&parts, 101, 5);
    check_replay(&parts, 134, 10, 6);
}

/* A replay that is refused writes the refusal's place and leaves the answers. */
static void check_no_replay(const trace *of, size_t rows, uint64_t number, uint64_t place) {
    uint64_t answers[3] = {7, 7, 7}, answer[SP_ANSWER_WORDS];
    memset(answer, 0xff, sizeof answer);
    CHECK(sp_replay_fetches(replayed, 3, 96, 134, of->bytes, of->length, answers, rows, answer) ==
          number);
    CHECK(answer[SP_ANSWER_PLACE] == place);
    for (size_t i = 1; i < SP_ANSWER_WORDS; i++)
        CHECK(answer[i] == 0);
    CHECK(answers[0] == 7 && answers[1] == 7 && answers[2] == 7);
}

static void no_replays(void) {
    trace nothing = {{0}, 0}, other = {{2}, 1}, cut = {{1}, 1}, far;
    check_no_replay(&nothing, 3, SP_BAD_TRACE, 0);
    check_no_replay(&other, 3, SP_BAD_TRACE, 0);
    check_no_replay(&nothing, 2, SP_NO_ANSWER_ROWS, 0);
    fetch(&cut, 96, 38);
    far = cut;
    for (append(&cut, 3, 0); cut.length < 41; append(&cut, 1, cut.length == 24 ? 16 : 0))
        check_no_replay(&cut, 3, SP_BAD_TRACE, 21);
    check_replay(&cut, 134, 1, 1);
    cut.bytes[24] = 17;
    check_no_replay(&cut, 3, SP_BAD_TRACE, 21);
    /* The first fault decides. */
    fetch(&far, UINT64_MAX, 1);
    check_no_replay(&far, 3, SP_TRACE_OVERFLOW, 21);
    append(&far, 1, 0);
    check_no_replay(&far, 3, SP_TRACE_OVERFLOW, 21);
    far.bytes[4] = 15;
    check_no_replay(&far, 3, SP_BAD_TRACE, 1);
    check_no_replay(&far, 0, SP_NO_ANSWER_ROWS, 0);
}

/* Every number has words of its own, and what is no number has others. */
static void reasons(void) {
    static const uint64_t numbers[] = {0,  1,  2,  3,  4,   5,   6,  7,  8,  9,  10, 11, 12,
                                       13, 14, 15, 16, 17,  18,  20, 30, 31, 32, 33, 34, 35,
                                       36, 37, 38, 43, 44,  45,  100, 101, 102};
    size_t count = sizeof numbers / sizeof *numbers;
    for (size_t i = 0; i < count; i++) {
        CHECK(strcmp(sp_reason(numbers[i]), sp_reason(999)) != 0);
        for (size_t j = 0; j < i; j++)
            CHECK(strcmp(sp_reason(numbers[i]), sp_reason(numbers[j])) != 0);
    }
    CHECK(strcmp(sp_reason(19), sp_reason(UINT64_MAX)) == 0);
}

static void versions_agree(void) {
    char text[32];
    snprintf(text, sizeof text, "%d.%d.%d", SP_VERSION_MAJOR, SP_VERSION_MINOR, SP_VERSION_PATCH);
    CHECK(strcmp(text, SP_VERSION) == 0);
    CHECK(SP_VERSION_NUMBER ==
          SP_VERSION_MAJOR * 1000000 + SP_VERSION_MINOR * 1000 + SP_VERSION_PATCH);
    CHECK(sp_version() == SP_VERSION_NUMBER);
}

int main(void) {
    a_tensor_is_a_struct();
    an_entry_is_a_struct();
    null_is_no_bytes();
    ceilings_hold();
    sizes_are_those_of_whole_blocks();
    a_partial_block_is_not_read();
    a_partial_block_is_not_written();
    a_misaligned_offset_is_not_read();
    a_tensor_by_its_name();
    more_bytes_change_nothing();
    byte_orders();
    big_endian_is_version_3();
    lists_of_lists();
    arrays_are_four_deep();
    arrays_too_long();
    replays();
    no_replays();
    reasons();
    versions_agree();
    return failed;
}
