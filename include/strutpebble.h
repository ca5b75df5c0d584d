/* Strutpebble: GGUF model-file headers, read and written by proved code.
 *
 * Link libstrutpebble.a (what ./install leaves, or `rt lib` in crates/strutpebble); x86-64. It
 * takes memcpy and memset from the C library and nothing else, allocates nothing, keeps nothing
 * between calls, and needs some 5.5 KiB of stack, however deep arrays stand in one another. This
 * header wants C11 or C++11.
 *
 * docs/REFUSALS.md has each refusal with its place and what to do about it. */
#ifndef STRUTPEBBLE_H
#define STRUTPEBBLE_H

#include <stddef.h>
#include <stdint.h>

#ifdef __cplusplus
extern "C" {
#endif

/* The version of this header, in three numbers, as text, and as one number:
 * 1000000 times the first, 1000 times the second, and the third. */
#define SP_VERSION_MAJOR 0
#define SP_VERSION_MINOR 1
#define SP_VERSION_PATCH 0
#define SP_VERSION "0.1.0"
#define SP_VERSION_NUMBER 1000

/* The version of the library that was linked, as SP_VERSION_NUMBER is. */
uint64_t sp_version(void);

/* Refusals. SP_CUT_OFF is the only answer over a prefix that more bytes of the same file can
 * change: whatever else a function returned and wrote, it returns and writes for every longer
 * prefix, with the same ceilings, cap and number of rows. So it may be kept. */
enum {
    SP_CUT_OFF = 1,               /* the header does not end inside these bytes: fetch more */
    SP_OLDER_FORMAT = 2,          /* the magic of a format before GGUF */
    SP_NOT_GGUF = 3,              /* any other magic */
    SP_UNKNOWN_VERSION = 4,       /* not version 1, 2 or 3 */
    SP_VERSION_ABOVE_CEILING = 5, /* a version above version_ceiling */
    SP_TOO_FEW_ROWS = 6,          /* more tensors, or more entries, than rows for them */
    SP_STRING_TOO_LONG = 7,       /* a string of more than 2^30 bytes */
    SP_UNKNOWN_TYPE = 8,          /* a value type or item type above 12 */
    SP_NESTED_ARRAY = 9,          /* an array inside four others */
    SP_TOO_MANY_DIMENSIONS = 10,  /* more than 4 dimensions */
    SP_UNKNOWN_KIND = 11,         /* a number that names no kind of tensor */
    SP_KIND_ABOVE_CEILING = 12,   /* a kind above kind_ceiling */
    SP_PRODUCT_OVERFLOW = 13,     /* a product of lengths above 2^64 - 1 */
    SP_SIZE_OVERFLOW = 14,        /* a size above 2^64 - 1 before its division */
    SP_TOTAL_OVERFLOW = 15,       /* the running total of products above 2^64 - 1 */
    SP_MISALIGNED = 16,           /* an offset that is not a multiple of the alignment */
    SP_PARTIAL_BLOCK = 17,        /* a first length that is not whole blocks of its kind */
    SP_DATA_START_OVERFLOW = 18,  /* the data would start above 2^64 - 1 */

    /* Of the range check. */
    SP_PAST_THE_FILE = 20,        /* a tensor's data ends after the file */

    /* Of the writer, beside 13 to 15 and 17. */
    SP_VERSION_NOT_WRITTEN = 30,  /* not version 1, 2 or 3, or SP_BIG_ENDIAN at 1 or 2 */
    SP_BAD_SHEET = 31,            /* the sheet is not well formed */
    SP_BAD_ALIGNMENT = 32,        /* an alignment of 0, or not a multiple of 8 */
    SP_ALIGNMENT_TOO_LARGE = 33,  /* it must be added to the header and is above 2^32 - 1 */
    SP_OTHER_ALIGNMENT = 34,      /* the sheet's own gives a reader another alignment */
    SP_KIND_NOT_WRITTEN = 35,     /* a kind of tensor that is not written */
    SP_OFFSET_OVERFLOW = 36,      /* a tensor's end, or its padded end, above 2^64 - 1 */
    SP_COUNT_OVERFLOW = 37,       /* version 1, and a count above 2^32 - 1 */
    SP_OUTPUT_TOO_SHORT = 38,     /* the output ends before the start of the data */

    /* Of the replay of a trace. */
    SP_BAD_TRACE = 43,            /* another version, a record of another length, or a cut one */
    SP_TRACE_OVERFLOW = 44,       /* a fetch that ends above 2^64 - 1 */
    SP_NO_ANSWER_ROWS = 45        /* fewer answers than tensors */
};

/* What a question answers beside refusals. */
enum {
    SP_ABSENT = 100,              /* no entry has that key, or no tensor that name */
    SP_OTHER_TYPE = 101,          /* the key's value is no string */
    SP_UNKNOWN_FILE_TYPE = 102    /* the file does not say its type, or one above 24 */
};

/* Words for each number that a function returns, in English, without a full stop. Never null. */
static inline const char *sp_reason(uint64_t number) {
    switch (number) {
    case 0: return "no refusal";
    case SP_CUT_OFF: return "the header does not end inside these bytes: fetch more";
    case SP_OLDER_FORMAT: return "the file has a format that came before GGUF";
    case SP_NOT_GGUF: return "this is not a GGUF file";
    case SP_UNKNOWN_VERSION: return "the version is not 1, 2 or 3";
    case SP_VERSION_ABOVE_CEILING: return "the version is above the highest that is accepted";
    case SP_TOO_FEW_ROWS: return "there are more tensors, or more entries, than rows for them";
    case SP_STRING_TOO_LONG: return "a string has more than 2^30 bytes";
    case SP_UNKNOWN_TYPE: return "there is no such type of value";
    case SP_NESTED_ARRAY: return "arrays stand in one another more than 4 deep";
    case SP_TOO_MANY_DIMENSIONS: return "a tensor has more than 4 dimensions";
    case SP_UNKNOWN_KIND: return "there is no such kind of tensor";
    case SP_KIND_ABOVE_CEILING: return "the kind of a tensor is above the highest that is accepted";
    case SP_PRODUCT_OVERFLOW: return "the product of the tensor's lengths is above 2^64 - 1";
    case SP_SIZE_OVERFLOW: return "the tensor's size is above 2^64 - 1 before its division";
    case SP_TOTAL_OVERFLOW: return "the tensors up to this one have more than 2^64 - 1 numbers";
    case SP_MISALIGNED: return "the tensor's offset is not a multiple of the alignment";
    case SP_PARTIAL_BLOCK: return "the tensor's first length is not whole blocks of its kind";
    case SP_DATA_START_OVERFLOW: return "the data would start above 2^64 - 1";
    case SP_PAST_THE_FILE: return "the tensor's data ends after the end of the file";
    case SP_VERSION_NOT_WRITTEN: return "the version is not 1, 2 or 3, or has no such byte order";
    case SP_BAD_SHEET: return "the sheet is not well formed";
    case SP_BAD_ALIGNMENT: return "the alignment is 0 or not a multiple of 8";
    case SP_ALIGNMENT_TOO_LARGE: return "an alignment above 2^32 - 1 can't be added to the header";
    case SP_OTHER_ALIGNMENT: return "the sheet's general.alignment gives another alignment";
    case SP_KIND_NOT_WRITTEN: return "tensors of this kind are not written";
    case SP_OFFSET_OVERFLOW: return "the tensor's data, padded, would end above 2^64 - 1";
    case SP_COUNT_OVERFLOW: return "version 1 can't count so many tensors or entries";
    case SP_OUTPUT_TOO_SHORT: return "the output is too short for the header and its padding";
    case SP_BAD_TRACE: return "the trace is not well formed";
    case SP_TRACE_OVERFLOW: return "a fetch of the trace ends above 2^64 - 1";
    case SP_NO_ANSWER_ROWS: return "there are more tensors than answers for them";
    case SP_ABSENT: return "no entry has this key";
    case SP_OTHER_TYPE: return "the value of this key is not a string";
    case SP_UNKNOWN_FILE_TYPE: return "the file's type is unknown";
    default: return "no such number";
    }
}

/* Types of values and of an array's items. */
enum {
    SP_TYPE_U8, SP_TYPE_I8, SP_TYPE_U16, SP_TYPE_I16, SP_TYPE_U32, SP_TYPE_I32, SP_TYPE_F32,
    SP_TYPE_BOOL, SP_TYPE_STRING, SP_TYPE_ARRAY, SP_TYPE_U64, SP_TYPE_I64, SP_TYPE_F64
};

/* A metadata entry. Keys and strings are places in the prefix: key_length bytes from
 * prefix + key_place on, with no zero byte after them. Of an accepted header all of them lie inside
 * the prefix. What the last four words mean depends on the type; words without a meaning are 0.
 *
 * An array's items may be arrays, four in one another at most, and all of them are checked. A size
 * has 4 bytes in version 1, and else 8. */
typedef struct sp_entry {
    uint64_t key_place;
    uint64_t key_length;
    uint64_t type;          /* one of SP_TYPE_ */
    union {
        uint64_t value;     /* a scalar: signed ones in two's complement, floats as bits */
        uint64_t place;     /* a string's */
        uint64_t item_type; /* an array's */
    };
    union {
        uint64_t length;    /* a string's */
        uint64_t count;     /* of an array's items in the file */
    };
    uint64_t kept;          /* of an array's items: all, or as many as the cap says */
    uint64_t first;         /* the place of an array's first item; the others follow as the file
                               has them: in its byte order, strings behind their size, arrays
                               behind their item type (4 bytes) and their count (a size) */
} sp_entry;

/* A tensor. Lengths beyond the dimensions are 1. The offset counts from the start of the data, the
 * size is in bytes. Of an accepted header the start of the data and every offset are multiples of
 * the alignment, and so is their sum, the tensor's place in the file. */
typedef struct sp_tensor {
    uint64_t name_place;
    uint64_t name_length;
    uint64_t kind;
    uint64_t dimensions;
    uint64_t lengths[4];
    uint64_t offset;
    uint64_t size;
} sp_tensor;

/* The same two as words, for languages without these structs. */
enum {
    SP_ENTRY_KEY_PLACE, SP_ENTRY_KEY_LENGTH, SP_ENTRY_TYPE,
    SP_ENTRY_VALUE, SP_ENTRY_LENGTH,
    SP_ENTRY_ITEM_TYPE = SP_ENTRY_VALUE, SP_ENTRY_COUNT, SP_ENTRY_KEPT, SP_ENTRY_FIRST,
    SP_ENTRY_WORDS
};
enum {
    SP_TENSOR_NAME_PLACE, SP_TENSOR_NAME_LENGTH, SP_TENSOR_KIND, SP_TENSOR_DIMENSIONS,
    SP_TENSOR_LENGTHS, SP_TENSOR_OFFSET = SP_TENSOR_LENGTHS + 4, SP_TENSOR_SIZE,
    SP_TENSOR_WORDS
};

#ifdef __cplusplus
#define SP_ASSERT_(fact, words) static_assert(fact, words)
#else
#define SP_ASSERT_(fact, words) _Static_assert(fact, words)
#endif
SP_ASSERT_(sizeof(sp_entry) == 8 * SP_ENTRY_WORDS, "an entry is its words");
SP_ASSERT_(sizeof(sp_tensor) == 8 * SP_TENSOR_WORDS, "a tensor is its words");

/* Every function but sp_version and sp_reason returns 0 or one of the numbers above, and writes all
 * SP_ANSWER_WORDS words of answer: its own answer's where it returns 0, and sp_find_tensor's at
 * SP_ABSENT too; where it refuses, the refusal's place and zeros after it; else zeros. Words that an
 * answer does not name are 0. Only answer, sp_read's two tables, sp_find_tensor's tensor,
 * sp_write's output and sp_replay_fetches's answers are written to.
 *
 * A pointer may be null where its length or count is 0; answer and tensor are never null. What is
 * written to overlaps nothing else that is lent. */
enum { SP_ANSWER_WORDS = 8 };

/* Words of what a header says of itself. */
enum {
    SP_ANSWER_VERSION, SP_ANSWER_BYTE_ORDER, SP_ANSWER_ENTRIES, SP_ANSWER_TENSORS,
    SP_ANSWER_ALIGNMENT, SP_ANSWER_HEADER_END, SP_ANSWER_DATA_START
};

/* The byte order of a header's numbers, in answer[SP_ANSWER_BYTE_ORDER] and for sp_write. A file
 * begins with the bytes 47 47 55 46 in the first two, and with 46 55 47 47 in the third, whose magic
 * is turned round as well. SP_BIG_ENDIAN is what other tools write, in version 3 alone; the other
 * two go with versions 1 to 3. */
enum { SP_LITTLE_ENDIAN = 0, SP_BIG_ENDIAN = 1, SP_BIG_ENDIAN_MAGIC = 2 };

/* Words of a string that was found: its place in the prefix, and its length. */
enum { SP_STRING_PLACE, SP_STRING_LENGTH };

/* Words of a header that was written. */
enum { SP_WRITTEN_END, SP_WRITTEN_DATA_START };

/* The one word of any other answer: the place of a refusal, the number of a tensor, how many tensors
 * were passed, the type of a file. */
enum {
    SP_ANSWER_PLACE = 0, SP_ANSWER_TENSOR = 0, SP_ANSWER_PASSED = 0, SP_ANSWER_FILE_TYPE = 0
};

/* Ceilings that take every version and every kind there is, and the usual cap. */
#define SP_ALL_VERSIONS 3
#define SP_ALL_KINDS 39
#define SP_DEFAULT_CAP 3

/* Measures the header at the front of prefix_len bytes, whatever its counts.
 *
 * version_ceiling and kind_ceiling are the highest version and kind that are taken.
 *
 * Returns 0 with what the header says of itself in answer: its counts are the rows that sp_read
 * needs. They are then no more than the prefix holds records. Otherwise returns the refusal's
 * number, which is never SP_TOO_FEW_ROWS, with its place. */
uint64_t sp_measure(const uint8_t *prefix, size_t prefix_len, uint32_t version_ceiling,
                    uint32_t kind_ceiling, uint64_t answer[SP_ANSWER_WORDS]);

/* Reads the header at the front of prefix_len bytes.
 *
 * The ceilings are sp_measure's; cap is how many items an array under a key that starts with
 * "tokenizer." keeps (every item is checked all the same). Where the items are arrays, it counts
 * these, and not what is in them.
 *
 * Returns 0 with what the header says of itself in answer, and fills a row for each entry and each
 * tensor, in the order of the file; rows after those are left as they are. Otherwise returns the
 * refusal's number with its place, and leaves both tables as they are. */
uint64_t sp_read(const uint8_t *prefix, size_t prefix_len, uint32_t version_ceiling,
                 uint32_t kind_ceiling, uint64_t cap, sp_entry *entries, size_t entry_rows,
                 sp_tensor *tensors, size_t tensor_rows, uint64_t answer[SP_ANSWER_WORDS]);

/* Looks a key up: key_len bytes, with no zero byte after them. Of equal keys the last is the one
 * looked up.
 *
 * The whole header is checked, with every version and kind taken and whatever its counts; an
 * array's kept count is as with SP_DEFAULT_CAP.
 *
 * Returns 0 with the entry's row in the first SP_ENTRY_WORDS words of answer, or SP_ABSENT, or the
 * refusal's number with its place. */
uint64_t sp_find(const uint8_t *prefix, size_t prefix_len, const uint8_t *key, size_t key_len,
                 uint64_t answer[SP_ANSWER_WORDS]);

/* The string of a key, which is looked up as by sp_find.
 *
 * Returns 0 with the string's place and length in answer, or SP_ABSENT, or SP_OTHER_TYPE, or the
 * refusal's number with its place. */
uint64_t sp_find_string(const uint8_t *prefix, size_t prefix_len, const uint8_t *key,
                        size_t key_len, uint64_t answer[SP_ANSWER_WORDS]);

/* The model's family: sp_find_string for "general.architecture". */
uint64_t sp_model_family(const uint8_t *prefix, size_t prefix_len,
                         uint64_t answer[SP_ANSWER_WORDS]);

/* The words of a tensor that sp_find_tensor found: those of an sp_tensor up to its size. */
enum { SP_FOUND_WORDS = SP_TENSOR_SIZE + 1 };

/* Looks a tensor up by its name: name_len bytes, with no zero byte after them. Of equal names the
 * first is the one looked up.
 *
 * The entries are checked and passed, and then the tensors up to that one, with every version and
 * kind taken and whatever the counts. Nothing after it is looked at, so that a prefix that ends there
 * is enough, and a bad tensor after it is not noticed. The header's alignment and the start of its
 * data depend on the whole of it and are neither known nor checked here: sp_measure says what the
 * offset counts from.
 *
 * Returns 0 with the tensor's words in tensor and the number of tensors that were passed in
 * answer[SP_ANSWER_PASSED], this one counted: its number, counted from 0, is one less. Or returns
 * SP_ABSENT with the number of all tensors there. Otherwise returns the refusal's number, which is
 * never SP_TOO_FEW_ROWS, SP_MISALIGNED or SP_DATA_START_OVERFLOW, with its place. tensor is written
 * only where 0 is returned. */
uint64_t sp_find_tensor(const uint8_t *prefix, size_t prefix_len, const uint8_t *name,
                        size_t name_len, uint64_t tensor[SP_FOUND_WORDS],
                        uint64_t answer[SP_ANSWER_WORDS]);

/* The file's type: the number under "general.file_type", which is looked up as by sp_find.
 *
 * Returns 0 with a number from 0 to 24 in answer[SP_ANSWER_FILE_TYPE], or SP_UNKNOWN_FILE_TYPE, or
 * the refusal's number with its place. */
uint64_t sp_file_type(const uint8_t *prefix, size_t prefix_len, uint64_t answer[SP_ANSWER_WORDS]);

/* Whether the data of each of tensor_rows tensors, data_start + offset + size, ends inside a file
 * of file_length bytes. Sums are whole numbers here: none wraps. The rows may be anyone's; of
 * sp_read's table hand in no more than its count.
 *
 * Returns 0, or SP_PAST_THE_FILE with the number of the first tensor that does not, counted from 0,
 * in answer[SP_ANSWER_TENSOR]. */
uint64_t sp_check_ranges(const sp_tensor *tensors, size_t tensor_rows, uint64_t data_start,
                         uint64_t file_length, uint64_t answer[SP_ANSWER_WORDS]);

/* The answer for a tensor that a trace never completes. */
#define SP_NEVER UINT64_MAX

/* Replays a trace of fetches of a file of file_length bytes: for each of tensor_rows tensors, the
 * first record after which all its bytes, size of them from data_start + offset on, were delivered.
 *
 * A trace is the byte 1 and then records, each of 20 bytes: the number 16 (4 bytes), a place in the
 * file (8 bytes) and how many bytes were fetched from there on (8 bytes). Every number in it is
 * big-endian. What a record fetches past the end of the file delivers nothing, and a byte that is
 * delivered twice counts once. The rows may be anyone's; of sp_read's table hand in no more than
 * its count.
 *
 * Returns 0 and fills an answer for each tensor: the record, counted from 1; or 0 for a size of 0;
 * or SP_NEVER where some byte was not delivered, as where it is after the end of the file. Answers
 * after those are left as they are. Otherwise returns the refusal's number and leaves answers as it
 * is; the place is that of the bad record in the trace, 0 for the version, and 0 for
 * SP_NO_ANSWER_ROWS. */
uint64_t sp_replay_fetches(const sp_tensor *tensors, size_t tensor_rows, uint64_t data_start,
                           uint64_t file_length, const uint8_t *trace, size_t trace_len,
                           uint64_t *answers, size_t answer_rows,
                           uint64_t answer[SP_ANSWER_WORDS]);

/* Writes the header that a record sheet of sheet_len bytes describes at the front of out_len bytes,
 * and zeros up to the start of its data.
 *
 * A sheet is the byte 1 and then entries, each a length of 4 bytes and that many bytes. Every
 * number in it is big-endian. A metadata entry is the byte 1, the key's length (4 bytes), the key,
 * the byte of a type and a value: a scalar in its own width, a bool as 0 or 1; a string as the
 * rest; an array as the byte of an item type, a count (4 bytes) and the items, strings each behind
 * a length (4 bytes), and arrays likewise. Four arrays may stand in one another: the item type of
 * the fourth is no array's, even where it has no items. A tensor is the byte 2, the name's length
 * (4 bytes), the name, its kind (4 bytes), its dimension count (1 byte) and its lengths (8 bytes
 * each). Metadata comes first, with keys strictly ascending by bytes.
 *
 * version is 1, 2 or 3. byte_order is SP_LITTLE_ENDIAN, SP_BIG_ENDIAN, which goes with version 3
 * alone, or SP_BIG_ENDIAN_MAGIC; any other number means SP_BIG_ENDIAN. Where alignment is not 32 and
 * the sheet has no general.alignment, that key is added. Each tensor's offset is the least multiple
 * of alignment that is not below the end of the one before.
 *
 * Returns 0 with the header's end and the start of the data in answer; bytes of out after that
 * start are left as they are. Otherwise returns the refusal's number and leaves out as it is; the
 * place is that of a byte in the sheet for SP_BAD_SHEET, the number of a tensor for 13 to 15, 17,
 * 35 and 36, and else 0. */
uint64_t sp_write(const uint8_t *sheet, size_t sheet_len, uint32_t version, uint32_t byte_order,
                  uint64_t alignment, uint8_t *out, size_t out_len,
                  uint64_t answer[SP_ANSWER_WORDS]);

#ifdef __cplusplus
}
#endif

#endif
