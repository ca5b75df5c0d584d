/* A first use, as README.md has it: which bytes of the file hold each tensor.
 *
 *     mkdir -p target
 *     (cd crates/strutpebble && rt lib)
 *     cc -O2 -I include examples/c/first.c crates/strutpebble/out/libstrutpebble.a -o target/first
 *     target/first <FILE
 */
#include <inttypes.h>
#include <stdio.h>
#include "strutpebble.h"

static uint8_t prefix[65536];
static sp_entry entries[512];
static sp_tensor tensors[512];

static int refused(uint64_t refusal, const uint64_t *answer) {
    fprintf(stderr, "refused %" PRIu64 " at %" PRIu64 ": %s\n", refusal, answer[SP_ANSWER_PLACE],
            sp_reason(refusal));
    return 1;
}

int main(void) {
    uint64_t answer[SP_ANSWER_WORDS];
    size_t n = fread(prefix, 1, sizeof prefix, stdin);
    uint64_t refusal = sp_read(prefix, n, SP_ALL_VERSIONS, SP_ALL_KINDS, SP_DEFAULT_CAP,
                               entries, 512, tensors, 512, answer);
    if (refusal != 0)
        return refused(refusal, answer);
    /* Before anything is added up. Where the file's length is known, give that. */
    uint64_t count = answer[SP_ANSWER_TENSORS], start = answer[SP_ANSWER_DATA_START];
    refusal = sp_check_ranges(tensors, count, start, UINT64_MAX, answer);
    if (refusal != 0)
        return refused(refusal, answer);
    for (uint64_t i = 0; i < count; i++)
        printf("%.*s: %" PRIu64 " bytes from %" PRIu64 " on\n", (int)tensors[i].name_length,
               (const char *)prefix + tensors[i].name_place, tensors[i].size,
               start + tensors[i].offset);
    return 0;
}
