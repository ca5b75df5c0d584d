// The header file from C++: it compiles there, and its functions are linked by C's names.
#include "strutpebble.h"

int main() {
    uint64_t answer[SP_ANSWER_WORDS];
    sp_tensor tensor;
    uint64_t refusal = sp_read(nullptr, 0, SP_ALL_VERSIONS, SP_ALL_KINDS, SP_DEFAULT_CAP, nullptr,
                               0, &tensor, 1, answer);
    return refusal == SP_CUT_OFF && sp_reason(refusal)[0] == 't' ? 0 : 1;
}
