/* waiting.c: a joiner in which more than 1,048,576 messages may wait.
 *
 *   waiting    ends with status 1 at the first call that returns something else */
#include "itchsnap.h"

#include <inttypes.h>
#include <stdio.h>

static const uint64_t cap = (UINT64_C(1) << 20) + 100;

/* Takes the message with a number, of a type that is not decoded, and returns whether the answer is this
   one. */
static bool takes(itchsnap_handle *joiner, uint64_t number, uint32_t code) {
    itchsnap_joined joined = itchsnap_joiner_live(joiner, number, (const uint8_t *)"z", 1);
    if (joined.code != code) {
        fprintf(stderr, "message %" PRIu64 ": %" PRIu32 ", not %" PRIu32 "\n", number, joined.code, code);
    }
    return joined.code == code;
}

int main(void) {
    itchsnap_handle joiner = {0};
    if (itchsnap_joiner_new(&joiner, cap).code != ITCHSNAP_OK) {
        return 1;
    }
    for (uint64_t number = 2; number < cap + 2; number++) {
        if (!takes(&joiner, number, ITCHSNAP_KEPT)) {
            return 1;
        }
    }
    /* The maximum number of messages is waiting. */
    bool is_full = takes(&joiner, cap + 2, ITCHSNAP_FULL) && itchsnap_joiner_waiting(&joiner).count == cap;
    itchsnap_free(&joiner);
    return is_full ? 0 : 1;
}
