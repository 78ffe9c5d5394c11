/* An out buffer filled with a pattern, to see what a call has written. */
#ifndef FIKAREHU_TESTS_PATTERN_H
#define FIKAREHU_TESTS_PATTERN_H

#include <stddef.h>
#include <stdint.h>

static uint8_t pattern_at(size_t at) { return (uint8_t)(7 * at + 3); }

static void fill(uint8_t *out, size_t length) {
    for (size_t at = 0; at < length; at++) {
        out[at] = pattern_at(at);
    }
}

/* Whether the bytes from `from` on are as they were. */
static int kept(const uint8_t *out, size_t from, size_t length) {
    for (size_t at = from; at < length; at++) {
        if (out[at] != pattern_at(at)) {
            return 0;
        }
    }
    return 1;
}

#endif
