/* Images that the C tests build. */
#ifndef FIKAREHU_TESTS_IMAGES_H
#define FIKAREHU_TESTS_IMAGES_H

#include "../include/fikarehu.h"
#include "check.h"

/* A name to be written into an image: its kind, its companion byte, and the bytes of its expression. */
struct name {
    uint8_t kind, companion;
    const uint8_t *expression;
    size_t length;
};

/* The length of the image that was written. */
static size_t write_names(uint8_t *image, const struct name *names, size_t count) {
    size_t end = FIKAREHU_FIRST_HEAD + FIKAREHU_HEAD_LENGTH * count;
    image[0] = (uint8_t)count;
    image[1] = (uint8_t)(count >> 8);
    for (size_t name = 0; name < count; name++) {
        const size_t length = names[name].length;
        const uint8_t head[] = {names[name].kind, names[name].companion, (uint8_t)end, (uint8_t)(end >> 8),
                                (uint8_t)length, (uint8_t)(length >> 8)};
        must(end + length <= FIKAREHU_MAX_IMAGE, "the image is too long");
        memcpy(image + FIKAREHU_FIRST_HEAD + FIKAREHU_HEAD_LENGTH * name, head, sizeof head);
        if (length > 0) {
            memcpy(image + end, names[name].expression, length);
        }
        end += length;
    }
    return end;
}

#endif
