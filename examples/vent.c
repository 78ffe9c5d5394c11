/*
 * Reading a vent: a bay's setting in an image, its names followed to a num. And reading an owner: the bay that a name belongs to. The image
 * is one that a load or a step has written; its bytes are not checked here. And setting a vent by hand: a bay's first opening in a recipe.
 * This file is included where a vent is read or set, and not compiled by itself.
 */
#include "fikarehu.h"

enum vent_state {
    VENT_OPENING,        /* the setting is a num, or names lead to one */
    VENT_AWAITS_THREAD,  /* a thread is not done */
    VENT_AWAITS_FUTURE,  /* a future is not bound */
    VENT_NEVER,          /* names lead round in a ring: never a num, unless the setting is exchanged */
    VENT_NO_NUM          /* something else; in no image that a recipe's run comes to */
};

/* A vent that is wide open, in tenths of a percent. A num above is no vent's: it measures something else, parts per million say. */
enum { VENT_WIDE_OPEN = 1000 };

struct vent {
    enum vent_state state;
    unsigned opening;  /* of VENT_OPENING: tenths of a percent up to VENT_WIDE_OPEN; any num, 0 to 65535 */
    unsigned name;     /* of VENT_AWAITS_THREAD and VENT_AWAITS_FUTURE: the awaited name; of VENT_NEVER: a name that leads back to itself */
};

static unsigned vent_two_bytes(const uint8_t *at) {
    return at[0] + 256u * at[1];
}

/* The head of a name: kind, companion, offset, length. */
static const uint8_t *vent_head(const uint8_t *image, unsigned name) {
    return image + FIKAREHU_FIRST_HEAD + FIKAREHU_HEAD_LENGTH * name;
}

/* The bay that a name belongs to: the companion byte; of an open handle, which has its future's number there, its future's. */
static inline unsigned read_owner(const uint8_t *image, unsigned name) {
    const uint8_t *head = vent_head(image, name);
    return head[0] == FIKAREHU_KIND_OPEN_HANDLE ? vent_head(image, head[1])[1] : head[1];
}

/* The first node of the expression of a thread or a cell. */
static const uint8_t *vent_expression(const uint8_t *image, unsigned name) {
    return image + vent_two_bytes(vent_head(image, name) + 2);
}

/* Whether a thread of type num whose expression begins with that tag is not done. */
static int vent_goes_on(uint8_t tag) {
    return tag == FIKAREHU_TAG_APPLICATION || tag == FIKAREHU_TAG_CASE_PAIR || tag == FIKAREHU_TAG_CASE_LIST;
}

/* The vent of a bay. Its setting is the cell with the bay's number. */
static struct vent read_vent(const uint8_t *image, unsigned bay) {
    const unsigned names = vent_two_bytes(image);
    const uint8_t *node = vent_expression(image, bay);
    struct vent vent = {VENT_NO_NUM, 0, bay};
    /* A way without a ring meets each name at most once, so after as many links as there are names it is in a ring. */
    for (unsigned links = 0; node[0] == FIKAREHU_TAG_NAME; links++) {
        vent.name = node[1];
        if (links >= names) {
            vent.state = VENT_NEVER;
            return vent;
        }
        const uint8_t kind = vent_head(image, vent.name)[0];
        if (kind == FIKAREHU_KIND_FUTURE) {
            vent.state = VENT_AWAITS_FUTURE;
            return vent;
        }
        if (kind != FIKAREHU_KIND_THREAD) {
            return vent;
        }
        node = vent_expression(image, vent.name);
    }
    if (node[0] == FIKAREHU_TAG_NUM) {
        vent.state = VENT_OPENING;
        vent.opening = vent_two_bytes(node + 1);
    } else if (vent_goes_on(node[0])) {
        vent.state = VENT_AWAITS_THREAD;
    }
    return vent;
}

enum {
    VENT_EDITION = 2,         /* the byte of a recipe that has its edition */
    VENT_STARTING_PART = 8,   /* where in an edition 3 recipe the starting part's pair stands */
    VENT_EDITION_3 = 3
};

/* Sets a bay's first opening, its starting num, in a recipe. Answers 0 and writes nothing unless the recipe is an accepted one of edition 3
 * and has this bay. */
static inline int write_opening(uint8_t *recipe, size_t size, unsigned bay, uint16_t opening) {
    const struct fikarehu_verdict verdict = fikarehu_check(recipe, size);
    if (verdict.refusal != 0 || recipe[VENT_EDITION] != VENT_EDITION_3 || bay >= verdict.bays) {
        return 0;
    }
    uint8_t *starting_num = recipe + vent_two_bytes(recipe + VENT_STARTING_PART) + 2 * bay;
    starting_num[0] = (uint8_t)opening;
    starting_num[1] = (uint8_t)(opening >> 8);
    return 1;
}
