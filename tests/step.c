/*
 * The step of either profile called from C, where both answer the same; tests/separate.c has where they do not. Prints failures and a last
 * line with the number of checks.
 *
 *   cc -std=c11 -O2 -Wall -Wextra -Werror -pthread tests/step.c target/staticlib/libfikarehu.a -o step && ./step
 */
#define _GNU_SOURCE
#include "check.h"
#include "images.h"
#include "pattern.h"

#include "../include/fikarehu.h"

enum { ROOM = 1 << 17 };

/* The step that is tried. */
static struct fikarehu_stepped (*step)(const uint8_t *, size_t, uint64_t, uint8_t *, size_t);

/* The image placed against a page that traps. */
static const uint8_t *place(const uint8_t *image, size_t length) {
    static uint8_t *end;
    if (end == NULL) {
        end = end_before_trap(ROOM);
    }
    if (length > 0) {
        memcpy(end - length, image, length);
    }
    return end - length;
}

static uint8_t *out_end(void) {
    static uint8_t *end;
    if (end == NULL) {
        end = end_before_trap(ROOM);
    }
    return end;
}

/* A step that writes nothing. */
static void expect(const char *what, const uint8_t *image, size_t length, uint64_t thread, size_t out_length,
                   uint32_t outcome, uint32_t number) {
    uint8_t *out = out_end() - out_length;
    fill(out, out_length);
    struct fikarehu_stepped stepped = step(place(image, length), length, thread, out, out_length);
    CHECK(stepped.outcome == outcome, "%s: outcome %u, expected %u", what, stepped.outcome, outcome);
    CHECK(stepped.number == number, "%s: number %u, expected %u", what, stepped.number, number);
    CHECK(stepped.length == 0, "%s: length %llu, expected 0", what, (unsigned long long)stepped.length);
    CHECK(kept(out, 0, out_length), "%s: the out buffer was written", what);
}

static void expect_refusal(const char *what, const uint8_t *image, size_t length, uint64_t thread, uint32_t number) {
    expect(what, image, length, thread, FIKAREHU_MAX_IMAGE, FIKAREHU_REFUSED, number);
}

/* A step by that rule to that image. */
static void expect_rule(const char *what, const uint8_t *image, size_t length, uint64_t thread, uint32_t rule,
                        const uint8_t *next, size_t next_length) {
    uint8_t *out = out_end() - FIKAREHU_MAX_IMAGE;
    fill(out, FIKAREHU_MAX_IMAGE);
    struct fikarehu_stepped stepped = step(place(image, length), length, thread, out, FIKAREHU_MAX_IMAGE);
    CHECK(stepped.outcome == FIKAREHU_RULE, "%s: outcome %u, number %u", what, stepped.outcome, stepped.number);
    CHECK(stepped.number == rule, "%s: rule %u, expected %u", what, stepped.number, rule);
    CHECK(stepped.length == next_length, "%s: length %llu, expected %zu", what, (unsigned long long)stepped.length,
          next_length);
    CHECK(memcmp(out, next, next_length) == 0, "%s: another image", what);
    CHECK(kept(out, next_length, FIKAREHU_MAX_IMAGE), "%s: written beyond the image", what);
}

#define BYTES(...) ((const uint8_t[]){__VA_ARGS__}), sizeof((const uint8_t[]){__VA_ARGS__})

/* Case B: the setting becomes 250. */
static void case_b(void) {
    expect_rule("case B", BYTES(2, 0, 2, 0, 14, 0, 3, 0, 1, 0, 17, 0, 9, 0, 4, 0, 0, 2, 2, 6, 4, 9, 0, 4, 0xFA, 0), 1,
                FIKAREHU_CELL_EXCH, BYTES(2, 0, 2, 0, 14, 0, 3, 0, 1, 0, 17, 0, 3, 0, 4, 0xFA, 0, 4, 0, 0));
}

/* Case B from starting nums: the thread is then the former num. */
static void case_b_from_starting_nums(void) {
    expect_rule("case B from 100", BYTES(2, 0, 2, 0, 14, 0, 3, 0, 1, 0, 17, 0, 9, 0, 4, 0x64, 0, 2, 2, 6, 4, 9, 0, 4, 0xFA, 0),
                1, FIKAREHU_CELL_EXCH, BYTES(2, 0, 2, 0, 14, 0, 3, 0, 1, 0, 17, 0, 3, 0, 4, 0xFA, 0, 4, 0x64, 0));
    expect_rule("case B from 65,535",
                BYTES(2, 0, 2, 0, 14, 0, 3, 0, 1, 0, 17, 0, 9, 0, 4, 0xFF, 0xFF, 2, 2, 6, 4, 9, 0, 4, 0xFA, 0), 1,
                FIKAREHU_CELL_EXCH, BYTES(2, 0, 2, 0, 14, 0, 3, 0, 1, 0, 17, 0, 3, 0, 4, 0xFA, 0, 4, 0xFF, 0xFF));
}

/* Each rule on its own, in Fig. 5's order. */
static void every_rule(void) {
    expect_rule("rule 1", BYTES(1, 0, 1, 0, 8, 0, 6, 0, 2, 1, 9, 0, 0, 3), 0, FIKAREHU_BETA, BYTES(1, 0, 1, 0, 8, 0,
                1, 0, 3));
    expect_rule("rule 2", BYTES(1, 0, 1, 0, 8, 0, 4, 0, 2, 7, 5, 3), 0, FIKAREHU_THREAD_NEW,
                BYTES(2, 0, 1, 0, 14, 0, 2, 0, 1, 0, 16, 0, 4, 0, 9, 1, 2, 3, 9, 1));
    expect_rule("rule 3", BYTES(2, 0, 1, 0, 14, 0, 4, 0, 1, 0, 18, 0, 1, 0, 2, 9, 1, 3, 3), 0, FIKAREHU_FUTURE_DEREF,
                BYTES(2, 0, 1, 0, 14, 0, 3, 0, 1, 0, 17, 0, 1, 0, 2, 3, 3, 3));
    expect_rule("rule 4", BYTES(1, 0, 1, 0, 8, 0, 4, 0, 2, 8, 5, 3), 0, FIKAREHU_HANDLE_NEW,
                BYTES(3, 0, 1, 0, 20, 0, 7, 0, 5, 0, 27, 0, 0, 0, 3, 1, 27, 0, 0, 0, 2, 2, 3, 9, 1, 9, 2));
    expect_rule("rule 5", BYTES(3, 0, 1, 0, 20, 0, 4, 0, 5, 0, 24, 0, 0, 0, 3, 1, 24, 0, 0, 0, 2, 9, 2, 3), 0,
                FIKAREHU_HANDLE_BIND,
                BYTES(3, 0, 1, 0, 20, 0, 1, 0, 1, 0, 21, 0, 1, 0, 4, 0, 22, 0, 0, 0, 3, 3));
    expect_rule("rule 6", BYTES(1, 0, 1, 0, 8, 0, 4, 0, 2, 5, 5, 3), 0, FIKAREHU_CELL_NEW,
                BYTES(2, 0, 1, 0, 14, 0, 2, 0, 2, 0, 16, 0, 1, 0, 9, 1, 3));
    case_b();
}

/* The rules that take a pair or a list apart; index 0 is the second component. */
static void taking_apart(void) {
    expect_rule("rule 8", BYTES(1, 0, 1, 0, 8, 0, 12, 0, 12, 10, 9, 3, 4, 7, 0, 2, 0, 0, 0, 1), 0, FIKAREHU_CASE_PAIR,
                BYTES(1, 0, 1, 0, 8, 0, 5, 0, 2, 4, 7, 0, 3));
    expect_rule("rule 9", BYTES(1, 0, 1, 0, 8, 0, 12, 0, 13, 11, 9, 3, 4, 7, 0, 2, 0, 0, 0, 1), 0, FIKAREHU_CASE_LIST,
                BYTES(1, 0, 1, 0, 8, 0, 5, 0, 2, 4, 7, 0, 3));
    expect_rule("rule 3 at a subject", BYTES(2, 0, 1, 0, 14, 0, 5, 0, 1, 0, 19, 0, 4, 0, 12, 9, 1, 0, 0, 10, 0, 3, 3), 0,
                FIKAREHU_FUTURE_DEREF,
                BYTES(2, 0, 1, 0, 14, 0, 7, 0, 1, 0, 21, 0, 4, 0, 12, 10, 0, 3, 3, 0, 0, 10, 0, 3, 3));
    expect_rule("the first component first", BYTES(1, 0, 1, 0, 8, 0, 14, 0, 10, 0, 2, 1, 9, 0, 0, 3, 2, 1, 9, 0, 0, 3), 0,
                FIKAREHU_BETA, BYTES(1, 0, 1, 0, 8, 0, 9, 0, 10, 0, 3, 2, 1, 9, 0, 0, 3));
    expect_rule("the subject before the body",
                BYTES(1, 0, 1, 0, 8, 0, 13, 0, 13, 2, 1, 9, 0, 0, 3, 2, 1, 9, 0, 0, 3), 0, FIKAREHU_BETA,
                BYTES(1, 0, 1, 0, 8, 0, 8, 0, 13, 3, 2, 1, 9, 0, 0, 3));
}

/* Subjects that are no pair for 12 and no front for 13. */
static void other_subjects(void) {
    expect("a pair, done", BYTES(1, 0, 1, 0, 8, 0, 5, 0, 10, 7, 3, 9, 0), 0, FIKAREHU_MAX_IMAGE, FIKAREHU_DONE, 0);
    expect("a front, done", BYTES(1, 0, 1, 0, 8, 0, 5, 0, 11, 7, 3, 9, 0), 0, FIKAREHU_MAX_IMAGE, FIKAREHU_DONE, 0);
    expect("a pair in a cell", BYTES(2, 0, 1, 0, 14, 0, 1, 0, 2, 0, 15, 0, 4, 0, 3, 10, 0, 3, 3), 0, FIKAREHU_MAX_IMAGE,
           FIKAREHU_DONE, 0);
    expect("waiting for itself at a case", BYTES(1, 0, 1, 0, 8, 0, 4, 0, 12, 9, 0, 3), 0, FIKAREHU_MAX_IMAGE,
           FIKAREHU_WAITING, 0);
    expect("waiting for a future at a case",
           BYTES(3, 0, 1, 0, 20, 0, 4, 0, 5, 0, 24, 0, 0, 0, 3, 1, 24, 0, 0, 0, 13, 9, 1, 3), 0, FIKAREHU_MAX_IMAGE,
           FIKAREHU_WAITING, 1);
    expect_refusal("an open handle taken apart",
                   BYTES(3, 0, 1, 0, 20, 0, 4, 0, 5, 0, 24, 0, 0, 0, 3, 1, 24, 0, 0, 0, 13, 9, 2, 3), 0,
                   FIKAREHU_REFUSED_WRONG_KIND);
    expect_refusal("a used handle taken apart", BYTES(2, 0, 1, 0, 14, 0, 4, 0, 4, 0, 18, 0, 0, 0, 12, 9, 1, 3), 0,
                   FIKAREHU_REFUSED_WRONG_KIND);
    expect_refusal("a cell taken apart", BYTES(2, 0, 1, 0, 14, 0, 4, 0, 2, 0, 18, 0, 4, 0, 12, 9, 1, 3, 10, 0, 3, 3), 0,
                   FIKAREHU_REFUSED_WRONG_KIND);
    expect_refusal("unit taken apart", BYTES(1, 0, 1, 0, 8, 0, 3, 0, 12, 3, 3), 0, FIKAREHU_REFUSED_WRONG_KIND);
    expect_refusal("a pair taken apart as a list", BYTES(1, 0, 1, 0, 8, 0, 6, 0, 13, 10, 0, 3, 3, 3), 0,
                   FIKAREHU_REFUSED_WRONG_KIND);
    expect_refusal("a front taken apart as a pair", BYTES(1, 0, 1, 0, 8, 0, 6, 0, 12, 11, 0, 3, 3, 3), 0,
                   FIKAREHU_REFUSED_WRONG_KIND);
    expect_refusal("a pair applied", BYTES(1, 0, 1, 0, 8, 0, 6, 0, 2, 10, 0, 3, 3, 3), 0, FIKAREHU_REFUSED_WRONG_KIND);
}

static void other_answers(void) {
    expect("done", BYTES(1, 0, 1, 0, 8, 0, 1, 0, 3), 0, FIKAREHU_MAX_IMAGE, FIKAREHU_DONE, 0);
    expect("num 65535, done", BYTES(1, 0, 1, 0, 8, 0, 3, 0, 4, 0xFF, 0xFF), 0, FIKAREHU_MAX_IMAGE, FIKAREHU_DONE, 0);
    expect("waiting for itself", BYTES(1, 0, 1, 0, 8, 0, 4, 0, 2, 9, 0, 3), 0, FIKAREHU_MAX_IMAGE, FIKAREHU_WAITING, 0);
    expect("waiting for a future", BYTES(3, 0, 1, 0, 20, 0, 4, 0, 5, 0, 24, 0, 0, 0, 3, 1, 24, 0, 0, 0, 2, 9, 1, 3), 0,
           FIKAREHU_MAX_IMAGE, FIKAREHU_WAITING, 1);
    expect_refusal("a used handle applied", BYTES(2, 0, 1, 0, 14, 0, 4, 0, 4, 0, 18, 0, 0, 0, 2, 9, 1, 3), 0,
                   FIKAREHU_REFUSED_USED_HANDLE);
    expect_refusal("a cell applied", BYTES(2, 0, 1, 0, 14, 0, 4, 0, 2, 0, 18, 0, 1, 0, 2, 9, 1, 3, 3), 0,
                   FIKAREHU_REFUSED_WRONG_KIND);
    expect_refusal("unit applied", BYTES(1, 0, 1, 0, 8, 0, 3, 0, 2, 3, 3), 0, FIKAREHU_REFUSED_WRONG_KIND);
}

static void broken_images(void) {
    expect_refusal("no bytes", NULL, 0, 0, FIKAREHU_REFUSED_IMAGE);
    expect_refusal("one byte", BYTES(0), 0, FIKAREHU_REFUSED_IMAGE);
    expect_refusal("a byte over", BYTES(1, 0, 1, 0, 8, 0, 1, 0, 3, 3), 0, FIKAREHU_REFUSED_IMAGE);
    expect_refusal("a byte over that the head tells of", BYTES(1, 0, 1, 0, 8, 0, 2, 0, 3, 3), 0,
                   FIKAREHU_REFUSED_IMAGE);
    expect_refusal("cut", BYTES(1, 0, 1, 0, 8, 0, 1, 0), 0, FIKAREHU_REFUSED_IMAGE);
    expect_refusal("kind 6", BYTES(1, 0, 6, 0, 8, 0, 1, 0, 3), 0, FIKAREHU_REFUSED_IMAGE);
    expect_refusal("owner 16", BYTES(1, 0, 1, 16, 8, 0, 1, 0, 3), 0, FIKAREHU_REFUSED_IMAGE);
    expect_refusal("a free variable", BYTES(1, 0, 1, 0, 8, 0, 2, 0, 0, 0), 0, FIKAREHU_REFUSED_IMAGE);
    expect_refusal("name 1 of one", BYTES(1, 0, 1, 0, 8, 0, 2, 0, 9, 1), 0, FIKAREHU_REFUSED_IMAGE);
    expect_refusal("a num cut", BYTES(1, 0, 1, 0, 8, 0, 2, 0, 4, 0xE9), 0, FIKAREHU_REFUSED_IMAGE);
    expect_refusal("a cell with no value", BYTES(1, 0, 2, 0, 8, 0, 3, 0, 2, 3, 3), 0, FIKAREHU_REFUSED_IMAGE);
    expect_refusal("a cell with a case", BYTES(1, 0, 2, 0, 8, 0, 3, 0, 12, 3, 3), 0, FIKAREHU_REFUSED_IMAGE);
    expect_refusal("a cell with a pair that goes on", BYTES(1, 0, 2, 0, 8, 0, 6, 0, 10, 0, 2, 3, 3, 3), 0,
                   FIKAREHU_REFUSED_IMAGE);
    expect_refusal("a third variable in a case", BYTES(1, 0, 1, 0, 8, 0, 4, 0, 12, 3, 0, 2), 0, FIKAREHU_REFUSED_IMAGE);
    expect_refusal("a variable in the subject", BYTES(1, 0, 1, 0, 8, 0, 4, 0, 13, 0, 0, 3), 0, FIKAREHU_REFUSED_IMAGE);
    expect_refusal("tag 14", BYTES(1, 0, 1, 0, 8, 0, 3, 0, 14, 3, 3), 0, FIKAREHU_REFUSED_IMAGE);
    expect_refusal("a future without a handle", BYTES(1, 0, 5, 0, 8, 0, 0, 0), 0, FIKAREHU_REFUSED_IMAGE);
}

/* Each rule on an image of many owners: a new name belongs to the stepping thread's bay, every other one keeps its owner. */
static void rules_and_owners(void) {
    expect_rule("rule 1 in bay 2", BYTES(1, 0, 1, 2, 8, 0, 6, 0, 2, 1, 9, 0, 0, 3), 0, FIKAREHU_BETA,
                BYTES(1, 0, 1, 2, 8, 0, 1, 0, 3));
    expect_rule("rule 2 in bay 7", BYTES(1, 0, 1, 7, 8, 0, 4, 0, 2, 7, 5, 3), 0, FIKAREHU_THREAD_NEW,
                BYTES(2, 0, 1, 7, 14, 0, 2, 0, 1, 7, 16, 0, 4, 0, 9, 1, 2, 3, 9, 1));
    expect_rule("rule 2 in bay 1 on a function of bay 4",
                BYTES(2, 0, 1, 1, 14, 0, 5, 0, 1, 4, 19, 0, 4, 0, 2, 7, 5, 9, 1, 1, 9, 0, 0), 0, FIKAREHU_THREAD_NEW,
                BYTES(3, 0, 1, 1, 20, 0, 2, 0, 1, 4, 22, 0, 4, 0, 1, 1, 26, 0, 5, 0, 9, 2, 1, 9, 0, 0, 2, 9, 1, 9, 2));
    expect_rule("rule 3 in bay 1 on a thread of bay 4", BYTES(2, 0, 1, 1, 14, 0, 4, 0, 1, 4, 18, 0, 1, 0, 2, 9, 1, 3, 3), 0,
                FIKAREHU_FUTURE_DEREF, BYTES(2, 0, 1, 1, 14, 0, 3, 0, 1, 4, 17, 0, 1, 0, 2, 3, 3, 3));
    expect_rule("rule 4 in bay 15", BYTES(1, 0, 1, 15, 8, 0, 4, 0, 2, 8, 5, 3), 0, FIKAREHU_HANDLE_NEW,
                BYTES(3, 0, 1, 15, 20, 0, 7, 0, 5, 15, 27, 0, 0, 0, 3, 1, 27, 0, 0, 0, 2, 2, 3, 9, 1, 9, 2));
    expect_rule("rule 6 in bay 3", BYTES(1, 0, 1, 3, 8, 0, 4, 0, 2, 5, 5, 3), 0, FIKAREHU_CELL_NEW,
                BYTES(2, 0, 1, 3, 14, 0, 2, 0, 2, 3, 16, 0, 1, 0, 9, 1, 3));
    expect_rule("rule 7 in bay 1 on a cell of bay 4",
                BYTES(2, 0, 2, 4, 14, 0, 3, 0, 1, 1, 17, 0, 9, 0, 4, 0, 0, 2, 2, 6, 4, 9, 0, 4, 0xFA, 0), 1,
                FIKAREHU_CELL_EXCH, BYTES(2, 0, 2, 4, 14, 0, 3, 0, 1, 1, 17, 0, 3, 0, 4, 0xFA, 0, 4, 0, 0));
    expect_rule("rule 8 in bay 5", BYTES(1, 0, 1, 5, 8, 0, 12, 0, 12, 10, 9, 3, 4, 7, 0, 2, 0, 0, 0, 1), 0,
                FIKAREHU_CASE_PAIR, BYTES(1, 0, 1, 5, 8, 0, 5, 0, 2, 4, 7, 0, 3));
    expect_rule("rule 9 in bay 6", BYTES(1, 0, 1, 6, 8, 0, 12, 0, 13, 11, 9, 3, 4, 7, 0, 2, 0, 0, 0, 1), 0,
                FIKAREHU_CASE_LIST, BYTES(1, 0, 1, 6, 8, 0, 5, 0, 2, 4, 7, 0, 3));
    expect("waiting in bay 1 for a future of bay 9",
           BYTES(3, 0, 1, 1, 20, 0, 4, 0, 5, 9, 24, 0, 0, 0, 3, 1, 24, 0, 0, 0, 2, 9, 1, 3), 0, FIKAREHU_MAX_IMAGE,
           FIKAREHU_WAITING, 1);
}

/* Rule 5: the future becomes a thread of its own owner, and the used handle has that owner too, whoever steps. */
static void bound_futures_and_owners(void) {
    expect_rule("rule 5 in bay 6, its own future", BYTES(3, 0, 1, 6, 20, 0, 4, 0, 5, 6, 24, 0, 0, 0, 3, 1, 24, 0, 0, 0, 2, 9, 2, 3),
                0, FIKAREHU_HANDLE_BIND, BYTES(3, 0, 1, 6, 20, 0, 1, 0, 1, 6, 21, 0, 1, 0, 4, 6, 22, 0, 0, 0, 3, 3));
    expect_rule("rule 5 in bay 1, a future of bay 9", BYTES(3, 0, 1, 1, 20, 0, 4, 0, 5, 9, 24, 0, 0, 0, 3, 1, 24, 0, 0, 0, 2, 9, 2, 3),
                0, FIKAREHU_HANDLE_BIND, BYTES(3, 0, 1, 1, 20, 0, 1, 0, 1, 9, 21, 0, 1, 0, 4, 9, 22, 0, 0, 0, 3, 3));
    /* the handle, of number 0, before its future, and the thread, of bay 3, last */
    expect_rule("rule 5, the handle first", BYTES(3, 0, 3, 1, 20, 0, 0, 0, 5, 12, 20, 0, 0, 0, 1, 3, 20, 0, 4, 0, 2, 9, 0, 3), 2,
                FIKAREHU_HANDLE_BIND, BYTES(3, 0, 4, 12, 20, 0, 0, 0, 1, 12, 20, 0, 1, 0, 1, 3, 21, 0, 1, 0, 3, 3));
}

/* An image that steps by rule 1 of thread 0, what comes of it, and where in both a name's owner stands. */
struct owned {
    const char *kind;
    uint8_t image[32];
    size_t length;
    uint8_t next[32];
    size_t next_length, owner;
};

/* Every owner: those below 16 go and are kept, the others break the layout, also where the number is no thread. */
static void every_owner(struct owned owned) {
    for (unsigned owner = 0; owner < 256; owner++) {
        owned.image[owned.owner] = owned.next[owned.owner] = (uint8_t)owner;
        if (owner < FIKAREHU_MAX_BAYS) {
            expect_rule(owned.kind, owned.image, owned.length, 0, FIKAREHU_BETA, owned.next, owned.next_length);
        } else {
            expect_refusal(owned.kind, owned.image, owned.length, 0, FIKAREHU_REFUSED_IMAGE);
            expect_refusal(owned.kind, owned.image, owned.length, FIKAREHU_MAX_NAMES, FIKAREHU_REFUSED_IMAGE);
        }
    }
}

static void owners(void) {
    every_owner((struct owned){"a thread's owner", {1, 0, 1, 0, 8, 0, 6, 0, 2, 1, 9, 0, 0, 3}, 14, {1, 0, 1, 0, 8, 0, 1, 0, 3}, 9, 3});
    every_owner((struct owned){"a cell's owner", {2, 0, 1, 0, 14, 0, 6, 0, 2, 0, 20, 0, 1, 0, 2, 1, 9, 0, 0, 3, 3}, 21,
                               {2, 0, 1, 0, 14, 0, 1, 0, 2, 0, 15, 0, 1, 0, 3, 3}, 16, 9});
    every_owner((struct owned){"a used handle's owner", {2, 0, 1, 0, 14, 0, 6, 0, 4, 0, 20, 0, 0, 0, 2, 1, 9, 0, 0, 3}, 20,
                               {2, 0, 1, 0, 14, 0, 1, 0, 4, 0, 15, 0, 0, 0, 3}, 15, 9});
    every_owner((struct owned){"a future's owner", {3, 0, 1, 0, 20, 0, 6, 0, 5, 0, 26, 0, 0, 0, 3, 1, 26, 0, 0, 0, 2, 1, 9, 0, 0, 3}, 26,
                               {3, 0, 1, 0, 20, 0, 1, 0, 5, 0, 21, 0, 0, 0, 3, 1, 21, 0, 0, 0, 3}, 21, 9});
}

/* An open handle's companion is its future's number, and no owner: 16 and more stand. Thread 0, of bay 2, binds by handle 1 a future of
 * bay 13; the names between are threads of every bay, up to more than bay 2's and bay 13's shares. */
static void futures_of_high_numbers(void) {
    static const uint8_t unit[] = {FIKAREHU_TAG_UNIT};
    static const uint8_t binding[] = {FIKAREHU_TAG_APPLICATION, FIKAREHU_TAG_NAME, 1, FIKAREHU_TAG_UNIT};
    static const uint8_t futures[] = {2, 15, 16, 20, 200, FIKAREHU_MAX_NAMES - 1};
    static uint8_t image[FIKAREHU_MAX_IMAGE], next[FIKAREHU_MAX_IMAGE];
    static struct name names[FIKAREHU_MAX_NAMES];
    for (size_t i = 0; i < sizeof futures; i++) {
        const uint8_t future = futures[i];
        for (size_t name = 2; name < future; name++) {
            names[name] = (struct name){FIKAREHU_KIND_THREAD, (uint8_t)(name % FIKAREHU_MAX_BAYS), unit, sizeof unit};
        }
        names[0] = (struct name){FIKAREHU_KIND_THREAD, 2, binding, sizeof binding};
        names[1] = (struct name){FIKAREHU_KIND_OPEN_HANDLE, future, NULL, 0};
        names[future] = (struct name){FIKAREHU_KIND_FUTURE, 13, NULL, 0};
        size_t length = write_names(image, names, future + (size_t)1);
        names[0] = (struct name){FIKAREHU_KIND_THREAD, 2, unit, sizeof unit};
        names[1] = (struct name){FIKAREHU_KIND_USED_HANDLE, 13, NULL, 0};
        names[future] = (struct name){FIKAREHU_KIND_THREAD, 13, unit, sizeof unit};
        size_t next_length = write_names(next, names, future + (size_t)1);
        expect_rule("a future of a high number", image, length, 0, FIKAREHU_HANDLE_BIND, next, next_length);
    }
}

static void no_threads(void) {
    static const uint64_t numbers[] = {1, 2, FIKAREHU_MAX_NAMES - 1, FIKAREHU_MAX_NAMES, 65536, 1ULL << 32, UINT64_MAX};
    expect_refusal("an image without names", BYTES(0, 0), 0, FIKAREHU_REFUSED_NO_THREAD);
    for (size_t i = 0; i < sizeof numbers / sizeof numbers[0]; i++) {
        expect_refusal("no thread", BYTES(1, 0, 1, 0, 8, 0, 1, 0, 3), numbers[i], FIKAREHU_REFUSED_NO_THREAD);
    }
    expect_refusal("a cell", BYTES(1, 0, 2, 0, 8, 0, 1, 0, 3), 0, FIKAREHU_REFUSED_NO_THREAD);
}

static void short_buffers(void) {
    static const size_t lengths[] = {0, 1, 100, FIKAREHU_MAX_IMAGE - 1};
    for (size_t i = 0; i < sizeof lengths / sizeof lengths[0]; i++) {
        expect("a short buffer", BYTES(1, 0, 1, 0, 8, 0, 1, 0, 3), 0, lengths[i], FIKAREHU_REFUSED,
               FIKAREHU_REFUSED_BUFFER);
        expect("a short buffer and no image", NULL, 0, 9, lengths[i], FIKAREHU_REFUSED, FIKAREHU_REFUSED_BUFFER);
    }
    struct fikarehu_stepped stepped = step(NULL, 0, 0, NULL, 0);
    CHECK(stepped.outcome == FIKAREHU_REFUSED && stepped.number == FIKAREHU_REFUSED_BUFFER,
          "no image and no buffer: number %u",
          stepped.number);
}

static uint8_t large[ROOM];

/* One thread with an expression of that many bytes from `large + 8` on. */
static size_t large_image(size_t expression) {
    memcpy(large, (const uint8_t[]){1, 0, 1, 0, 8, 0, (uint8_t)expression, (uint8_t)(expression >> 8)}, 8);
    return 8 + expression;
}

/* One thread with these bytes `levels` times, and units after them. */
static size_t nested_image(const uint8_t *level, size_t length, size_t levels, size_t units) {
    uint8_t *at = large + 8;
    for (size_t i = 0; i < levels; i++, at += length) {
        memcpy(at, level, length);
    }
    memset(at, FIKAREHU_TAG_UNIT, units);
    return large_image(levels * length + units);
}

/* Thousands of levels to the left, to the right, in subjects and in bodies: values, and places where unit is no function, no pair and no list. */
static void deepest(void) {
    enum { HALF = FIKAREHU_MAX_NODES / 2 - 1, ALL = FIKAREHU_MAX_NODES - 1 };
    static const struct {
        const char *what;
        uint8_t level[3];
        size_t length, levels, units;
        int is_value;
    } rows[] = {
        {"applications to the left", {FIKAREHU_TAG_APPLICATION}, 1, HALF, HALF + 1, 0},
        {"applications to the right", {FIKAREHU_TAG_APPLICATION, FIKAREHU_TAG_UNIT}, 2, HALF, 1, 0},
        {"exch after exch", {FIKAREHU_TAG_APPLICATION, FIKAREHU_TAG_EXCH, 1}, 3, HALF, 1, 1},
        {"lambdas", {FIKAREHU_TAG_LAMBDA, 1}, 2, ALL, 1, 1},
        {"pairs to the left", {FIKAREHU_TAG_PAIR, 1}, 2, HALF, HALF + 1, 1},
        {"fronts to the right", {FIKAREHU_TAG_LIST, 1, FIKAREHU_TAG_UNIT}, 3, HALF, 1, 1},
        {"cases in subjects", {FIKAREHU_TAG_CASE_PAIR}, 1, HALF, HALF + 1, 0},
        {"cases in bodies", {FIKAREHU_TAG_CASE_LIST, FIKAREHU_TAG_UNIT}, 2, HALF, 1, 0},
    };
    for (size_t i = 0; i < sizeof rows / sizeof rows[0]; i++) {
        size_t length = nested_image(rows[i].level, rows[i].length, rows[i].levels, rows[i].units);
        if (rows[i].is_value) {
            expect(rows[i].what, large, length, 0, FIKAREHU_MAX_IMAGE, FIKAREHU_DONE, 0);
        } else {
            expect_refusal(rows[i].what, large, length, 0, FIKAREHU_REFUSED_WRONG_KIND);
        }
    }
}

/* case (v, unit) of (x, y) ⇒ (x, (x, .. unit)), v of 65 nodes: the length of its expression. */
static size_t copying(size_t uses) {
    enum { LAMBDAS_IN_V = 64 };
    uint8_t *at = large + 8;
    memcpy(at, (const uint8_t[]){FIKAREHU_TAG_CASE_PAIR, FIKAREHU_TAG_PAIR, 0}, 3);
    memset(at + 3, FIKAREHU_TAG_LAMBDA, 2 * LAMBDAS_IN_V);
    at += 3 + 2 * LAMBDAS_IN_V;
    memset(at, FIKAREHU_TAG_UNIT, 2);
    at += 2;
    for (size_t use = 0; use < uses; use++, at += 4) {
        memcpy(at, (const uint8_t[]){FIKAREHU_TAG_PAIR, 0, FIKAREHU_TAG_VARIABLE, 1}, 4);
    }
    *at = FIKAREHU_TAG_UNIT;
    return (size_t)(at + 1 - (large + 8));
}

/* The outcome has uses + 1 nodes of the body, and 65 for each use. */
static void room(void) {
    uint8_t *out = out_end() - FIKAREHU_MAX_IMAGE;
    size_t length = large_image(copying(62));
    struct fikarehu_stepped stepped = step(place(large, length), length, 0, out, FIKAREHU_MAX_IMAGE);
    CHECK(stepped.outcome == FIKAREHU_RULE && stepped.number == FIKAREHU_CASE_PAIR, "4,093 nodes: outcome %u, number %u",
          stepped.outcome, stepped.number);
    expect_refusal("4,159 nodes", large, large_image(copying(63)), 0, FIKAREHU_REFUSED_ROOM);
}

/* Slices far past the limits, full of applications. */
static void too_large(void) {
    static const size_t lengths[] = {FIKAREHU_MAX_NODES + 1, FIKAREHU_MAX_IMAGE - 8, FIKAREHU_MAX_IMAGE - 7, 65535};
    for (size_t i = 0; i < sizeof lengths / sizeof lengths[0]; i++) {
        memset(large + 8, FIKAREHU_TAG_APPLICATION, lengths[i]);
        expect_refusal("applications and nothing else", large, large_image(lengths[i]), 0, FIKAREHU_REFUSED_IMAGE);
    }
    memset(large, 0xFF, sizeof large);
    expect_refusal("65,535 names", large, sizeof large, 0, FIKAREHU_REFUSED_IMAGE);
}

static void *everything(void *nothing) {
    every_rule();
    case_b_from_starting_nums();
    taking_apart();
    rules_and_owners();
    bound_futures_and_owners();
    owners();
    other_subjects();
    other_answers();
    broken_images();
    no_threads();
    short_buffers();
    deepest();
    room();
    too_large();
    return nothing;
}

int main(void) {
    step = fikarehu_step_separate;
    everything(NULL);
    on_small_stack(SMALL_STACK, everything, NULL);
    step = fikarehu_step;
    everything(NULL);
    on_small_stack(SMALL_STACK, everything, NULL);
    futures_of_high_numbers();
    return finish();
}
