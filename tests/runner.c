/*
 * The runner called from C. Prints failures and a last line with the number of checks.
 *
 *   cc -std=c11 -O2 -Wall -Wextra -Werror -pthread tests/runner.c target/staticlib/libfikarehu.a -o runner && ./runner
 */
#define _GNU_SOURCE
#include "files.h"
#include "pattern.h"

#include "../include/fikarehu.h"

enum { ROOM = 4 * FIKAREHU_MAX_IMAGE, MOST_TURNS = 65535 };

/* The layout that the header fixes, whatever the compiler. */
_Static_assert(offsetof(struct fikarehu_ran, refusal) == 0, "refusal");
_Static_assert(offsetof(struct fikarehu_ran, stop) == 4, "stop");
_Static_assert(offsetof(struct fikarehu_ran, turns) == 8, "turns");
_Static_assert(offsetof(struct fikarehu_ran, buffer) == 12, "buffer");
_Static_assert(offsetof(struct fikarehu_ran, length) == 16, "length");
_Static_assert(sizeof(struct fikarehu_ran) == 24, "the whole");
_Static_assert(FIKAREHU_TURNS == 0 && FIKAREHU_IDLE == 1 && FIKAREHU_ROOM == 2, "the stops");

/* The end of one of two buffers, each against a page that traps. */
static uint8_t *buffer_end(int which) {
    static uint8_t *ends[2];
    if (ends[which] == NULL) {
        ends[which] = end_before_trap(ROOM);
    }
    return ends[which];
}

/* The recipe placed against a page that traps. */
static const uint8_t *place(const uint8_t *recipe, size_t length) {
    static uint8_t *end;
    if (end == NULL) {
        end = end_before_trap(sizeof(struct file));
    }
    if (length > 0) {
        memcpy(end - length, recipe, length);
    }
    return end - length;
}

/* A run between buffers of these lengths, filled with the pattern before. */
static struct fikarehu_ran run_into(const uint8_t *recipe, size_t length, uint16_t turns, size_t first_len,
                                    size_t second_len) {
    uint8_t *first = buffer_end(0) - first_len, *second = buffer_end(1) - second_len;
    fill(first, first_len);
    fill(second, second_len);
    return fikarehu_run(place(recipe, length), length, turns, first, first_len, second, second_len);
}

static void expect_refusal_into(const char *what, const struct file *file, uint16_t turns, size_t first_len,
                                size_t second_len, uint32_t refusal) {
    struct fikarehu_ran ran = run_into(file->bytes, file->length, turns, first_len, second_len);
    CHECK(ran.refusal == refusal, "%s, %u turns into %zu and %zu: refusal %u, expected %u", what, turns, first_len,
          second_len, ran.refusal, refusal);
    CHECK(ran.stop == 0 && ran.turns == 0 && ran.buffer == 0 && ran.length == 0,
          "%s: a refusal with other fields than 0", what);
    CHECK(kept(buffer_end(0) - first_len, 0, first_len), "%s: the first buffer was written", what);
    CHECK(kept(buffer_end(1) - second_len, 0, second_len), "%s: the second buffer was written", what);
}

static void expect_refusal(const char *what, const struct file *file, uint32_t refusal) {
    static const uint16_t turns[] = {0, 1, 100, MOST_TURNS};
    for (size_t i = 0; i < sizeof turns / sizeof turns[0]; i++) {
        expect_refusal_into(what, file, turns[i], FIKAREHU_MAX_IMAGE, FIKAREHU_MAX_IMAGE, refusal);
    }
}

/* What a run comes to. */
struct course {
    uint32_t stop, turns;
    uint64_t length;
    const uint8_t *image;
};

static unsigned names_of(const uint8_t *image) { return image[0] + 256u * image[1]; }

/* A load, and steps that go round by number: the same house without the runner. */
static struct course by_steps(const struct file *file, uint32_t most) {
    static uint8_t buffers[2][FIKAREHU_MAX_IMAGE];
    struct fikarehu_loaded loaded = fikarehu_load(file->bytes, file->length, buffers[0], FIKAREHU_MAX_IMAGE);
    must(loaded.refusal == 0, "the recipe is accepted");
    struct course course = {FIKAREHU_TURNS, 0, loaded.length, buffers[0]};
    unsigned from = 0;
    while (course.turns < most) {
        unsigned names = names_of(course.image), more = 0;
        uint8_t *other = buffers[(course.turns + 1) % 2];
        uint32_t stop = FIKAREHU_IDLE;
        for (; more < names; more++) {
            unsigned name = (from + more) % names;
            struct fikarehu_stepped stepped =
                fikarehu_step(course.image, course.length, name, other, FIKAREHU_MAX_IMAGE);
            if (stepped.outcome == FIKAREHU_RULE) {
                from = name + 1;
                course.image = other;
                course.length = stepped.length;
                course.turns++;
                break;
            }
            if (stepped.outcome == FIKAREHU_REFUSED && stepped.number == FIKAREHU_REFUSED_ROOM) {
                stop = FIKAREHU_ROOM;
            }
        }
        if (more == names) {
            course.stop = stop;
            break;
        }
    }
    return course;
}

/* A run that stops so after so many turns, with the image that steps come to. */
static void expect_run(const char *what, const struct file *file, uint16_t turns, uint32_t stop, uint32_t taken) {
    static const size_t lengths[][2] = {{FIKAREHU_MAX_IMAGE, FIKAREHU_MAX_IMAGE},
                                        {FIKAREHU_MAX_IMAGE + 1, FIKAREHU_MAX_IMAGE},
                                        {FIKAREHU_MAX_IMAGE, ROOM}};
    struct course course = by_steps(file, turns);
    for (size_t i = 0; i < sizeof lengths / sizeof lengths[0]; i++) {
        struct fikarehu_ran ran = run_into(file->bytes, file->length, turns, lengths[i][0], lengths[i][1]);
        CHECK(ran.refusal == 0, "%s: refusal %u", what, ran.refusal);
        CHECK(ran.stop == stop && ran.stop == course.stop, "%s, %u turns: stop %u, expected %u", what, turns, ran.stop,
              stop);
        CHECK(ran.turns == taken && ran.turns == course.turns, "%s, %u turns: %u taken, expected %u", what, turns,
              ran.turns, taken);
        CHECK(ran.buffer == ran.turns % 2, "%s: buffer %u after %u turns", what, ran.buffer, ran.turns);
        CHECK(ran.length == course.length, "%s: length %llu", what, (unsigned long long)ran.length);
        int which = ran.buffer == 1;
        const uint8_t *last = buffer_end(which) - lengths[i][which];
        CHECK(memcmp(last, course.image, course.length) == 0, "%s, %u turns: another image", what, turns);
    }
}

/* 3 unit to unit, 4 from 3 to 3, 5 from 4 to 3, 6 from 3 to unit, 7 num to cell, 8 cell to unit; all many. */
static const uint8_t table[] = {0, 0, 0, 1, 0, 0, 2, 1, 0, 4, 0, 0, 4, 3, 3, 4, 4, 3, 4, 3, 0, 4, 1, 2, 4, 2, 0};

#define TERM(...) {(const uint8_t[]){__VA_ARGS__}, sizeof((const uint8_t[]){__VA_ARGS__})}
#define IDENTITY 1, 3, 0, 0
#define DOUBLED 2, 1, 4, 1, 3, 2, 0, 1, 2, 0, 1, 0, 0
#define FIVE_DOUBLED DOUBLED, DOUBLED, DOUBLED, DOUBLED, DOUBLED
/* (λf. f unit) (thread (λf. λx. f unit)) */
#define LOOP 2, 1, 6, 2, 0, 0, 3, 2, 7, 5, 1, 4, 1, 3, 2, 0, 1, 3
/* the same with a new cell each time */
#define CELLS 2, 1, 6, 2, 0, 0, 3, 2, 7, 5, 1, 4, 1, 3, 2, 1, 8, 2, 0, 2, 3, 2, 5, 7, 4, 3, 0

static const struct term done = TERM(3);
static const struct term three_steps = TERM(2, IDENTITY, 2, IDENTITY, 2, IDENTITY, 3);
static const struct term loop = TERM(LOOP);
static const struct term cells = TERM(CELLS);
/* The tenth doubling would have more than 4,096 nodes. */
static const struct term too_large = TERM(FIVE_DOUBLED, FIVE_DOUBLED, DOUBLED, IDENTITY);

static struct file scratch;

/* A file with these terms. */
static void make_bays(struct file *file, const struct term *terms, size_t bays) {
    make_terms(file, EDITION_1, table, sizeof table, terms, bays);
}

static void stops_idle(void) {
    make_bays(&scratch, BAYS(done));
    expect_run("a bay that is done", &scratch, 0, FIKAREHU_TURNS, 0);
    expect_run("a bay that is done", &scratch, 1, FIKAREHU_IDLE, 0);
    expect_run("a bay that is done", &scratch, MOST_TURNS, FIKAREHU_IDLE, 0);
    make_bays(&scratch, BAYS(three_steps, done, three_steps));
    for (uint16_t turns = 0; turns <= 6; turns++) {
        expect_run("two bays of three steps", &scratch, turns, FIKAREHU_TURNS, turns);
    }
    expect_run("two bays of three steps", &scratch, 7, FIKAREHU_IDLE, 6);
    expect_run("two bays of three steps", &scratch, MOST_TURNS, FIKAREHU_IDLE, 6);
}

static void takes_all_turns(void) {
    make_bays(&scratch, BAYS(loop));
    expect_run("a loop", &scratch, 0, FIKAREHU_TURNS, 0);
    expect_run("a loop", &scratch, 1, FIKAREHU_TURNS, 1);
    expect_run("a loop", &scratch, MOST_TURNS - 1, FIKAREHU_TURNS, MOST_TURNS - 1);
    expect_run("a loop", &scratch, MOST_TURNS, FIKAREHU_TURNS, MOST_TURNS);
    make(&scratch, table, sizeof table, loop.bytes, loop.length, FIKAREHU_MAX_BAYS);
    expect_run("sixteen loops", &scratch, 1000, FIKAREHU_TURNS, 1000);
}

static void stops_for_room(void) {
    make_bays(&scratch, BAYS(too_large));
    expect_run("a value that doubles", &scratch, 9, FIKAREHU_TURNS, 9);
    expect_run("a value that doubles", &scratch, 10, FIKAREHU_ROOM, 9);
    expect_run("a value that doubles", &scratch, MOST_TURNS, FIKAREHU_ROOM, 9);
    make_bays(&scratch, BAYS(too_large, three_steps));
    expect_run("beside it one that ends", &scratch, 100, FIKAREHU_ROOM, 12);
    make_bays(&scratch, BAYS(too_large, loop));
    expect_run("beside it one that goes on", &scratch, 100, FIKAREHU_TURNS, 100);
    make_bays(&scratch, BAYS(cells));
    struct course course = by_steps(&scratch, 10000);
    CHECK(names_of(course.image) == FIKAREHU_MAX_NAMES, "cells: %u names", names_of(course.image));
    expect_run("cells without end", &scratch, 10000, FIKAREHU_ROOM, course.turns);
    expect_run("cells without end", &scratch, (uint16_t)course.turns, FIKAREHU_TURNS, course.turns);
}

#define FILE_OF(...) make_bays(&scratch, BAYS(TERM(__VA_ARGS__)))

static void refusals_1_to_11(void) {
    static struct file none;
    expect_refusal("no recipe", &none, FIKAREHU_REFUSED_FILE_LENGTH);
    FILE_OF(3);
    scratch.bytes[1] = 0x47;
    expect_refusal("another second byte", &scratch, FIKAREHU_REFUSED_OPENING);
    FILE_OF(3);
    scratch.length++;
    expect_refusal("a byte more", &scratch, FIKAREHU_REFUSED_LAYOUT);
    FILE_OF(3);
    scratch.bytes[12] = FIKAREHU_TYPE_NUM;
    expect_refusal("entry 0 is num", &scratch, FIKAREHU_REFUSED_TYPE_ENTRY);
    FILE_OF(14);
    expect_refusal("an unknown tag", &scratch, FIKAREHU_REFUSED_NO_TERM);
    make_balanced(&scratch);
    expect_refusal("applications closed by units", &scratch, FIKAREHU_REFUSED_TERM_SIZE);
    FILE_OF(0, 0);
    expect_refusal("a variable without a lambda", &scratch, FIKAREHU_REFUSED_SCOPE);
    FILE_OF(7, 3);
    expect_refusal("thread of another type", &scratch, FIKAREHU_REFUSED_ANNOTATION);
    FILE_OF(2, 3, 3);
    expect_refusal("unit applied", &scratch, FIKAREHU_REFUSED_TYPE);
    static const uint8_t once[] = {0, 0, 0, 1, 0, 0, 2, 1, 0, 3, 1, 0, 4, 3, 0};
    make(&scratch, once, sizeof once, (const uint8_t[]){1, 4, 3}, 3, 1);
    expect_refusal("a once-variable left", &scratch, FIKAREHU_REFUSED_LINEARITY);
    make(&scratch, once, sizeof once, (const uint8_t[]){1, 3, 3}, 3, 1);
    expect_refusal("a bay usable once", &scratch, FIKAREHU_REFUSED_BAY_ONCE);
}

/* T5 of document 01, and case B's term. */
static const uint8_t table_5[] = {0, 0, 0, 1, 0, 0, 2, 1, 0, 4, 1, 1, 4, 2, 3};
static const uint8_t case_b[] = {2, 2, 6, 4, 9, 0, 4, 0xFA, 0};

/* The run ends with that image. */
static void expect_last(const char *what, uint16_t turns, uint32_t stop, uint32_t taken, const uint8_t *image,
                        size_t length) {
    expect_run(what, &scratch, turns, stop, taken);
    struct fikarehu_ran ran =
        run_into(scratch.bytes, scratch.length, turns, FIKAREHU_MAX_IMAGE, FIKAREHU_MAX_IMAGE);
    const uint8_t *last = buffer_end(ran.buffer == 1) - FIKAREHU_MAX_IMAGE;
    CHECK(ran.length == length && memcmp(last, image, length) == 0, "%s, %u turns: another image", what, turns);
}

#define BYTES(...) ((const uint8_t[]){__VA_ARGS__}), sizeof((const uint8_t[]){__VA_ARGS__})

/* Edition 3: settings start with their nums, and exch hands the starting num on. */
static void starting_nums(void) {
    make_3(&scratch, table_a, sizeof table_a, BYTES(0, 0), BYTES(3), 1);
    expect_last("case A from 0", 5, FIKAREHU_IDLE, 0, BYTES(2, 0, 2, 0, 14, 0, 3, 0, 1, 0, 17, 0, 1, 0, 4, 0, 0, 3));
    make_3(&scratch, table_a, sizeof table_a, BYTES(0xFA, 0), BYTES(3), 1);
    expect_last("case A from 250", 5, FIKAREHU_IDLE, 0, BYTES(2, 0, 2, 0, 14, 0, 3, 0, 1, 0, 17, 0, 1, 0, 4, 0xFA, 0, 3));
    make_3(&scratch, table_5, sizeof table_5, BYTES(0x64, 0), case_b, sizeof case_b, 1);
    expect_last("case B from 100", 0, FIKAREHU_TURNS, 0,
                BYTES(2, 0, 2, 0, 14, 0, 3, 0, 1, 0, 17, 0, 9, 0, 4, 0x64, 0, 2, 2, 6, 4, 9, 0, 4, 0xFA, 0));
    expect_last("case B from 100", 1, FIKAREHU_TURNS, 1,
                BYTES(2, 0, 2, 0, 14, 0, 3, 0, 1, 0, 17, 0, 3, 0, 4, 0xFA, 0, 4, 0x64, 0));
    expect_last("case B from 100", 2, FIKAREHU_IDLE, 1,
                BYTES(2, 0, 2, 0, 14, 0, 3, 0, 1, 0, 17, 0, 3, 0, 4, 0xFA, 0, 4, 0x64, 0));
    /* both bays set the vent of bay 0: the second one has the first one's 250 back, and bay 1 keeps 256 */
    make_3(&scratch, table_5, sizeof table_5, BYTES(0xFF, 0xFF, 0, 1), case_b, sizeof case_b, 2);
    expect_last("two bays from 65,535 and 256", 9, FIKAREHU_IDLE, 2,
                BYTES(4, 0, 2, 0, 26, 0, 3, 0, 2, 1, 29, 0, 3, 0, 1, 0, 32, 0, 3, 0, 1, 1, 35, 0, 3, 0, 4, 0xFA, 0, 4, 0, 1,
                      4, 0xFF, 0xFF, 4, 0xFA, 0));
}

/* A new name is of the bay whose thread made it: bay 0 is done, and bay 1 makes a cell that holds 3. */
static void owners(void) {
    const struct term cell = TERM(2, 5, 7, 4, 3, 0);
    make_bays(&scratch, BAYS(done, cell));
    expect_last("a cell of bay 1", 5, FIKAREHU_IDLE, 1,
                BYTES(5, 0, 2, 0, 32, 0, 3, 0, 2, 1, 35, 0, 3, 0, 1, 0, 38, 0, 1, 0, 1, 1, 39, 0, 2, 0, 2, 1, 41, 0, 3, 0, 4, 0, 0,
                      4, 0, 0, 3, 9, 4, 4, 3, 0));
}

/* 19, after all other causes and after 12. */
static void starting_parts_of_other_lengths(void) {
    make_3(&scratch, table_a, sizeof table_a, BYTES(0xFA), BYTES(3), 1);
    expect_refusal("a byte short", &scratch, FIKAREHU_REFUSED_STARTING);
    expect_refusal_into("a byte short", &scratch, 1, FIKAREHU_MAX_IMAGE - 1, FIKAREHU_MAX_IMAGE,
                        FIKAREHU_REFUSED_BUFFER);
    expect_refusal_into("a byte short", &scratch, 0, FIKAREHU_MAX_IMAGE, 0, FIKAREHU_REFUSED_BUFFER);
    make_3(&scratch, table_a, sizeof table_a, BYTES(0xFA, 0, 0), BYTES(3), 1);
    expect_refusal("a byte over", &scratch, FIKAREHU_REFUSED_STARTING);
    make_3(&scratch, table_a, sizeof table_a, BYTES(0xFA, 0, 0), BYTES(3), 2);
    expect_refusal("three bytes for two bays", &scratch, FIKAREHU_REFUSED_STARTING);
    make_3(&scratch, table_a, sizeof table_a, NULL, 0, BYTES(3), 1);
    expect_refusal("no byte", &scratch, FIKAREHU_REFUSED_LAYOUT);
    make_3(&scratch, table_a, sizeof table_a, BYTES(0xFA), BYTES(2, 3, 3), 1);
    expect_refusal("a byte short and unit applied", &scratch, FIKAREHU_REFUSED_TYPE);
}

/* 12 comes first: for either buffer, whatever the turns and whatever the recipe. */
static void short_buffers(void) {
    static const size_t lengths[] = {0, 1, 17, FIKAREHU_MAX_FILE, FIKAREHU_MAX_IMAGE - 1};
    static const uint16_t turns[] = {0, 1, MOST_TURNS};
    static struct file accepted, refused, none;
    make_bays(&accepted, BAYS(loop));
    make(&refused, table, sizeof table, (const uint8_t[]){2, 3, 3}, 3, 1);
    const struct file *files[] = {&accepted, &refused, &none};
    for (size_t f = 0; f < 3; f++) {
        for (size_t k = 0; k < sizeof turns / sizeof turns[0]; k++) {
            for (size_t i = 0; i < sizeof lengths / sizeof lengths[0]; i++) {
                size_t enough = FIKAREHU_MAX_IMAGE + i;
                expect_refusal_into("first short", files[f], turns[k], lengths[i], enough, FIKAREHU_REFUSED_BUFFER);
                expect_refusal_into("second short", files[f], turns[k], enough, lengths[i], FIKAREHU_REFUSED_BUFFER);
                expect_refusal_into("both short", files[f], turns[k], lengths[i], lengths[i], FIKAREHU_REFUSED_BUFFER);
            }
        }
    }
}

static void no_bytes(void) {
    static uint8_t first[FIKAREHU_MAX_IMAGE], second[FIKAREHU_MAX_IMAGE];
    struct fikarehu_ran ran = fikarehu_run(NULL, 0, 0, NULL, 0, NULL, 0);
    CHECK(ran.refusal == FIKAREHU_REFUSED_BUFFER, "nothing at all: refusal %u", ran.refusal);
    ran = fikarehu_run(NULL, 0, 7, first, sizeof first, NULL, 0);
    CHECK(ran.refusal == FIKAREHU_REFUSED_BUFFER, "no second buffer: refusal %u", ran.refusal);
    ran = fikarehu_run(NULL, 0, 7, NULL, 0, second, sizeof second);
    CHECK(ran.refusal == FIKAREHU_REFUSED_BUFFER, "no first buffer: refusal %u", ran.refusal);
    ran = fikarehu_run(NULL, 0, 7, first, sizeof first, second, sizeof second);
    CHECK(ran.refusal == FIKAREHU_REFUSED_FILE_LENGTH, "no recipe: refusal %u", ran.refusal);
}

/* The files that take most of the stack; the lambdas are done from the start, each case takes a turn. */
static void worst_recipes(void) {
    make_lambdas(&scratch);
    expect_run("99 lambdas in ten bays", &scratch, 100, FIKAREHU_IDLE, 0);
    make_cases(&scratch);
    expect_run("98 cases in two bays", &scratch, 1000, FIKAREHU_IDLE, CASES * CASE_BAYS);
    static struct file twin;
    make_twin(&twin, &scratch, zeros, 2 * CASE_BAYS);
    expect_run("their twin", &twin, 1000, FIKAREHU_IDLE, CASES * CASE_BAYS);
    make_full(&scratch, FIKAREHU_TAG_APPLICATION, FIKAREHU_TAG_APPLICATION);
    expect_refusal("applications and nothing else", &scratch, FIKAREHU_REFUSED_NO_TERM);
}

static void *everything(void *nothing) {
    stops_idle();
    takes_all_turns();
    stops_for_room();
    refusals_1_to_11();
    starting_nums();
    owners();
    starting_parts_of_other_lengths();
    short_buffers();
    worst_recipes();
    return nothing;
}

int main(void) {
    no_bytes();
    everything(NULL);
    on_small_stack(SMALL_STACK, everything, NULL);
    return finish();
}
