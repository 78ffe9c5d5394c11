/*
 * The load of either profile called from C, where both answer the same; tests/separate.c has where they do not. Prints failures and a last
 * line with the number of checks.
 *
 *   cc -std=c11 -O2 -Wall -Wextra -Werror -pthread tests/load.c target/staticlib/libfikarehu.a -o load && ./load
 */
#define _GNU_SOURCE
#include "files.h"
#include "pattern.h"

#include "../include/fikarehu.h"

enum { ROOM = 4 * FIKAREHU_MAX_IMAGE };

/* The load that is tried. */
static struct fikarehu_loaded (*load)(const uint8_t *, size_t, uint8_t *, size_t);

static const uint8_t case_a[] = {0x4C, 0x46, 1, 2, 0x0C, 0, 9, 0, 0x15, 0, 1, 0, 0, 0, 0, 1, 0, 0, 2, 1, 0, 3};
static const uint8_t image_a[] = {2, 0, 2, 0, 0x0E, 0, 3, 0, 1, 0, 0x11, 0, 1, 0, 4, 0, 0, 3};

static int others_are_zero(const struct fikarehu_loaded *loaded) {
    return loaded->bays == 0 && memcmp(loaded->types, zeros, sizeof loaded->types) == 0 && loaded->length == 0;
}

/* The end of an out buffer against a page that traps. */
static uint8_t *out_end(void) {
    static uint8_t *end;
    if (end == NULL) {
        end = end_before_trap(ROOM);
    }
    return end;
}

static void expect_refusal(const char *what, const uint8_t *recipe, size_t length, size_t out_length,
                           uint32_t refusal) {
    uint8_t *out = out_end() - out_length;
    fill(out, out_length);
    struct fikarehu_loaded loaded = load(recipe, length, out, out_length);
    CHECK(loaded.refusal == refusal, "%s into %zu: refusal %u, expected %u", what, out_length, loaded.refusal, refusal);
    CHECK(others_are_zero(&loaded), "%s into %zu: a refusal with other fields than 0", what, out_length);
    CHECK(kept(out, 0, out_length), "%s into %zu: the out buffer was written", what, out_length);
}

static void case_a_into(size_t out_length) {
    uint8_t *out = out_end() - out_length;
    fill(out, out_length);
    struct fikarehu_loaded loaded = load(case_a, sizeof case_a, out, out_length);
    CHECK(loaded.refusal == 0 && loaded.bays == 1, "case A: refusal %u, %u bays", loaded.refusal, loaded.bays);
    CHECK(loaded.length == sizeof image_a, "case A: length %llu", (unsigned long long)loaded.length);
    CHECK(memcmp(out, image_a, sizeof image_a) == 0, "case A: another image");
    CHECK(kept(out, sizeof image_a, out_length), "case A: written beyond the image");
}

static void short_buffers(void) {
    static const size_t lengths[] = {0, 1, 17, 18, 19, FIKAREHU_MAX_FILE, FIKAREHU_MAX_IMAGE - 1};
    for (size_t i = 0; i < sizeof lengths / sizeof lengths[0]; i++) {
        expect_refusal("case A", case_a, sizeof case_a, lengths[i], FIKAREHU_REFUSED_BUFFER);
        expect_refusal("no recipe", NULL, 0, lengths[i], FIKAREHU_REFUSED_BUFFER);
    }
    struct fikarehu_loaded loaded = load(NULL, 0, NULL, 0);
    CHECK(loaded.refusal == FIKAREHU_REFUSED_BUFFER, "no recipe and no buffer: refusal %u", loaded.refusal);
}

static void refused_recipes(void) {
    uint8_t changed[sizeof case_a];
    expect_refusal("no recipe", NULL, 0, FIKAREHU_MAX_IMAGE, FIKAREHU_REFUSED_FILE_LENGTH);
    expect_refusal("eleven bytes", case_a, FIKAREHU_MIN_FILE - 1, FIKAREHU_MAX_IMAGE, FIKAREHU_REFUSED_FILE_LENGTH);
    memcpy(changed, case_a, sizeof case_a);
    changed[1] = 0x47;
    expect_refusal("another second byte", changed, sizeof changed, FIKAREHU_MAX_IMAGE, FIKAREHU_REFUSED_OPENING);
    memcpy(changed, case_a, sizeof case_a);
    changed[sizeof case_a - 1] = FIKAREHU_TAG_NAME + 1;
    expect_refusal("an unknown tag", changed, sizeof changed, FIKAREHU_MAX_IMAGE, FIKAREHU_REFUSED_NO_TERM);
}

/* The image of the lambdas: two names for each bay; a setting has three bytes. */
enum { LAMBDA_IMAGE = FIKAREHU_FIRST_HEAD + LAMBDA_BAYS * (2 * FIKAREHU_HEAD_LENGTH + 3 + 2 * LAMBDAS + 1) };

/* The deepest cases, each with its pair and the two variables that it binds. */
static void deepest_cases(void) {
    static struct file file;
    make_cases(&file);
    uint8_t *out = out_end() - FIKAREHU_MAX_IMAGE;
    fill(out, FIKAREHU_MAX_IMAGE);
    struct fikarehu_loaded loaded = load(file.bytes, file.length, out, FIKAREHU_MAX_IMAGE);
    CHECK(loaded.refusal == 0 && loaded.bays == CASE_BAYS, "cases: refusal %u, %u bays", loaded.refusal, loaded.bays);
    CHECK(kept(out, loaded.length, FIKAREHU_MAX_IMAGE), "cases: written beyond the image");
}

/* The files that take most of the stack. */
static void worst_recipes(void) {
    static struct file file;
    deepest_cases();
    make_full(&file, FIKAREHU_TAG_APPLICATION, FIKAREHU_TAG_APPLICATION);
    expect_refusal("applications and nothing else", file.bytes, file.length, FIKAREHU_MAX_IMAGE,
                   FIKAREHU_REFUSED_NO_TERM);
    make_balanced(&file);
    expect_refusal("applications closed by units", file.bytes, file.length, FIKAREHU_MAX_IMAGE,
                   FIKAREHU_REFUSED_TERM_SIZE);
    make_lambdas(&file);
    uint8_t *out = out_end() - FIKAREHU_MAX_IMAGE;
    fill(out, FIKAREHU_MAX_IMAGE);
    struct fikarehu_loaded loaded = load(file.bytes, file.length, out, FIKAREHU_MAX_IMAGE);
    CHECK(loaded.refusal == 0 && loaded.bays == LAMBDA_BAYS, "lambdas: refusal %u, %u bays", loaded.refusal,
          loaded.bays);
    CHECK(loaded.length == LAMBDA_IMAGE, "lambdas: length %llu", (unsigned long long)loaded.length);
    CHECK(kept(out, loaded.length, FIKAREHU_MAX_IMAGE), "lambdas: written beyond the image");
}

/* An edition 2 file: its term is copied byte for byte. */
static void edition_2(void) {
    static struct file file;
    static const uint8_t term[] = {12, 10, 3, 3, 3, 0, 1};
    static const uint8_t image[] = {2, 0, 2, 0, 0x0E, 0, 3, 0, 1, 0, 0x11, 0, 7, 0, 4, 0, 0, 12, 10, 3, 3, 3, 0, 1};
    make_2(&file, table_pair, sizeof table_pair, term, sizeof term, 1);
    uint8_t *out = out_end() - FIKAREHU_MAX_IMAGE;
    fill(out, FIKAREHU_MAX_IMAGE);
    struct fikarehu_loaded loaded = load(file.bytes, file.length, out, FIKAREHU_MAX_IMAGE);
    CHECK(loaded.refusal == 0 && loaded.bays == 1 && loaded.types[0] == 0, "edition 2: refusal %u, %u bays",
          loaded.refusal, loaded.bays);
    CHECK(loaded.length == sizeof image, "edition 2: length %llu", (unsigned long long)loaded.length);
    CHECK(memcmp(out, image, sizeof image) == 0, "edition 2: another image");
    CHECK(kept(out, sizeof image, FIKAREHU_MAX_IMAGE), "edition 2: written beyond the image");
    file.bytes[2] = EDITION_1;
    expect_refusal("edition 1 with a pair type", file.bytes, file.length, FIKAREHU_MAX_IMAGE,
                   FIKAREHU_REFUSED_TYPE_ENTRY);
}

#define BYTES(...) ((const uint8_t[]){__VA_ARGS__}), sizeof((const uint8_t[]){__VA_ARGS__})

/* The load of a file comes to that image, and leaves the bytes beyond it. */
static void expect_image(const char *what, const struct file *file, uint32_t bays, const uint8_t *image,
                         size_t length) {
    uint8_t *out = out_end() - FIKAREHU_MAX_IMAGE;
    fill(out, FIKAREHU_MAX_IMAGE);
    struct fikarehu_loaded loaded = load(file->bytes, file->length, out, FIKAREHU_MAX_IMAGE);
    CHECK(loaded.refusal == 0 && loaded.bays == bays, "%s: refusal %u, %u bays", what, loaded.refusal, loaded.bays);
    CHECK(loaded.length == length, "%s: length %llu, expected %zu", what, (unsigned long long)loaded.length, length);
    CHECK(memcmp(out, image, length) == 0, "%s: another image", what);
    CHECK(kept(out, length, FIKAREHU_MAX_IMAGE), "%s: written beyond the image", what);
}

/* T5 of document 01. */
static const uint8_t table_5[] = {0, 0, 0, 1, 0, 0, 2, 1, 0, 4, 1, 1, 4, 2, 3};

/* Settings start with the nums of the starting part, low byte first. */
static void starting_nums(void) {
    static struct file file;
    make_3(&file, table_a, sizeof table_a, BYTES(0, 0), BYTES(3), 1);
    expect_image("case A from 0", &file, 1, image_a, sizeof image_a);
    make_3(&file, table_a, sizeof table_a, BYTES(0xFA, 0), BYTES(3), 1);
    expect_image("case A from 250", &file, 1, BYTES(2, 0, 2, 0, 14, 0, 3, 0, 1, 0, 17, 0, 1, 0, 4, 0xFA, 0, 3));
    make_3(&file, table_5, sizeof table_5, BYTES(0xFA, 0), BYTES(2, 2, 6, 4, 9, 0, 4, 0xFA, 0), 1);
    expect_image("case B from 250", &file, 1,
                 BYTES(2, 0, 2, 0, 14, 0, 3, 0, 1, 0, 17, 0, 9, 0, 4, 0xFA, 0, 2, 2, 6, 4, 9, 0, 4, 0xFA, 0));
    make_3(&file, table_a, sizeof table_a, BYTES(0xFF, 0xFF, 0, 1), BYTES(3), 2);
    expect_image("two bays from 65,535 and 256", &file, 2,
                 BYTES(4, 0, 2, 0, 26, 0, 3, 0, 2, 1, 29, 0, 3, 0, 1, 0, 32, 0, 1, 0, 1, 1, 33, 0, 1, 0, 4, 0xFF, 0xFF, 4, 0,
                       1, 3, 3));
}

/* Sixteen bays, each from another num: the settings lie behind the heads, three bytes each. */
static void sixteen_starting_nums(void) {
    static struct file file;
    uint8_t starting[2 * FIKAREHU_MAX_BAYS];
    for (size_t at = 0; at < sizeof starting; at++) {
        starting[at] = (uint8_t)(0x11 + 7 * at);
    }
    make_3(&file, table_a, sizeof table_a, starting, sizeof starting, BYTES(3), FIKAREHU_MAX_BAYS);
    uint8_t *out = out_end() - FIKAREHU_MAX_IMAGE;
    struct fikarehu_loaded loaded = load(file.bytes, file.length, out, FIKAREHU_MAX_IMAGE);
    CHECK(loaded.refusal == 0 && loaded.bays == FIKAREHU_MAX_BAYS, "sixteen bays: refusal %u", loaded.refusal);
    const uint8_t *setting = out + FIKAREHU_FIRST_HEAD + 2 * FIKAREHU_MAX_BAYS * FIKAREHU_HEAD_LENGTH;
    for (size_t bay = 0; bay < FIKAREHU_MAX_BAYS; bay++, setting += 3) {
        CHECK(setting[0] == FIKAREHU_TAG_NUM && memcmp(setting + 1, starting + 2 * bay, 2) == 0,
              "bay %zu: num %u", bay, setting[1] + 256u * setting[2]);
    }
}

/* A setting and a first thread belong to their bay: the companion bytes of names k and b + k are k. */
static void owners(void) {
    static struct file file;
    for (size_t bays = 1; bays <= FIKAREHU_MAX_BAYS; bays++) {
        make(&file, table_a, sizeof table_a, BYTES(3), bays);
        const uint8_t *out = out_end() - FIKAREHU_MAX_IMAGE;
        load(file.bytes, file.length, out_end() - FIKAREHU_MAX_IMAGE, FIKAREHU_MAX_IMAGE);
        for (size_t name = 0; name < 2 * bays; name++) {
            const uint8_t *head = out + FIKAREHU_FIRST_HEAD + FIKAREHU_HEAD_LENGTH * name;
            const uint8_t kind = name < bays ? FIKAREHU_KIND_CELL : FIKAREHU_KIND_THREAD;
            CHECK(head[0] == kind && head[1] == name % bays, "name %zu of %zu bays: kind %u, owner %u", name, bays, head[0],
                  head[1]);
        }
    }
}

/* Bays that name another's setting: in the common profile they may. */
static void settings_of_others(void) {
    static struct file file;
    make(&file, table_5, sizeof table_5, BYTES(2, 2, 6, 4, 9, 1, 4, 0xFA, 0), 2);
    expect_image("two bays", &file, 2,
                 BYTES(4, 0, 2, 0, 26, 0, 3, 0, 2, 1, 29, 0, 3, 0, 1, 0, 32, 0, 9, 0, 1, 1, 41, 0, 9, 0, 4, 0, 0, 4, 0, 0, 2, 2,
                       6, 4, 9, 1, 4, 0xFA, 0, 2, 2, 6, 4, 9, 1, 4, 0xFA, 0));
}

/* "an edition 3 file of zeros loads the same image as its edition 2 twin" */
static void expect_twins(const char *what, const struct file *file, size_t bays) {
    static struct file twin;
    static uint8_t image[FIKAREHU_MAX_IMAGE];
    make_twin(&twin, file, zeros, 2 * bays);
    CHECK(twin.length == file->length + 4 + 2 * bays, "%s: the twin has %zu bytes", what, twin.length);
    struct fikarehu_loaded loaded = load(file->bytes, file->length, image, sizeof image);
    expect_image(what, &twin, loaded.bays, image, loaded.length);
}

static void twins(void) {
    static struct file file;
    make_2(&file, table_a, sizeof table_a, BYTES(3), 1);
    expect_twins("case A", &file, 1);
    make_2(&file, table_5, sizeof table_5, BYTES(2, 2, 6, 4, 9, 0, 4, 0xFA, 0), 1);
    expect_twins("case B", &file, 1);
    make_2(&file, table_a, sizeof table_a, BYTES(3), FIKAREHU_MAX_BAYS);
    expect_twins("sixteen bays", &file, FIKAREHU_MAX_BAYS);
    make_lambdas(&file);
    expect_twins("lambdas", &file, LAMBDA_BAYS);
    make_cases(&file);
    expect_twins("cases", &file, CASE_BAYS);
}

static void twins_with_settings_of_others(void) {
    static struct file file;
    make_2(&file, table_5, sizeof table_5, BYTES(2, 2, 6, 4, 9, 0, 4, 0xFA, 0), 9);
    expect_twins("case B in nine bays", &file, 9);
    make_2(&file, table_a, sizeof table_a, BYTES(9, 15), FIKAREHU_MAX_BAYS);
    expect_twins("sixteen bays", &file, FIKAREHU_MAX_BAYS);
}

/* A starting part of another length, after all other causes; 12 comes before it. */
static void starting_parts_of_other_lengths(void) {
    static struct file file;
    make_3(&file, table_a, sizeof table_a, BYTES(0xFA), BYTES(3), 1);
    expect_refusal("a byte short", file.bytes, file.length, FIKAREHU_MAX_IMAGE, FIKAREHU_REFUSED_STARTING);
    expect_refusal("a byte short", file.bytes, file.length, FIKAREHU_MAX_IMAGE - 1, FIKAREHU_REFUSED_BUFFER);
    expect_refusal("a byte short", file.bytes, file.length, 0, FIKAREHU_REFUSED_BUFFER);
    make_3(&file, table_a, sizeof table_a, BYTES(0xFA, 0, 0), BYTES(3), 1);
    expect_refusal("a byte over", file.bytes, file.length, FIKAREHU_MAX_IMAGE, FIKAREHU_REFUSED_STARTING);
    make_3(&file, table_a, sizeof table_a, BYTES(0xFA, 0, 1), BYTES(3), 2);
    expect_refusal("three bytes for two bays", file.bytes, file.length, FIKAREHU_MAX_IMAGE, FIKAREHU_REFUSED_STARTING);
    make_3(&file, table_a, sizeof table_a, NULL, 0, BYTES(3), 1);
    expect_refusal("no byte", file.bytes, file.length, FIKAREHU_MAX_IMAGE, FIKAREHU_REFUSED_LAYOUT);
    make_3(&file, table_a, sizeof table_a, BYTES(0xFA), BYTES(2, 3, 3), 1);
    expect_refusal("a byte short and unit applied", file.bytes, file.length, FIKAREHU_MAX_IMAGE, FIKAREHU_REFUSED_TYPE);
}

static void *on_a_thread(void *nothing) {
    case_a_into(FIKAREHU_MAX_IMAGE);
    case_a_into(FIKAREHU_MAX_IMAGE + 1);
    case_a_into(ROOM);
    refused_recipes();
    edition_2();
    starting_nums();
    sixteen_starting_nums();
    owners();
    twins();
    starting_parts_of_other_lengths();
    worst_recipes();
    return nothing;
}

int main(void) {
    load = fikarehu_load_separate;
    short_buffers();
    on_a_thread(NULL);
    on_small_stack(SMALL_STACK, on_a_thread, NULL);
    load = fikarehu_load;
    short_buffers();
    on_a_thread(NULL);
    on_small_stack(SMALL_STACK, on_a_thread, NULL);
    settings_of_others();
    twins_with_settings_of_others();
    return finish();
}
