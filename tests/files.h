/* Recipe files that the C tests build, and the worst of them for the stack. */
#ifndef FIKAREHU_TESTS_FILES_H
#define FIKAREHU_TESTS_FILES_H

#include "../include/fikarehu.h"
#include "check.h"

enum { MOST_TABLE = FIKAREHU_ENTRY_LENGTH * FIKAREHU_MAX_ENTRIES };

/* Case A's table, and with it a many function from unit to unit. */
static const uint8_t table_a[] = {0, 0, 0, 1, 0, 0, 2, 1, 0};
static const uint8_t table_unit[] = {0, 0, 0, 1, 0, 0, 2, 1, 0, 4, 0, 0};

/* Byte 2 of a file. */
enum { EDITION_1 = 1, EDITION_2 = 2, EDITION_3 = 3 };

struct file {
    uint8_t bytes[16 * FIKAREHU_MAX_FILE];
    size_t length;
};

/* The opening bytes, and room for that many pairs. */
static void open_file(struct file *file, uint8_t edition, size_t parts) {
    memcpy(file->bytes, (const uint8_t[]){0x4C, 0x46, edition, (uint8_t)parts}, 4);
    file->length = 4 + 4 * parts;
}

/* The next part, at the end of the file, and its pair. */
static void put_part(struct file *file, size_t part, const uint8_t *bytes, size_t length) {
    uint8_t *pair = file->bytes + 4 + 4 * part;
    must(file->length + length <= sizeof file->bytes, "the file is too long");
    pair[0] = (uint8_t)file->length;
    pair[1] = (uint8_t)(file->length >> 8);
    pair[2] = (uint8_t)length;
    pair[3] = (uint8_t)(length >> 8);
    if (length > 0) {
        memcpy(file->bytes + file->length, bytes, length);
    }
    file->length += length;
}

/* A file whose every bay has the same term. */
static void make(struct file *file, const uint8_t *table, size_t table_len, const uint8_t *term, size_t term_len,
                 size_t bays) {
    open_file(file, EDITION_1, bays + 1);
    put_part(file, 0, table, table_len);
    for (size_t bay = 0; bay < bays; bay++) {
        put_part(file, 1 + bay, term, term_len);
    }
}

/* A term for a bay. */
struct term {
    const uint8_t *bytes;
    size_t length;
};

#define BAYS(...) ((const struct term[]){__VA_ARGS__}), sizeof((const struct term[]){__VA_ARGS__}) / sizeof(struct term)

/* A file of that edition with these terms, without a starting part. */
static inline void make_terms(struct file *file, uint8_t edition, const uint8_t *table, size_t table_len,
                              const struct term *terms, size_t bays) {
    open_file(file, edition, bays + 1);
    put_part(file, 0, table, table_len);
    for (size_t bay = 0; bay < bays; bay++) {
        put_part(file, 1 + bay, terms[bay].bytes, terms[bay].length);
    }
}

/* The twin of a file of edition 1 or 2: edition 3, its parts, and that starting part behind the type table. */
static inline void make_twin(struct file *twin, const struct file *file, const uint8_t *starting, size_t starting_len) {
    size_t parts = file->bytes[3];
    open_file(twin, EDITION_3, parts + 1);
    for (size_t part = 0; part < parts; part++) {
        const uint8_t *pair = file->bytes + 4 + 4 * part;
        size_t offset = pair[0] + 256u * pair[1], length = pair[2] + 256u * pair[3];
        put_part(twin, part == 0 ? 0 : part + 1, file->bytes + offset, length);
        if (part == 0) {
            put_part(twin, 1, starting, starting_len);
        }
    }
}

/* The deepest lambdas, in as many bays as the nodes allow and with all entries. */
enum {
    LAMBDAS = FIKAREHU_MAX_NESTING - 1,
    OUTER_TYPE = LAMBDAS + 2,
    LAMBDA_BAYS = FIKAREHU_MAX_RECIPE_NODES / FIKAREHU_MAX_NESTING
};

/* Each lambda takes unit, and its result is the next. */
static inline void make_lambdas(struct file *file) {
    uint8_t table[MOST_TABLE];
    uint8_t term[2 * LAMBDAS + 1];
    memcpy(table, table_unit, sizeof table_unit);
    for (size_t number = 4; number < FIKAREHU_MAX_ENTRIES; number++) {
        const uint8_t entry[] = {FIKAREHU_TYPE_MANY, FIKAREHU_UNIT_ENTRY, (uint8_t)(number - 1)};
        memcpy(table + FIKAREHU_ENTRY_LENGTH * number, entry, sizeof entry);
    }
    for (size_t level = 0; level < LAMBDAS; level++) {
        term[2 * level] = FIKAREHU_TAG_LAMBDA;
        term[2 * level + 1] = (uint8_t)(OUTER_TYPE - level);
    }
    term[2 * LAMBDAS] = FIKAREHU_TAG_UNIT;
    make(file, table, sizeof table, term, sizeof term, LAMBDA_BAYS);
}

/* A file as `make` makes it, of edition 2. */
static inline void make_2(struct file *file, const uint8_t *table, size_t table_len, const uint8_t *term,
                          size_t term_len, size_t bays) {
    make(file, table, table_len, term, term_len, bays);
    file->bytes[2] = EDITION_2;
}

/* A file as `make` makes it, of edition 3 with that starting part. */
static inline void make_3(struct file *file, const uint8_t *table, size_t table_len, const uint8_t *starting,
                          size_t starting_len, const uint8_t *term, size_t term_len, size_t bays) {
    static struct file twin;
    make_2(&twin, table, table_len, term, term_len, bays);
    make_twin(file, &twin, starting, starting_len);
}

/* Zeros, for the starting parts of twins. */
static const uint8_t zeros[FIKAREHU_MAX_FILE];

/* Case A's table, and with it a many pair of unit and unit: type 3. */
static const uint8_t table_pair[] = {0, 0, 0, 1, 0, 0, 2, 1, 0, FIKAREHU_TYPE_MANY_PAIR, 0, 0};

/* The deepest cases: the body of each is the next; the components of the last one's pair are at the limit. */
enum { CASES = FIKAREHU_MAX_NESTING - 2, CASE_LENGTH = 5, CASE_BAYS = 2 };

static inline void make_cases(struct file *file) {
    static const uint8_t level[CASE_LENGTH] = {FIKAREHU_TAG_CASE_PAIR, FIKAREHU_TAG_PAIR, 3, FIKAREHU_TAG_UNIT,
                                               FIKAREHU_TAG_UNIT};
    uint8_t term[CASE_LENGTH * CASES + 2];
    for (size_t at = 0; at < CASES; at++) {
        memcpy(term + CASE_LENGTH * at, level, sizeof level);
    }
    term[CASE_LENGTH * CASES] = FIKAREHU_TAG_VARIABLE;
    term[CASE_LENGTH * CASES + 1] = 2 * CASES - 1;
    make_2(file, table_pair, sizeof table_pair, term, sizeof term, CASE_BAYS);
}

/* A file of 8,192 bytes whose one term fills it with that byte, its last byte another one. */
static inline void make_full(struct file *file, uint8_t tag, uint8_t last) {
    static uint8_t term[FIKAREHU_MAX_FILE];
    size_t length = FIKAREHU_MAX_FILE - 12 - sizeof table_a;
    memset(term, tag, length);
    term[length - 1] = last;
    make(file, table_a, sizeof table_a, term, length, 1);
    must(file->length == FIKAREHU_MAX_FILE, "the file has 8,192 bytes");
}

/* Half applications and half units: one term of 8,171 bytes, nested more than 4,000 deep. */
static inline void make_balanced(struct file *file) {
    static uint8_t term[FIKAREHU_MAX_FILE];
    size_t length = FIKAREHU_MAX_FILE - 12 - sizeof table_a;
    memset(term, FIKAREHU_TAG_APPLICATION, length / 2);
    memset(term + length / 2, FIKAREHU_TAG_UNIT, length - length / 2);
    make(file, table_a, sizeof table_a, term, length, 1);
}

#endif
