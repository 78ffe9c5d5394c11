/*
 * The check called from C. Prints failures and a last line with the number of checks.
 *
 *   cc -std=c11 -O2 -Wall -Wextra -Werror -pthread tests/calls.c target/staticlib/libfikarehu.a -o calls && ./calls
 */
#define _GNU_SOURCE
#include "files.h"

#include "../include/fikarehu.h"

/* T7 of document 01. */
static const uint8_t table_7[] = {0, 0, 0, 1, 0, 0, 2, 1, 0, 3, 1, 0, 4, 3, 0, 4, 1, 4, 4, 5, 0};

/* The verdict on bytes placed against a page that traps. */
static struct fikarehu_verdict check_guarded(const uint8_t *bytes, size_t length) {
    static uint8_t *end;
    if (end == NULL) {
        end = end_before_trap(16 * FIKAREHU_MAX_FILE);
    }
    memcpy(end - length, bytes, length);
    return fikarehu_check(end - length, length);
}

static int others_are_zero(const struct fikarehu_verdict *verdict) {
    return verdict->bays == 0 && memcmp(verdict->types, zeros, sizeof verdict->types) == 0;
}

static void expect_refusal(const char *what, const struct file *file, uint32_t refusal) {
    struct fikarehu_verdict verdict = check_guarded(file->bytes, file->length);
    CHECK(verdict.refusal == refusal, "%s: refusal %u, expected %u", what, verdict.refusal, refusal);
    CHECK(others_are_zero(&verdict), "%s: a refusal with other fields than 0", what);
}

static void expect_accepted(const char *what, const struct file *file, uint32_t bays, uint8_t type) {
    struct fikarehu_verdict verdict = check_guarded(file->bytes, file->length);
    CHECK(verdict.refusal == 0, "%s: refusal %u, expected none", what, verdict.refusal);
    CHECK(verdict.bays == bays, "%s: %u bays, expected %u", what, verdict.bays, bays);
    for (uint32_t bay = 0; bay < FIKAREHU_MAX_BAYS; bay++) {
        uint8_t expected = bay < bays ? type : 0;
        CHECK(verdict.types[bay] == expected, "%s: bay %u has type %u, expected %u", what, bay, verdict.types[bay],
              expected);
    }
}

static struct file scratch;

#define TERM(...) ((const uint8_t[]){__VA_ARGS__}), sizeof((const uint8_t[]){__VA_ARGS__})

static void accepted_files(void) {
    static const uint8_t case_a[] = {0x4C, 0x46, 1, 2, 0x0C, 0, 9, 0, 0x15, 0, 1, 0, 0, 0, 0, 1, 0, 0, 2, 1, 0, 3};
    memcpy(scratch.bytes, case_a, sizeof case_a);
    scratch.length = sizeof case_a;
    expect_accepted("case A", &scratch, 1, 0);
    make(&scratch, table_a, sizeof table_a, TERM(3), FIKAREHU_MAX_BAYS);
    expect_accepted("sixteen bays", &scratch, FIKAREHU_MAX_BAYS, 0);
    make(&scratch, table_a, sizeof table_a, TERM(4, 0xE8, 3), 9);
    expect_accepted("num 1000 in nine bays", &scratch, 9, 1);
    make(&scratch, table_a, sizeof table_a, TERM(4, 0xE9, 3), 1);
    expect_accepted("num 1001", &scratch, 1, 1);
    make(&scratch, table_a, sizeof table_a, TERM(4, 0xFF, 0xFF), 1);
    expect_accepted("num 65535", &scratch, 1, 1);
    make(&scratch, table_7, sizeof table_7, TERM(2, 8, 6, 1, 5, 1, 4, 2, 0, 0, 0, 1), 1);
    expect_accepted("case C", &scratch, 1, 0);
}

static void refused_files(void) {
    make(&scratch, table_a, sizeof table_a, TERM(3), 1);
    scratch.length = FIKAREHU_MIN_FILE - 1;
    expect_refusal("eleven bytes", &scratch, FIKAREHU_REFUSED_FILE_LENGTH);
    make(&scratch, table_a, sizeof table_a, TERM(3), 1);
    scratch.bytes[0] = 0x4D;
    expect_refusal("another first byte", &scratch, FIKAREHU_REFUSED_OPENING);
    make(&scratch, table_a, sizeof table_a, TERM(3), 1);
    scratch.bytes[6] = 10;
    expect_refusal("a length of ten", &scratch, FIKAREHU_REFUSED_LAYOUT);
    make(&scratch, table_a, sizeof table_a, TERM(3), 1);
    scratch.bytes[20] = 1;
    expect_refusal("cell with a q", &scratch, FIKAREHU_REFUSED_TYPE_ENTRY);
    make(&scratch, table_a, sizeof table_a, TERM(4, 0xE9), 1);
    expect_refusal("a num cut", &scratch, FIKAREHU_REFUSED_NO_TERM);
    make(&scratch, table_a, sizeof table_a, TERM(0, 0), 1);
    expect_refusal("case H", &scratch, FIKAREHU_REFUSED_SCOPE);
    make(&scratch, table_7, sizeof table_7, TERM(7, 3), 1);
    expect_refusal("case F", &scratch, FIKAREHU_REFUSED_ANNOTATION);
    make(&scratch, table_a, sizeof table_a, TERM(2, 3, 3), 1);
    expect_refusal("case G", &scratch, FIKAREHU_REFUSED_TYPE);
    make(&scratch, table_7, sizeof table_7, TERM(1, 4, 3), 1);
    expect_refusal("case D", &scratch, FIKAREHU_REFUSED_LINEARITY);
    make(&scratch, table_7, sizeof table_7, TERM(1, 3, 3), 1);
    expect_refusal("case E", &scratch, FIKAREHU_REFUSED_BAY_ONCE);
}

/* 3 num and num, many; 4 list of num, many; 5 num once to unit; 6 the once pair of 5 and num; 7 from 6 to unit;
 * 8 list of num, once; 9 num to num */
static const uint8_t table_2[] = {0, 0, 0, 1, 0, 0, 2, 1, 0, 6, 1, 1, 8, 1, 0, 3, 1, 0, 5, 5, 1, 4, 6, 0, 7, 1, 0, 4, 1, 1};

#define PAIR 10, 3, 4, 1, 0, 4, 2, 0

static void edition_2_files(void) {
    make_2(&scratch, table_a, sizeof table_a, TERM(3), 1);
    expect_accepted("case A in edition 2", &scratch, 1, 0);
    make_2(&scratch, table_2, sizeof table_2, TERM(PAIR), 3);
    expect_accepted("a pair", &scratch, 3, 3);
    make_2(&scratch, table_2, sizeof table_2, TERM(12, PAIR, 0, 0), 1);
    expect_accepted("a pair taken apart", &scratch, 1, 1);
    make_2(&scratch, table_2, sizeof table_2, TERM(1, 7, 12, 0, 0, 2, 0, 1, 0, 0), 1);
    expect_accepted("a handle out of a pair, bound to what is with it", &scratch, 1, 7);
    make_2(&scratch, table_2, sizeof table_2, TERM(1, 7, 12, 0, 0, 3), 1);
    expect_refusal("a handle out of a pair, left", &scratch, FIKAREHU_REFUSED_LINEARITY);
    make_2(&scratch, table_2, sizeof table_2, TERM(12, PAIR, 0, 2), 1);
    expect_refusal("a third variable", &scratch, FIKAREHU_REFUSED_SCOPE);
    make_2(&scratch, table_2, sizeof table_2, TERM(12, 0, 0, 3), 1);
    expect_refusal("a variable in the subject", &scratch, FIKAREHU_REFUSED_SCOPE);
    make_2(&scratch, table_2, sizeof table_2, TERM(10, 10, 4, 1, 0, 4, 2, 0), 1);
    expect_refusal("a pair of no type", &scratch, FIKAREHU_REFUSED_SCOPE);
    make_2(&scratch, table_2, sizeof table_2, TERM(10, 4, 4, 1, 0, 4, 2, 0), 1);
    expect_refusal("a pair that is a list", &scratch, FIKAREHU_REFUSED_ANNOTATION);
    make_2(&scratch, table_2, sizeof table_2, TERM(11, 3, 4, 1, 0, 4, 2, 0), 1);
    expect_refusal("a list front that is a pair", &scratch, FIKAREHU_REFUSED_ANNOTATION);
    make_2(&scratch, table_2, sizeof table_2, TERM(11, 4, 4, 1, 0, 4, 2, 0), 1);
    expect_refusal("a num for the rest of a list", &scratch, FIKAREHU_REFUSED_TYPE);
    make_2(&scratch, table_2, sizeof table_2, TERM(13, PAIR, 3), 1);
    expect_refusal("a pair taken apart as a list", &scratch, FIKAREHU_REFUSED_TYPE);
    make_2(&scratch, table_2, sizeof table_2, TERM(10, 6, 1, 5, 3, 4, 2, 0), 1);
    expect_refusal("a bay with a once pair", &scratch, FIKAREHU_REFUSED_BAY_ONCE);
    make_2(&scratch, table_2, sizeof table_2, TERM(14, 3, 3), 1);
    expect_refusal("tag 14", &scratch, FIKAREHU_REFUSED_NO_TERM);
}

static void edition_2_entries(void) {
    uint8_t table[15];
    static const struct {
        uint8_t entry[3];
        uint32_t refusal;
    } entries[] = {{{5, 3, 0}, 0}, {{6, 3, 0}, 4}, {{6, 0, 3}, 4}, {{7, 3, 0}, 0}, {{8, 3, 0}, 4},
                   {{8, 1, 1}, 4}, {{7, 1, 1}, 4}, {{8, 1, 0}, 0}, {{6, 4, 1}, 4}, {{9, 1, 1}, 4}};
    memcpy(table, table_7, 12);
    for (size_t i = 0; i < sizeof entries / sizeof entries[0]; i++) {
        memcpy(table + 12, entries[i].entry, 3);
        make_2(&scratch, table, sizeof table, TERM(3), 1);
        if (entries[i].refusal == 0) {
            expect_accepted("an entry of edition 2", &scratch, 1, 0);
        } else {
            expect_refusal("an entry of edition 2", &scratch, entries[i].refusal);
        }
        scratch.bytes[2] = EDITION_1;
        expect_refusal("an entry of edition 2 in edition 1", &scratch, FIKAREHU_REFUSED_TYPE_ENTRY);
    }
}

static void edition_1_refuses_as_before(void) {
    for (uint8_t tag = FIKAREHU_TAG_PAIR; tag <= FIKAREHU_TAG_CASE_LIST; tag++) {
        make(&scratch, table_a, sizeof table_a, TERM(tag, 3, 3, 3), 1);
        expect_refusal("a tag of edition 2", &scratch, FIKAREHU_REFUSED_NO_TERM);
    }
}

/* T5 of document 01, and case B's term. */
static const uint8_t table_5[] = {0, 0, 0, 1, 0, 0, 2, 1, 0, 4, 1, 1, 4, 2, 3};

#define CASE_B TERM(2, 2, 6, 4, 9, 0, 4, 0xFA, 0)
#define NOTHING NULL, 0

static void edition_3_files(void) {
    static const uint8_t case_a[] = {0x4C, 0x46, 3, 3, 0x10, 0, 9, 0, 0x19, 0, 2, 0, 0x1B, 0, 1, 0,
                                     0,    0,    0, 1, 0,    0, 2, 1, 0,    0xFA, 0, 3};
    memcpy(scratch.bytes, case_a, sizeof case_a);
    scratch.length = sizeof case_a;
    expect_accepted("case A from 250", &scratch, 1, 0);
    make_3(&scratch, table_a, sizeof table_a, TERM(0, 0), TERM(3), 1);
    expect_accepted("case A from 0", &scratch, 1, 0);
    make_3(&scratch, table_5, sizeof table_5, TERM(0, 0), CASE_B, 1);
    expect_accepted("case B from 0", &scratch, 1, 1);
    make_3(&scratch, table_5, sizeof table_5, TERM(0xFA, 0), CASE_B, 1);
    expect_accepted("case B from 250", &scratch, 1, 1);
    make_3(&scratch, table_5, sizeof table_5, TERM(0xFF, 0xFF, 0, 1), CASE_B, 2);
    expect_accepted("case B in two bays, from 65,535 and 256", &scratch, 2, 1);
    make_3(&scratch, table_2, sizeof table_2, TERM(1, 0, 2, 0, 3, 0), TERM(PAIR), 3);
    expect_accepted("a pair in edition 3", &scratch, 3, 3);
    make_3(&scratch, table_a, sizeof table_a, zeros, 2 * FIKAREHU_MAX_BAYS, TERM(9, 15), FIKAREHU_MAX_BAYS);
    expect_accepted("sixteen bays in edition 3, n being 18", &scratch, FIKAREHU_MAX_BAYS, 2);
    make_3(&scratch, table_7, sizeof table_7, TERM(0xFA, 0), TERM(1, 3, 3), 1);
    expect_refusal("case E from 250", &scratch, FIKAREHU_REFUSED_BAY_ONCE);
}

/* "Its n runs from 3 to 18, else refusal 2"; the others keep 2 to 17. */
static void parts_of_each_edition(void) {
    make(&scratch, table_a, sizeof table_a, TERM(3), 1);
    scratch.bytes[2] = EDITION_3;
    expect_refusal("two parts in edition 3", &scratch, FIKAREHU_REFUSED_OPENING);
    make_3(&scratch, table_a, sizeof table_a, zeros, 2 * (FIKAREHU_MAX_BAYS + 1), TERM(3), FIKAREHU_MAX_BAYS + 1);
    expect_refusal("nineteen parts in edition 3", &scratch, FIKAREHU_REFUSED_OPENING);
    make_2(&scratch, table_a, sizeof table_a, TERM(3), FIKAREHU_MAX_BAYS);
    expect_accepted("seventeen parts in edition 2", &scratch, FIKAREHU_MAX_BAYS, 0);
    make_2(&scratch, table_a, sizeof table_a, TERM(3), FIKAREHU_MAX_BAYS + 1);
    expect_refusal("eighteen parts in edition 2", &scratch, FIKAREHU_REFUSED_OPENING);
    make_3(&scratch, table_a, sizeof table_a, TERM(0xFA, 0), TERM(3), 1);
    scratch.bytes[2] = EDITION_2;
    expect_refusal("a starting part in edition 2", &scratch, FIKAREHU_REFUSED_NO_TERM);
    scratch.bytes[2] = EDITION_3 + 1;
    expect_refusal("edition 4", &scratch, FIKAREHU_REFUSED_OPENING);
}

static void starting_parts_of_other_lengths(void) {
    make_3(&scratch, table_a, sizeof table_a, TERM(0), TERM(3), 1);
    expect_refusal("a byte short", &scratch, FIKAREHU_REFUSED_STARTING);
    make_3(&scratch, table_a, sizeof table_a, TERM(0, 0, 0), TERM(3), 1);
    expect_refusal("a byte over", &scratch, FIKAREHU_REFUSED_STARTING);
    make_3(&scratch, table_a, sizeof table_a, TERM(0, 0, 0, 0), TERM(3), 1);
    expect_refusal("two nums for one bay", &scratch, FIKAREHU_REFUSED_STARTING);
    make_3(&scratch, table_a, sizeof table_a, TERM(0, 0, 0), TERM(3), 2);
    expect_refusal("three bytes for two bays", &scratch, FIKAREHU_REFUSED_STARTING);
    make_3(&scratch, table_a, sizeof table_a, TERM(0, 0), TERM(3), 2);
    expect_refusal("one num for two bays", &scratch, FIKAREHU_REFUSED_STARTING);
    make_3(&scratch, table_a, sizeof table_a, zeros, 2 * FIKAREHU_MAX_BAYS + 2, TERM(3), FIKAREHU_MAX_BAYS);
    expect_refusal("seventeen nums for sixteen bays", &scratch, FIKAREHU_REFUSED_STARTING);
    make_3(&scratch, table_a, sizeof table_a, NOTHING, TERM(3), 1);
    expect_refusal("no byte", &scratch, FIKAREHU_REFUSED_LAYOUT);
    make_3(&scratch, table_a, sizeof table_a, zeros, FIKAREHU_MAX_FILE - 26, TERM(3), 1);
    must(scratch.length == FIKAREHU_MAX_FILE, "the file has 8,192 bytes");
    expect_refusal("the longest", &scratch, FIKAREHU_REFUSED_STARTING);
    make_3(&scratch, table_a, sizeof table_a, zeros, FIKAREHU_MAX_FILE - 25, TERM(3), 1);
    expect_refusal("one longer", &scratch, FIKAREHU_REFUSED_FILE_LENGTH);
}

/* The bays number the parts less two, whatever the length of the starting part. */
static void names_go_by_the_parts(void) {
    make_3(&scratch, table_a, sizeof table_a, TERM(0, 0, 0, 0), TERM(9, 1), 1);
    expect_refusal("two nums, and name 1 of one bay", &scratch, FIKAREHU_REFUSED_SCOPE);
    make_3(&scratch, table_a, sizeof table_a, TERM(0, 0), TERM(9, 1), 2);
    expect_refusal("one num, and name 1 of two bays", &scratch, FIKAREHU_REFUSED_STARTING);
    make_3(&scratch, table_a, sizeof table_a, TERM(0, 0, 0, 0), TERM(9, 1), 2);
    expect_accepted("name 1 of two bays", &scratch, 2, 2);
}

/* Identities applied to unit, of that nesting. */
static size_t nested(uint8_t *term, size_t nesting) {
    size_t at = 0;
    for (size_t level = 0; level + 2 < nesting; level++) {
        memcpy(term + at, (const uint8_t[]){2, 1, 3, 0, 0}, 5);
        at += 5;
    }
    term[at] = FIKAREHU_TAG_UNIT;
    return at + 1;
}

static void nesting_at_the_limit(void) {
    uint8_t term[600];
    make(&scratch, table_unit, sizeof table_unit, term, nested(term, FIKAREHU_MAX_NESTING), 1);
    expect_accepted("nesting 100", &scratch, 1, 0);
    make(&scratch, table_unit, sizeof table_unit, term, nested(term, FIKAREHU_MAX_NESTING + 1), 1);
    expect_refusal("nesting 101", &scratch, FIKAREHU_REFUSED_TERM_SIZE);
    make(&scratch, table_unit, sizeof table_unit, term, nested(term, 23), FIKAREHU_MAX_BAYS);
    expect_accepted("1,024 nodes", &scratch, FIKAREHU_MAX_BAYS, 0);
    make(&scratch, table_unit, sizeof table_unit, term, nested(term, 24), FIKAREHU_MAX_BAYS);
    expect_refusal("1,072 nodes", &scratch, FIKAREHU_REFUSED_TERM_SIZE);
}

/* "tried after 11": a starting part of one byte for one bay, and each cause from 4 on. */
static void starting_part_after_the_others(void) {
    static const uint8_t equal[] = {0, 0, 0, 1, 0, 0, 2, 1, 0, 2, 1, 0};
    uint8_t deep[600];
    const size_t deep_len = nested(deep, FIKAREHU_MAX_NESTING + 1);
    const struct {
        const uint8_t *table;
        size_t table_len;
        const uint8_t *term;
        size_t term_len;
        uint32_t refusal;
    } rows[] = {
        {equal, sizeof equal, TERM(3), FIKAREHU_REFUSED_TYPE_ENTRY},
        {table_a, sizeof table_a, TERM(14), FIKAREHU_REFUSED_NO_TERM},
        {table_unit, sizeof table_unit, deep, deep_len, FIKAREHU_REFUSED_TERM_SIZE},
        {table_a, sizeof table_a, TERM(0, 0), FIKAREHU_REFUSED_SCOPE},
        {table_7, sizeof table_7, TERM(7, 3), FIKAREHU_REFUSED_ANNOTATION},
        {table_a, sizeof table_a, TERM(2, 3, 3), FIKAREHU_REFUSED_TYPE},
        {table_7, sizeof table_7, TERM(1, 4, 3), FIKAREHU_REFUSED_LINEARITY},
        {table_7, sizeof table_7, TERM(1, 3, 3), FIKAREHU_REFUSED_BAY_ONCE},
        {table_a, sizeof table_a, TERM(3), FIKAREHU_REFUSED_STARTING},
    };
    for (size_t i = 0; i < sizeof rows / sizeof rows[0]; i++) {
        make_3(&scratch, rows[i].table, rows[i].table_len, TERM(0), rows[i].term, rows[i].term_len, 1);
        expect_refusal("a starting part of one byte", &scratch, rows[i].refusal);
    }
}

/* The worst files as twins, which are longer; a full one is then too long. */
static void worst_twins(void) {
    static struct file file;
    make_lambdas(&file);
    make_twin(&scratch, &file, zeros, 2 * LAMBDA_BAYS);
    expect_accepted("the lambdas' twin", &scratch, LAMBDA_BAYS, OUTER_TYPE);
    make_cases(&file);
    make_twin(&scratch, &file, zeros, 2 * CASE_BAYS);
    expect_accepted("the cases' twin", &scratch, CASE_BAYS, 0);
    make_twin(&scratch, &file, zeros, 2 * CASE_BAYS - 1);
    expect_refusal("the cases' twin with a byte less", &scratch, FIKAREHU_REFUSED_STARTING);
    make_balanced(&file);
    make_twin(&scratch, &file, zeros, 2);
    expect_refusal("the twin of a full file", &scratch, FIKAREHU_REFUSED_FILE_LENGTH);
}

static void worst_files(void) {
    make_full(&scratch, FIKAREHU_TAG_APPLICATION, FIKAREHU_TAG_APPLICATION);
    expect_refusal("applications and nothing else", &scratch, FIKAREHU_REFUSED_NO_TERM);
    make_full(&scratch, FIKAREHU_TAG_APPLICATION, FIKAREHU_TAG_NAME + 1);
    expect_refusal("applications and an unknown tag", &scratch, FIKAREHU_REFUSED_NO_TERM);
    make_full(&scratch, FIKAREHU_TAG_LAMBDA, FIKAREHU_TAG_LAMBDA);
    expect_refusal("lambdas and nothing else", &scratch, FIKAREHU_REFUSED_NO_TERM);
    make_full(&scratch, FIKAREHU_TAG_UNIT, FIKAREHU_TAG_UNIT);
    expect_refusal("units", &scratch, FIKAREHU_REFUSED_NO_TERM);
    make_balanced(&scratch);
    expect_refusal("applications closed by units", &scratch, FIKAREHU_REFUSED_TERM_SIZE);
    make_lambdas(&scratch);
    expect_accepted("99 lambdas in ten bays, 256 entries", &scratch, LAMBDA_BAYS, OUTER_TYPE);
    make_cases(&scratch);
    expect_accepted("98 cases in two bays", &scratch, CASE_BAYS, 0);
    make_full(&scratch, FIKAREHU_TAG_CASE_LIST, FIKAREHU_TAG_CASE_LIST);
    scratch.bytes[2] = EDITION_2;
    expect_refusal("cases and nothing else", &scratch, FIKAREHU_REFUSED_NO_TERM);
    worst_twins();
    nesting_at_the_limit();
}

static void *worst_files_on_a_thread(void *nothing) {
    worst_files();
    return nothing;
}

static void no_bytes(void) {
    struct fikarehu_verdict verdict = fikarehu_check(NULL, 0);
    CHECK(verdict.refusal == FIKAREHU_REFUSED_FILE_LENGTH, "NULL with length 0: refusal %u", verdict.refusal);
    CHECK(others_are_zero(&verdict), "NULL with length 0: other fields than 0");
}

/* Every beginning of the file, and the file with one byte more, against the page that traps. */
static void every_beginning(const char *what) {
    size_t whole = scratch.length;
    for (size_t length = 0; length < whole; length++) {
        scratch.length = length;
        expect_refusal(what, &scratch,
                       length < FIKAREHU_MIN_FILE ? FIKAREHU_REFUSED_FILE_LENGTH : FIKAREHU_REFUSED_LAYOUT);
    }
    scratch.bytes[whole] = 3;
    scratch.length = whole + 1;
    expect_refusal(what, &scratch, FIKAREHU_REFUSED_LAYOUT);
}

#define CASE_C TERM(2, 8, 6, 1, 5, 1, 4, 2, 0, 0, 0, 1)

static void beginnings(void) {
    make(&scratch, table_7, sizeof table_7, CASE_C, 1);
    every_beginning("case C cut, or with a byte over");
    make_3(&scratch, table_7, sizeof table_7, TERM(0xFA, 0), CASE_C, 1);
    every_beginning("case C in edition 3 cut, or with a byte over");
}

/* Lengths past the limit, up to far more than two bytes can tell. */
static void too_long(void) {
    make(&scratch, table_a, sizeof table_a, TERM(3), 1);
    for (size_t length = FIKAREHU_MAX_FILE; length <= sizeof scratch.bytes; length *= 2) {
        scratch.length = length;
        expect_refusal("a long file", &scratch,
                       length == FIKAREHU_MAX_FILE ? FIKAREHU_REFUSED_LAYOUT : FIKAREHU_REFUSED_FILE_LENGTH);
    }
}

int main(void) {
    accepted_files();
    refused_files();
    edition_2_files();
    edition_2_entries();
    edition_1_refuses_as_before();
    edition_3_files();
    parts_of_each_edition();
    starting_parts_of_other_lengths();
    names_go_by_the_parts();
    starting_part_after_the_others();
    no_bytes();
    beginnings();
    too_long();
    worst_files();
    on_small_stack(SMALL_STACK, worst_files_on_a_thread, NULL);
    return finish();
}
