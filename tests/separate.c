/*
 * The separate profile called from C, where it differs from the common one: settings of others, shares. Prints failures and a last line
 * with the number of checks.
 *
 *   cc -std=c11 -O2 -Wall -Wextra -Werror -pthread tests/separate.c target/staticlib/libfikarehu.a -o separate && ./separate
 */
#define _GNU_SOURCE
#include "files.h"
#include "images.h"
#include "pattern.h"

#include "../include/fikarehu.h"

/* A bay's share of the names and of the nodes, with that many bays. */
static size_t names_share(size_t bays) { return FIKAREHU_MAX_NAMES / bays; }
static size_t nodes_share(size_t bays) { return FIKAREHU_MAX_NODES / bays; }

/* The bytes placed against a page that traps. */
static const uint8_t *place(const uint8_t *bytes, size_t length) {
    static uint8_t *end;
    if (end == NULL) {
        end = end_before_trap(sizeof(struct file));
    }
    if (length > 0) {
        memcpy(end - length, bytes, length);
    }
    return end - length;
}

/* The end of an out buffer against a page that traps. */
static uint8_t *out_end(void) {
    static uint8_t *end;
    if (end == NULL) {
        end = end_before_trap(2 * FIKAREHU_MAX_IMAGE);
    }
    return end;
}

/* Loads. */

static void expect_refusal_into(const char *what, const struct file *file, size_t out_length, uint32_t refusal) {
    uint8_t *out = out_end() - out_length;
    fill(out, out_length);
    struct fikarehu_loaded loaded =
        fikarehu_load_separate(place(file->bytes, file->length), file->length, out, out_length);
    CHECK(loaded.refusal == refusal, "%s into %zu: refusal %u, expected %u", what, out_length, loaded.refusal, refusal);
    CHECK(loaded.bays == 0 && memcmp(loaded.types, zeros, sizeof loaded.types) == 0 && loaded.length == 0,
          "%s into %zu: a refusal with other fields than 0", what, out_length);
    CHECK(kept(out, 0, out_length), "%s into %zu: the out buffer was written", what, out_length);
}

static void expect_refusal(const char *what, const struct file *file, uint32_t refusal) {
    expect_refusal_into(what, file, FIKAREHU_MAX_IMAGE, refusal);
}

/* The check and the common load accept the file; the separate load refuses it. */
static void expect_only_separate(const char *what, const struct file *file, uint32_t refusal) {
    static uint8_t image[FIKAREHU_MAX_IMAGE];
    uint32_t checked = fikarehu_check(file->bytes, file->length).refusal;
    uint32_t common = fikarehu_load(file->bytes, file->length, image, sizeof image).refusal;
    CHECK(checked == 0 && common == 0, "%s: checked %u, loaded %u", what, checked, common);
    expect_refusal(what, file, refusal);
}

/* The separate load answers and writes what the common one does. */
static void expect_loaded(const char *what, const struct file *file) {
    static uint8_t image[FIKAREHU_MAX_IMAGE];
    struct fikarehu_loaded common = fikarehu_load(file->bytes, file->length, image, sizeof image);
    uint8_t *out = out_end() - FIKAREHU_MAX_IMAGE;
    fill(out, FIKAREHU_MAX_IMAGE);
    struct fikarehu_loaded loaded =
        fikarehu_load_separate(place(file->bytes, file->length), file->length, out, FIKAREHU_MAX_IMAGE);
    CHECK(loaded.refusal == 0 && common.refusal == 0, "%s: refusal %u, common %u", what, loaded.refusal, common.refusal);
    CHECK(loaded.bays == common.bays && memcmp(loaded.types, common.types, sizeof loaded.types) == 0,
          "%s: other bays or types", what);
    CHECK(loaded.length == common.length && memcmp(out, image, common.length) == 0, "%s: another image", what);
    CHECK(kept(out, loaded.length, FIKAREHU_MAX_IMAGE), "%s: written beyond the image", what);
}

/* 3 unit to unit, 4 from unit to 3, 5 num to num, 6 from setting to 5, 7 a pair of settings, 8 a list of settings, 9 from setting to unit,
 * 10 from 8 to unit; all many. */
static const uint8_t table[] = {0, 0, 0, 1, 0, 0, 2, 1, 0, 4, 0, 0, 4, 0, 3, 4, 1, 1, 4, 2, 5, 6, 2, 2, 8, 2, 0, 4, 2, 0, 4, 8, 0};

#define TERM(...) {(const uint8_t[]){__VA_ARGS__}, sizeof((const uint8_t[]){__VA_ARGS__})}
/* exch (setting K) 250 */
#define SET(k) TERM(2, 2, 6, 6, 9, k, 4, 0xFA, 0)

static const struct term done = TERM(3);
static const struct term names_0 = TERM(9, 0), names_1 = TERM(9, 1), names_2 = TERM(9, 2);
static const struct term sets_0 = SET(0), sets_1 = SET(1), sets_2 = SET(2);

static struct file scratch;

static void make_bays(struct file *file, const struct term *terms, size_t bays) {
    make_terms(file, EDITION_2, table, sizeof table, terms, bays);
}

/* Bays that name their own settings only. */
static void own_settings(void) {
    make_bays(&scratch, BAYS(names_0));
    expect_loaded("one bay", &scratch);
    make_bays(&scratch, BAYS(sets_0, sets_1, sets_2));
    expect_loaded("each its own", &scratch);
    make_bays(&scratch, BAYS(done, names_1, done));
    expect_loaded("the middle one", &scratch);
    uint8_t bytes[FIKAREHU_MAX_BAYS][2];
    struct term terms[FIKAREHU_MAX_BAYS];
    for (size_t bay = 0; bay < FIKAREHU_MAX_BAYS; bay++) {
        memcpy(bytes[bay], (const uint8_t[]){FIKAREHU_TAG_NAME, (uint8_t)bay}, 2);
        terms[bay] = (struct term){bytes[bay], 2};
    }
    make_bays(&scratch, terms, FIKAREHU_MAX_BAYS);
    expect_loaded("sixteen bays", &scratch);
    static struct file twin;
    make_twin(&twin, &scratch, zeros, 2 * FIKAREHU_MAX_BAYS);
    expect_loaded("sixteen bays of edition 3", &twin);
    for (size_t bay = 0; bay < FIKAREHU_MAX_BAYS; bay++) {
        for (uint8_t other = 0; other < FIKAREHU_MAX_BAYS; other++) {
            bytes[bay][1] = other;
            make_bays(&scratch, terms, FIKAREHU_MAX_BAYS);
            if (other == bay) {
                expect_loaded("its own", &scratch);
            } else {
                expect_refusal("another's", &scratch, FIKAREHU_REFUSED_OTHER_SETTING);
            }
        }
        bytes[bay][1] = (uint8_t)bay;
    }
}

/* 20: wherever the other setting stands in the term, also where no step comes to it. Bay 1 has the term, K its own number or another. */
#define PLACES(k)                                                                           \
    {                                                                                       \
        {"the root", TERM(9, k)},                                                           \
        {"an argument", SET(k)},                                                            \
        {"a function's argument", TERM(2, 1, 9, 3, 9, k)},                                  \
        {"under a lambda", TERM(1, 3, 2, 1, 9, 3, 9, k)},                                   \
        {"under a lambda that is applied", TERM(2, 1, 3, 2, 1, 9, 3, 9, k, 3)},             \
        {"under two lambdas", TERM(1, 4, 1, 3, 2, 1, 9, 3, 9, k)},                          \
        {"the first of a pair", TERM(10, 7, 9, k, 9, 1)},                                   \
        {"the second of a pair", TERM(10, 7, 9, 1, 9, k)},                                  \
        {"the front of a list", TERM(1, 10, 2, 1, 10, 3, 11, 8, 9, k, 0, 0)},               \
        {"a subject", TERM(12, 10, 7, 9, 1, 9, k, 3)},                                      \
        {"a body", TERM(12, 10, 7, 9, 1, 9, 1, 9, k)},                                      \
        {"a list's body", TERM(1, 10, 13, 0, 0, 2, 1, 9, 3, 9, k)},                         \
        {"a second name", TERM(2, 2, 6, 6, 9, 1, 2, 2, 6, 6, 9, k, 4, 1, 0)},               \
    }

struct placed {
    const char *what;
    struct term term;
};

static void other_settings(void) {
    const struct placed own[] = PLACES(1), lower[] = PLACES(0), higher[] = PLACES(2);
    for (size_t i = 0; i < sizeof own / sizeof own[0]; i++) {
        make_bays(&scratch, BAYS(done, own[i].term, done));
        expect_loaded(own[i].what, &scratch);
        make_bays(&scratch, BAYS(done, lower[i].term, done));
        expect_only_separate(lower[i].what, &scratch, FIKAREHU_REFUSED_OTHER_SETTING);
        make_bays(&scratch, BAYS(done, higher[i].term, done));
        expect_only_separate(higher[i].what, &scratch, FIKAREHU_REFUSED_OTHER_SETTING);
        static struct file twin;
        make_twin(&twin, &scratch, zeros, 6);
        expect_only_separate("the same in edition 3", &twin, FIKAREHU_REFUSED_OTHER_SETTING);
    }
    make_bays(&scratch, BAYS(sets_1, sets_0));
    expect_only_separate("two that change places", &scratch, FIKAREHU_REFUSED_OTHER_SETTING);
}

/* 12 first: before 1 to 11, 19, 20 and 21. */
static void short_buffers(const struct file *file) {
    static const size_t lengths[] = {0, 1, 18, FIKAREHU_MAX_FILE, FIKAREHU_MAX_IMAGE - 1};
    for (size_t i = 0; i < sizeof lengths / sizeof lengths[0]; i++) {
        expect_refusal_into("a short buffer", file, lengths[i], FIKAREHU_REFUSED_BUFFER);
    }
}

/* Writes a term of that many nodes, many by type: lambdas, and below them applications of lambdas to each other. */
static size_t put_tree(uint8_t *at, size_t nodes) {
    if (nodes == 1) {
        *at = FIKAREHU_TAG_UNIT;
        return 1;
    }
    const size_t left = 1 + 3 * ((nodes - 4) / 6), right = nodes - 2 - left;
    memcpy(at, (const uint8_t[]){FIKAREHU_TAG_APPLICATION, FIKAREHU_TAG_LAMBDA, 3}, 3);
    const size_t length = 3 + put_tree(at + 3, left);
    return length + put_tree(at + length, right);
}

static struct term term_of(uint8_t *room, size_t nodes) {
    size_t lambdas = (nodes - 1) % 3;
    for (size_t level = 0; level < lambdas; level++) {
        memcpy(room + 2 * level, (const uint8_t[]){FIKAREHU_TAG_LAMBDA, (uint8_t)(2 + lambdas - level)}, 2);
    }
    return (struct term){room, 2 * lambdas + put_tree(room + 2 * lambdas, nodes - lambdas)};
}

static uint8_t tree[FIKAREHU_MAX_FILE];

/* A file with that many bays, one of which has a term of so many nodes; the others are done from the start. */
static void make_share(size_t bays, size_t bay, size_t nodes) {
    struct term terms[FIKAREHU_MAX_BAYS];
    for (size_t other = 0; other < bays; other++) {
        terms[other] = done;
    }
    terms[bay] = term_of(tree, nodes);
    make_bays(&scratch, terms, bays);
}

/* 21: the setting is a node of its bay. With 16 bays 255 nodes start, and 256 do not; with four bays or less no recipe is so large. */
static void shares_at_the_start(void) {
    for (size_t bays = 1; bays <= FIKAREHU_MAX_BAYS; bays++) {
        const size_t most = FIKAREHU_MAX_RECIPE_NODES - (bays - 1);
        for (size_t bay = 0; bay < bays; bay++) {
            if (nodes_share(bays) > most) {
                make_share(bays, bay, most);
                expect_loaded("all that a recipe has", &scratch);
            } else {
                make_share(bays, bay, nodes_share(bays) - 1);
                expect_loaded("a bay at its share", &scratch);
                make_share(bays, bay, nodes_share(bays));
                expect_only_separate("a bay above its share", &scratch, FIKAREHU_REFUSED_SHARE);
                short_buffers(&scratch);
            }
        }
    }
    make_share(FIKAREHU_MAX_BAYS, 7, 255);
    expect_loaded("255 nodes of 16 bays", &scratch);
    make_share(FIKAREHU_MAX_BAYS, 7, 256);
    expect_only_separate("256 nodes of 16 bays", &scratch, FIKAREHU_REFUSED_SHARE);
    static struct file twin;
    make_twin(&twin, &scratch, zeros, 2 * FIKAREHU_MAX_BAYS);
    expect_only_separate("the same in edition 3", &twin, FIKAREHU_REFUSED_SHARE);
}

/* 20 before 21, whichever bay comes first. */
static void settings_before_shares(void) {
    struct term terms[FIKAREHU_MAX_BAYS];
    for (size_t named = 0; named < 2; named++) {
        for (size_t bay = 0; bay < FIKAREHU_MAX_BAYS; bay++) {
            terms[bay] = done;
        }
        terms[named] = names_2;
        terms[1 - named] = term_of(tree, 256);
        make_bays(&scratch, terms, FIKAREHU_MAX_BAYS);
        expect_only_separate("another's setting, and above the share", &scratch, FIKAREHU_REFUSED_OTHER_SETTING);
        short_buffers(&scratch);
        terms[named] = done;
        make_bays(&scratch, terms, FIKAREHU_MAX_BAYS);
        expect_only_separate("above the share", &scratch, FIKAREHU_REFUSED_SHARE);
    }
}

/* 1 to 11 and 19 before 20: bay 0 names the setting of bay 1, and bay 1 has another fault. */
static void all_others_before(void) {
    static const uint8_t once[] = {0, 0, 0, 1, 0, 0, 2, 1, 0, 3, 1, 0, 4, 3, 0};
    static const uint8_t equal[] = {0, 0, 0, 1, 0, 0, 2, 1, 0, 2, 1, 0};
    const struct term no_term = TERM(14), no_scope = TERM(0, 0), no_instance = TERM(7, 3), no_function = TERM(2, 3, 3),
                      left = TERM(1, 4, 3), bay_once = TERM(1, 3, 3), too_large = term_of(tree, FIKAREHU_MAX_RECIPE_NODES);
    const struct {
        const uint8_t *table;
        size_t table_len;
        struct term term;
        uint32_t refusal;
    } rows[] = {
        {equal, sizeof equal, done, FIKAREHU_REFUSED_TYPE_ENTRY},
        {once, sizeof once, no_term, FIKAREHU_REFUSED_NO_TERM},
        {table, sizeof table, too_large, FIKAREHU_REFUSED_TERM_SIZE},
        {once, sizeof once, no_scope, FIKAREHU_REFUSED_SCOPE},
        {once, sizeof once, no_instance, FIKAREHU_REFUSED_ANNOTATION},
        {once, sizeof once, no_function, FIKAREHU_REFUSED_TYPE},
        {once, sizeof once, left, FIKAREHU_REFUSED_LINEARITY},
        {once, sizeof once, bay_once, FIKAREHU_REFUSED_BAY_ONCE},
        {once, sizeof once, done, FIKAREHU_REFUSED_OTHER_SETTING},
    };
    static struct file twin;
    for (size_t i = 0; i < sizeof rows / sizeof rows[0]; i++) {
        make_terms(&scratch, EDITION_2, rows[i].table, rows[i].table_len, BAYS(names_1, rows[i].term));
        expect_refusal("another's setting, and another fault", &scratch, rows[i].refusal);
        short_buffers(&scratch);
        make_twin(&twin, &scratch, zeros, 3);
        expect_refusal("the same with a starting part of three bytes", &twin,
                       rows[i].refusal == FIKAREHU_REFUSED_OTHER_SETTING ? FIKAREHU_REFUSED_STARTING : rows[i].refusal);
    }
    make_bays(&scratch, BAYS(names_1, done));
    scratch.length++;
    expect_refusal("a byte more", &scratch, FIKAREHU_REFUSED_LAYOUT);
    scratch.bytes[1] = 0x47;
    expect_refusal("another second byte", &scratch, FIKAREHU_REFUSED_OPENING);
    scratch.length = FIKAREHU_MIN_FILE - 1;
    expect_refusal("eleven bytes", &scratch, FIKAREHU_REFUSED_FILE_LENGTH);
}

/* Steps. */

static uint8_t image[FIKAREHU_MAX_IMAGE];

/* A step that writes nothing. */
static void expect(const char *what, size_t length, uint64_t thread, uint32_t outcome, uint32_t number) {
    uint8_t *out = out_end() - FIKAREHU_MAX_IMAGE;
    fill(out, FIKAREHU_MAX_IMAGE);
    struct fikarehu_stepped stepped =
        fikarehu_step_separate(place(image, length), length, thread, out, FIKAREHU_MAX_IMAGE);
    CHECK(stepped.outcome == outcome && stepped.number == number, "%s: outcome %u, number %u, expected %u and %u", what,
          stepped.outcome, stepped.number, outcome, number);
    CHECK(stepped.length == 0, "%s: length %llu, expected 0", what, (unsigned long long)stepped.length);
    CHECK(kept(out, 0, FIKAREHU_MAX_IMAGE), "%s: the out buffer was written", what);
}

/* A step by that rule, to the image that the common step comes to. */
static void expect_rule(const char *what, size_t length, uint64_t thread, uint32_t rule) {
    static uint8_t common[FIKAREHU_MAX_IMAGE];
    uint8_t *out = out_end() - FIKAREHU_MAX_IMAGE;
    fill(out, FIKAREHU_MAX_IMAGE);
    fill(common, FIKAREHU_MAX_IMAGE);
    struct fikarehu_stepped due = fikarehu_step(image, length, thread, common, sizeof common);
    struct fikarehu_stepped stepped =
        fikarehu_step_separate(place(image, length), length, thread, out, FIKAREHU_MAX_IMAGE);
    CHECK(stepped.outcome == FIKAREHU_RULE && stepped.number == rule, "%s: outcome %u, number %u, expected rule %u", what,
          stepped.outcome, stepped.number, rule);
    CHECK(due.outcome == FIKAREHU_RULE && due.number == rule, "%s: common outcome %u, number %u", what, due.outcome,
          due.number);
    CHECK(stepped.length == due.length && memcmp(out, common, sizeof common) == 0, "%s: another image", what);
}

/* The rule goes in the common profile; in the separate one a bay lacks room. */
static void expect_room(const char *what, size_t length, uint64_t thread, uint32_t rule) {
    static uint8_t common[FIKAREHU_MAX_IMAGE];
    struct fikarehu_stepped due = fikarehu_step(image, length, thread, common, sizeof common);
    CHECK(due.outcome == FIKAREHU_RULE && due.number == rule, "%s: common outcome %u, number %u", what, due.outcome,
          due.number);
    expect(what, length, thread, FIKAREHU_REFUSED, FIKAREHU_REFUSED_ROOM);
}

/* The rule goes where there is room. */
static void expect_if(int room, const char *what, size_t length, uint64_t thread, uint32_t rule) {
    (room ? expect_rule : expect_room)(what, length, thread, rule);
}

static const uint8_t unit[] = {FIKAREHU_TAG_UNIT};

/* The names that an image is made of, and the room for their longer expressions. */
static struct name names[FIKAREHU_MAX_NAMES];
static uint8_t expressions[2][FIKAREHU_MAX_IMAGE];

static struct name thread_of(uint8_t owner, struct term term) {
    return (struct name){FIKAREHU_KIND_THREAD, owner, term.bytes, term.length};
}

static struct name cell_of(uint8_t owner, struct term term) {
    return (struct name){FIKAREHU_KIND_CELL, owner, term.bytes, term.length};
}

/* A name without an expression. */
static struct name bare(uint8_t kind, uint8_t companion) { return (struct name){kind, companion, NULL, 0}; }

/* These bytes, and a value of so many nodes after them: lambdas over unit. */
static struct term with_value(uint8_t *room, struct term front, size_t nodes) {
    memcpy(room, front.bytes, front.length);
    memset(room + front.length, FIKAREHU_TAG_LAMBDA, 2 * (nodes - 1));
    room[front.length + 2 * (nodes - 1)] = FIKAREHU_TAG_UNIT;
    return (struct term){room, front.length + 2 * (nodes - 1) + 1};
}

static size_t write_all(size_t count) { return write_names(image, names, count); }

/* (λx. (x, unit)) v: rule 1 leaves v and two nodes more. */
static const struct term paired = TERM(2, 1, 0, 10, 0, 0, 0, 3);

/* Rule 1 leaves so many nodes in the thread of that bay, which owns a cell with a node besides; the highest owner has a cell too. */
static size_t growing(size_t bays, size_t bay, size_t nodes) {
    names[0] = thread_of((uint8_t)bay, with_value(expressions[0], paired, nodes - 3));
    names[1] = cell_of((uint8_t)bay, done);
    names[2] = cell_of((uint8_t)(bays - 1), done);
    return write_all(3);
}

/* Nodes at the share, and one above it: of two bays and more, and of each bay. Between the owners there are gaps. One bay's share is the
 * limit, and tests/step.c has it. */
static void nodes_at_the_share(void) {
    for (size_t bays = 2; bays <= FIKAREHU_MAX_BAYS; bays++) {
        for (size_t bay = 0; bay < bays; bay++) {
            /* the cell of the highest owner may be the bay's own */
            const size_t most = nodes_share(bays) - (bay == bays - 1);
            expect_rule("nodes at the share", growing(bays, bay, most), 0, FIKAREHU_BETA);
            expect_room("nodes above the share", growing(bays, bay, most + 1), 0, FIKAREHU_BETA);
        }
    }
}

/* cell unit, thread (λx. x), handle (λx. λh. unit): rules 6, 2 and 4 make one name, one and two. */
static const struct term new_cell = TERM(2, 5, 0, 3), new_thread = TERM(2, 7, 0, 1, 0, 0, 0), new_handle = TERM(2, 8, 0, 1, 0, 1, 0, 3);

/* That thread, of that bay, which has so many names with the thread itself; the highest owner has a cell, its first or one more. */
static size_t with_names(size_t bays, size_t bay, size_t count, struct term term) {
    size_t at = 0;
    names[at++] = thread_of((uint8_t)bay, term);
    for (; at < count; at++) {
        switch (at % 5) {
        case 1:
            names[at] = cell_of((uint8_t)bay, done);
            break;
        case 2:
            names[at] = bare(FIKAREHU_KIND_USED_HANDLE, (uint8_t)bay);
            break;
        case 3: /* a future and its handle, unless there is only one name left */
            if (at + 1 < count) {
                names[at + 1] = bare(FIKAREHU_KIND_OPEN_HANDLE, (uint8_t)at);
                names[at] = bare(FIKAREHU_KIND_FUTURE, (uint8_t)bay);
                at++;
                break;
            }
            names[at] = thread_of((uint8_t)bay, done);
            break;
        default:
            names[at] = thread_of((uint8_t)bay, done);
            break;
        }
    }
    if (bay != bays - 1) {
        names[at++] = cell_of((uint8_t)(bays - 1), done);
    }
    return write_all(at);
}

/* Names at the share, and one above it: names of every kind count, and an open handle for the owner of its future. */
static void names_at_the_share(void) {
    for (size_t bays = 1; bays <= FIKAREHU_MAX_BAYS; bays++) {
        for (size_t bay = 0; bay < bays; bay++) {
            const size_t most = names_share(bays);
            expect_rule("a cell at the share", with_names(bays, bay, most - 1, new_cell), 0, FIKAREHU_CELL_NEW);
            expect_rule("a thread at the share", with_names(bays, bay, most - 1, new_thread), 0, FIKAREHU_THREAD_NEW);
            expect_rule("a handle at the share", with_names(bays, bay, most - 2, new_handle), 0, FIKAREHU_HANDLE_NEW);
            if (bays == 1) {
                expect("no name left", with_names(bays, bay, most, new_cell), 0, FIKAREHU_REFUSED, FIKAREHU_REFUSED_ROOM);
                expect("one name left", with_names(bays, bay, most - 1, new_handle), 0, FIKAREHU_REFUSED,
                       FIKAREHU_REFUSED_ROOM);
                continue;
            }
            expect_room("a cell above the share", with_names(bays, bay, most, new_cell), 0, FIKAREHU_CELL_NEW);
            expect_room("a thread above the share", with_names(bays, bay, most, new_thread), 0, FIKAREHU_THREAD_NEW);
            expect_room("a handle above the share", with_names(bays, bay, most - 1, new_handle), 0, FIKAREHU_HANDLE_NEW);
        }
    }
}

/* b goes by the highest owner of a name of any kind, and not by the number of an open handle's future. */
static void highest_owners(void) {
    static const uint8_t kinds[] = {FIKAREHU_KIND_THREAD, FIKAREHU_KIND_CELL, FIKAREHU_KIND_USED_HANDLE,
                                    FIKAREHU_KIND_FUTURE};
    const size_t nodes = nodes_share(FIKAREHU_MAX_BAYS) + 1;
    for (size_t i = 0; i < sizeof kinds; i++) {
        const int has_expression = kinds[i] == FIKAREHU_KIND_THREAD || kinds[i] == FIKAREHU_KIND_CELL;
        for (uint8_t owner = 0; owner < FIKAREHU_MAX_BAYS; owner++) {
            names[0] = thread_of(0, with_value(expressions[0], paired, nodes - 2));
            names[1] = (struct name){kinds[i], owner, has_expression ? unit : NULL, has_expression};
            names[2] = bare(FIKAREHU_KIND_OPEN_HANDLE, 1);
            const size_t count = kinds[i] == FIKAREHU_KIND_FUTURE ? 3 : 2;
            expect_if(owner < FIKAREHU_MAX_BAYS - 1, "the highest owner", write_all(count), 0, FIKAREHU_BETA);
        }
    }
    /* all of bay 0, with a future of number 255 */
    with_names(1, 0, FIKAREHU_MAX_NAMES - 2, with_value(expressions[0], paired, 3000));
    names[FIKAREHU_MAX_NAMES - 2] = bare(FIKAREHU_KIND_OPEN_HANDLE, FIKAREHU_MAX_NAMES - 1);
    names[FIKAREHU_MAX_NAMES - 1] = bare(FIKAREHU_KIND_FUTURE, 0);
    expect_rule("a future of a high number", write_all(FIKAREHU_MAX_NAMES), 0, FIKAREHU_BETA);
}

/* Only the highest owner's thread is there: each bay below it has its share all the same. */
static void gaps(void) {
    for (uint8_t owner = 1; owner < FIKAREHU_MAX_BAYS; owner++) {
        const size_t most = nodes_share(owner + (size_t)1);
        names[0] = thread_of(owner, with_value(expressions[0], paired, most - 2));
        expect_rule("one bay alone, at its share", write_all(1), 0, FIKAREHU_BETA);
        names[0] = thread_of(owner, with_value(expressions[0], paired, most - 1));
        expect_room("one bay alone, above its share", write_all(1), 0, FIKAREHU_BETA);
    }
}

/* (λx. x) unit, and what is done, waits, or meets nothing that fits; names 1 and 2 are a cell and a used handle. */
static const struct term one_step = TERM(2, 1, 0, 0, 0, 3), waits = TERM(2, 9, 0, 3), applies_cell = TERM(2, 9, 1, 3),
                         applies_used = TERM(2, 9, 2, 3);

/* Bay 9 is above its share, and no rule touches it: whoever steps by a rule gets 15, and every other answer stays. */
static void above_and_not_touched(size_t (*fill_up)(size_t)) {
    const struct term steps[] = {one_step, new_cell, new_thread, new_handle};
    static const uint32_t rules[] = {FIKAREHU_BETA, FIKAREHU_CELL_NEW, FIKAREHU_THREAD_NEW, FIKAREHU_HANDLE_NEW};
    const size_t first = 3;
    names[1] = cell_of(2, done);
    names[2] = bare(FIKAREHU_KIND_USED_HANDLE, 15);
    const size_t count = fill_up(first);
    for (size_t i = 0; i < sizeof steps / sizeof steps[0]; i++) {
        names[0] = thread_of(4, steps[i]);
        expect_room("beside a bay above its share", write_all(count), 0, rules[i]);
    }
    names[0] = thread_of(4, done);
    expect("done beside it", write_all(count), 0, FIKAREHU_DONE, 0);
    expect("no thread beside it", write_all(count), 1, FIKAREHU_REFUSED, FIKAREHU_REFUSED_NO_THREAD);
    expect("no name beside it", write_all(count), count, FIKAREHU_REFUSED, FIKAREHU_REFUSED_NO_THREAD);
    names[0] = thread_of(4, waits);
    expect("waiting beside it", write_all(count), 0, FIKAREHU_WAITING, 0);
    names[0] = thread_of(4, applies_cell);
    expect("a cell applied beside it", write_all(count), 0, FIKAREHU_REFUSED, FIKAREHU_REFUSED_WRONG_KIND);
    names[0] = thread_of(4, applies_used);
    expect("a used handle applied beside it", write_all(count), 0, FIKAREHU_REFUSED, FIKAREHU_REFUSED_USED_HANDLE);
    names[0] = thread_of(FIKAREHU_MAX_BAYS, one_step);
    expect("owner 16 beside it", write_all(count), 0, FIKAREHU_REFUSED, FIKAREHU_REFUSED_IMAGE);
    names[0] = thread_of(4, one_step);
    struct fikarehu_stepped stepped =
        fikarehu_step_separate(image, write_all(count), 0, out_end() - FIKAREHU_MAX_IMAGE, FIKAREHU_MAX_IMAGE - 1);
    CHECK(stepped.outcome == FIKAREHU_REFUSED && stepped.number == FIKAREHU_REFUSED_BUFFER, "a short buffer: number %u",
          stepped.number);
}

static size_t names_above(size_t at) {
    for (size_t more = 0; more <= names_share(FIKAREHU_MAX_BAYS); more++) {
        names[at++] = bare(FIKAREHU_KIND_USED_HANDLE, 9);
    }
    return at;
}

static size_t nodes_above(size_t at) {
    names[at] = cell_of(9, with_value(expressions[1], (struct term){unit, 0}, nodes_share(FIKAREHU_MAX_BAYS) + 1));
    return at + 1;
}

/* (λx. unit) v: rule 1 leaves one node. */
static const struct term dropped = TERM(2, 1, 0, 3);

/* Only the outcome counts: a rule that brings the bay back to its share goes, and one that leaves it above gets 15. */
static void back_to_the_share(void) {
    const size_t most = nodes_share(FIKAREHU_MAX_BAYS);
    for (size_t beside = most - 2; beside <= most + 1; beside++) {
        names[0] = thread_of(3, with_value(expressions[0], dropped, 2 * most));
        names[1] = cell_of(3, with_value(expressions[1], (struct term){unit, 0}, beside));
        names[2] = cell_of(15, done);
        expect_if(beside + 1 <= most, "a bay brought back", write_all(3), 0, FIKAREHU_BETA);
    }
    /* all nodes that there may be are one bay's, and one step leaves one */
    names[0] = thread_of(3, with_value(expressions[0], dropped, FIKAREHU_MAX_NODES - 4));
    names[1] = cell_of(15, done);
    expect_rule("all nodes dropped", write_all(2), 0, FIKAREHU_BETA);
}

/* exch (name 1) v */
static const struct term exchanged = TERM(2, 2, 6, 0, 9, 1);

/* Rule 7 moves v into the cell of another bay, and what the cell held into the thread: both bays count. */
static void cells_of_others(void) {
    const size_t most = nodes_share(FIKAREHU_MAX_BAYS);
    for (size_t nodes = most - 1; nodes <= most + 1; nodes++) {
        names[0] = thread_of(5, with_value(expressions[0], exchanged, nodes));
        names[1] = cell_of(15, done);
        expect_if(nodes <= most, "a value into another's cell", write_all(2), 0, FIKAREHU_CELL_EXCH);
        names[0] = thread_of(5, with_value(expressions[0], exchanged, 1));
        names[1] = cell_of(15, with_value(expressions[1], (struct term){unit, 0}, nodes));
        expect_if(nodes <= most, "a value out of another's cell", write_all(2), 0, FIKAREHU_CELL_EXCH);
        names[0] = thread_of(5, with_value(expressions[0], exchanged, most));
        expect_if(nodes <= most, "values that change places", write_all(2), 0, FIKAREHU_CELL_EXCH);
        /* the cell's bay owns a node besides */
        names[0] = thread_of(5, with_value(expressions[0], exchanged, nodes));
        names[1] = cell_of(15, done);
        names[2] = thread_of(15, done);
        expect_if(nodes < most, "a value into another's cell beside a thread", write_all(3), 0, FIKAREHU_CELL_EXCH);
    }
}

/* (name 2) v */
static const struct term bound = TERM(2, 9, 2);

/* Rule 5 moves v into the thread that the future of another bay becomes. */
static void futures_of_others(void) {
    const size_t most = nodes_share(FIKAREHU_MAX_BAYS);
    for (size_t nodes = most - 1; nodes <= most + 1; nodes++) {
        names[0] = thread_of(5, with_value(expressions[0], bound, nodes));
        names[1] = bare(FIKAREHU_KIND_FUTURE, 15);
        names[2] = bare(FIKAREHU_KIND_OPEN_HANDLE, 1);
        expect_if(nodes <= most, "a value to another's future", write_all(3), 0, FIKAREHU_HANDLE_BIND);
        names[3] = cell_of(15, done);
        expect_if(nodes < most, "a value to another's future beside a cell", write_all(4), 0, FIKAREHU_HANDLE_BIND);
        names[3] = cell_of(5, done);
        expect_if(nodes <= most, "a value to another's future, the binder has a cell", write_all(4), 0, FIKAREHU_HANDLE_BIND);
        /* its own future: unit is left, and the value moves within the bay */
        names[1] = bare(FIKAREHU_KIND_FUTURE, 5);
        names[3] = cell_of(15, done);
        expect_if(nodes < most, "a value to its own future", write_all(4), 0, FIKAREHU_HANDLE_BIND);
    }
}

/* (name 1) unit: rule 3 copies the value of another bay's thread into the thread that steps. */
static void threads_of_others(void) {
    const struct term copied = TERM(2, 9, 1, 3);
    const size_t most = nodes_share(FIKAREHU_MAX_BAYS);
    for (size_t nodes = most - 3; nodes <= most; nodes++) {
        names[0] = thread_of(5, copied);
        names[1] = thread_of(15, with_value(expressions[1], (struct term){unit, 0}, nodes));
        expect_if(nodes + 2 <= most, "a value of another's thread", write_all(2), 0, FIKAREHU_FUTURE_DEREF);
    }
    /* a new thread of the stepping bay, from a function of another's */
    const struct term spawned = TERM(2, 7, 0, 9, 1);
    for (size_t own = names_share(FIKAREHU_MAX_BAYS) - 1; own <= names_share(FIKAREHU_MAX_BAYS); own++) {
        names[0] = thread_of(5, spawned);
        names[1] = thread_of(15, (struct term){(const uint8_t[]){1, 0, 0, 0}, 4});
        for (size_t more = 1; more < own; more++) {
            names[1 + more] = bare(FIKAREHU_KIND_USED_HANDLE, 5);
        }
        expect_if(own < names_share(FIKAREHU_MAX_BAYS), "a new thread of the stepping bay", write_all(1 + own), 0,
                  FIKAREHU_THREAD_NEW);
    }
}

/* Three bays at their 85 names: one name of the 256 is left, and nobody's. */
static void names_left_over(void) {
    const size_t share = names_share(3);
    size_t at = 0;
    for (uint8_t bay = 0; bay < 3; bay++) {
        names[at++] = thread_of(bay, new_cell);
        for (size_t more = 1; more < share; more++) {
            names[at++] = bare(FIKAREHU_KIND_USED_HANDLE, bay);
        }
    }
    must(at == FIKAREHU_MAX_NAMES - 1, "255 names");
    for (size_t bay = 0; bay < 3; bay++) {
        expect_room("the name that is left", write_all(at), bay * share, FIKAREHU_CELL_NEW);
    }
}

/* All 256 names and 4,096 nodes, and sixteen bays at their shares of both: a rule that takes no more goes, one that makes a name does not. */
static void full_image(void) {
    enum { BAYS_THERE = FIKAREHU_MAX_BAYS, CELLS = 15, CELL_NODES = 17, LAST_NODES = 14 };
    const struct term cell = with_value(expressions[0], (struct term){unit, 0}, CELL_NODES);
    const struct term last = with_value(expressions[1], (struct term){unit, 0}, LAST_NODES);
    size_t at = BAYS_THERE;
    for (uint8_t bay = 0; bay < BAYS_THERE; bay++) {
        names[bay] = thread_of(bay, one_step);
        for (size_t more = 0; more < CELLS; more++) {
            names[at++] = cell_of(bay, more + 1 < CELLS ? cell : last);
        }
    }
    must(at == FIKAREHU_MAX_NAMES && 4 + (CELLS - 1) * CELL_NODES + LAST_NODES == nodes_share(BAYS_THERE), "all is full");
    for (uint8_t bay = 0; bay < BAYS_THERE; bay++) {
        expect_rule("a full image", write_all(at), bay, FIKAREHU_BETA);
        names[bay] = thread_of(bay, new_cell);
        expect("a cell in a full image", write_all(at), bay, FIKAREHU_REFUSED, FIKAREHU_REFUSED_ROOM);
        names[bay] = thread_of(bay, one_step);
    }
}

/* A load and steps of the same profile: a bay that makes cells without end lacks room at its share, and its neighbour goes on as it likes. */
static void a_neighbour_goes_on(void) {
    /* 3 unit to unit, 4 from 3 to 3, 5 from 4 to 3, 6 from 3 to unit, 7 num to cell, 8 cell to unit */
    static const uint8_t loops[] = {0, 0, 0, 1, 0, 0, 2, 1, 0, 4, 0, 0, 4, 3, 3, 4, 4, 3, 4, 3, 0, 4, 1, 2, 4, 2, 0};
    const struct term cells = TERM(2, 1, 6, 2, 0, 0, 3, 2, 7, 5, 1, 4, 1, 3, 2, 1, 8, 2, 0, 2, 3, 2, 5, 7, 4, 3, 0);
    const struct term loop = TERM(2, 1, 6, 2, 0, 0, 3, 2, 7, 5, 1, 4, 1, 3, 2, 0, 1, 3);
    static uint8_t buffers[2][FIKAREHU_MAX_IMAGE];
    make_terms(&scratch, EDITION_1, loops, sizeof loops, BAYS(cells, loop));
    struct fikarehu_loaded loaded = fikarehu_load_separate(scratch.bytes, scratch.length, buffers[0], sizeof buffers[0]);
    must(loaded.refusal == 0, "the recipe is accepted");
    size_t length = loaded.length, which = 0, owned = 0, lacked = 0, rules_after = 0;
    for (size_t turn = 0; turn < 5000; turn++) {
        const uint8_t *now = buffers[which];
        /* the two bays' threads, and the one that each makes */
        const size_t name = 2 + turn % 4;
        const uint8_t *head = now + FIKAREHU_FIRST_HEAD + FIKAREHU_HEAD_LENGTH * name;
        if (name >= now[0] + 256u * now[1]) {
            continue;
        }
        struct fikarehu_stepped stepped =
            fikarehu_step_separate(now, length, name, buffers[1 - which], sizeof buffers[0]);
        if (head[0] == FIKAREHU_KIND_THREAD && stepped.outcome == FIKAREHU_REFUSED) {
            CHECK(head[1] == 0 && stepped.number == FIKAREHU_REFUSED_ROOM, "turn %zu: bay %u is refused %u", turn, head[1],
                  stepped.number);
            lacked++;
        } else if (stepped.outcome == FIKAREHU_RULE) {
            rules_after += lacked > 0 && head[1] == 1;
            length = stepped.length;
            which = 1 - which;
        }
    }
    const uint8_t *last = buffers[which];
    for (size_t name = 0; name < last[0] + 256u * last[1]; name++) {
        owned += last[FIKAREHU_FIRST_HEAD + FIKAREHU_HEAD_LENGTH * name + 1] == 0;
    }
    CHECK(owned == names_share(2) && lacked > 0, "bay 0 has %zu names, and lacked room %zu times", owned, lacked);
    CHECK(rules_after > 0, "bay 1 took no turn after that");
}

static void *everything(void *nothing) {
    own_settings();
    other_settings();
    shares_at_the_start();
    settings_before_shares();
    all_others_before();
    nodes_at_the_share();
    names_at_the_share();
    highest_owners();
    gaps();
    above_and_not_touched(names_above);
    above_and_not_touched(nodes_above);
    back_to_the_share();
    cells_of_others();
    futures_of_others();
    threads_of_others();
    names_left_over();
    full_image();
    a_neighbour_goes_on();
    return nothing;
}

int main(void) {
    everything(NULL);
    on_small_stack(SMALL_STACK, everything, NULL);
    return finish();
}
