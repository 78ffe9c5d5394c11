/*
 * Reading a vent and an owner as docs/HOST.md says and the example host does. Prints failures and a last line with the number of checks.
 *
 *   cc -std=c11 -O2 -Wall -Wextra -Werror -Iinclude -pthread tests/vent.c target/staticlib/libfikarehu.a -o vent && ./vent
 */
#define _GNU_SOURCE
#include "files.h"

#include "../examples/vent.c"

static void expect_vent(const char *what, const uint8_t *image, unsigned bay, enum vent_state state, unsigned number) {
    struct vent vent = read_vent(image, bay);
    CHECK(vent.state == state, "%s: state %d, expected %d", what, vent.state, state);
    CHECK((state == VENT_OPENING ? vent.opening : vent.name) == number, "%s: opening %u, name %u, expected %u", what,
          vent.opening, vent.name, number);
}

/* A run of a recipe of one bay, in two buffers. */
struct run {
    uint8_t buffers[2][FIKAREHU_MAX_IMAGE];
    uint8_t *image, *other;
    uint64_t length;
};

static void load_file(struct run *run, const struct file *file) {
    run->image = run->buffers[0];
    run->other = run->buffers[1];
    struct fikarehu_loaded loaded = fikarehu_load(file->bytes, file->length, run->image, FIKAREHU_MAX_IMAGE);
    CHECK(loaded.refusal == 0, "refused %u", loaded.refusal);
    run->length = loaded.length;
}

static void load(struct run *run, const uint8_t *table, size_t table_len, const uint8_t *term, size_t term_len) {
    static struct file file;
    make(&file, table, table_len, term, term_len, 1);
    load_file(run, &file);
}

/* A step by that rule, and the vent after it. */
static void step(struct run *run, unsigned thread, uint32_t rule, enum vent_state state, unsigned number) {
    struct fikarehu_stepped stepped = fikarehu_step(run->image, run->length, thread, run->other, FIKAREHU_MAX_IMAGE);
    CHECK(stepped.outcome == FIKAREHU_RULE && stepped.number == rule, "thread %u: outcome %u, number %u, expected rule %u",
          thread, stepped.outcome, stepped.number, rule);
    if (stepped.outcome == FIKAREHU_RULE) {
        uint8_t *written = run->other;
        run->other = run->image;
        run->image = written;
        run->length = stepped.length;
    }
    expect_vent("a run", run->image, 0, state, number);
}

/* unit, num, cell of num, num to num, exch's type, thread's type */
static const uint8_t table_threads[] = {0, 0, 0, 1, 0, 0, 2, 1, 0, 4, 1, 1, 4, 2, 3, 4, 3, 1};

/* exch setting0 (thread (λx. 430)) */
static void a_thread(void) {
    static const uint8_t term[] = {2, 2, 6, 4, 9, 0, 2, 7, 5, 1, 3, 4, 0xAE, 1};
    static struct run run;
    load(&run, table_threads, sizeof table_threads, term, sizeof term);
    expect_vent("loaded", run.image, 0, VENT_OPENING, 0);
    step(&run, 1, FIKAREHU_THREAD_NEW, VENT_OPENING, 0);
    step(&run, 1, FIKAREHU_CELL_EXCH, VENT_AWAITS_THREAD, 2);
    step(&run, 2, FIKAREHU_BETA, VENT_OPENING, 430);
}

/* exch setting0 (thread (λx. thread (λy. 430))): a chain of two names */
static void a_chain(void) {
    static const uint8_t term[] = {2, 2, 6, 4, 9, 0, 2, 7, 5, 1, 3, 2, 7, 5, 1, 3, 4, 0xAE, 1};
    static struct run run;
    load(&run, table_threads, sizeof table_threads, term, sizeof term);
    step(&run, 1, FIKAREHU_THREAD_NEW, VENT_OPENING, 0);
    step(&run, 1, FIKAREHU_CELL_EXCH, VENT_AWAITS_THREAD, 2);
    step(&run, 2, FIKAREHU_BETA, VENT_AWAITS_THREAD, 2);
    step(&run, 2, FIKAREHU_THREAD_NEW, VENT_AWAITS_THREAD, 3);
    step(&run, 3, FIKAREHU_BETA, VENT_OPENING, 430);
}

/* handle (λx. λh. (λ1 former. h x) (exch setting0 x)): a future that the setting holds, and that is then bound to itself */
static void a_future(void) {
    static const uint8_t table[] = {0, 0, 0, 1, 0, 0, 2, 1, 0, 3, 1, 0, 4, 3, 0, 4, 1, 4, 4, 5, 0, 4, 1, 1, 4, 2, 7};
    static const uint8_t term[] = {2, 8, 6, 1, 5, 1, 4, 2, 1, 3, 2, 0, 1, 0, 2, 2, 2, 6, 8, 9, 0, 0, 1};
    static struct run run;
    load(&run, table, sizeof table, term, sizeof term);
    step(&run, 1, FIKAREHU_HANDLE_NEW, VENT_OPENING, 0);
    step(&run, 1, FIKAREHU_BETA, VENT_OPENING, 0);
    step(&run, 1, FIKAREHU_BETA, VENT_OPENING, 0);
    step(&run, 1, FIKAREHU_CELL_EXCH, VENT_AWAITS_FUTURE, 2);
    step(&run, 1, FIKAREHU_BETA, VENT_AWAITS_FUTURE, 2);
    step(&run, 1, FIKAREHU_HANDLE_BIND, VENT_NEVER, 2);
}

/* exch setting0 (thread (λx. case (430, x) of (y, z) ⇒ y)), the pair of type 6: a thread at a case is not done */
static void a_case(void) {
    static const uint8_t table[] = {0, 0, 0, 1, 0, 0, 2, 1, 0, 4, 1, 1, 4, 2, 3, 4, 3, 1, 6, 1, 1};
    static const uint8_t term[] = {2, 2, 6, 4, 9, 0, 2, 7, 5, 1, 3, 12, 10, 6, 4, 0xAE, 1, 0, 0, 0, 1};
    static struct file file;
    static struct run run;
    make_2(&file, table, sizeof table, term, sizeof term, 1);
    load_file(&run, &file);
    step(&run, 1, FIKAREHU_THREAD_NEW, VENT_OPENING, 0);
    step(&run, 1, FIKAREHU_CELL_EXCH, VENT_AWAITS_THREAD, 2);
    step(&run, 2, FIKAREHU_BETA, VENT_AWAITS_THREAD, 2);
    step(&run, 2, FIKAREHU_CASE_PAIR, VENT_OPENING, 430);
}

/* A vent set by hand: it is open from the start, and what opens it further has the former opening. */
static void a_starting_num(void) {
    static const uint8_t term[] = {2, 2, 6, 4, 9, 0, 4, 0xAE, 1};
    static struct file file;
    static struct run run;
    make_3(&file, table_threads, sizeof table_threads, (const uint8_t[]){0xFA, 0}, 2, term, sizeof term, 1);
    load_file(&run, &file);
    expect_vent("loaded", run.image, 0, VENT_OPENING, 250);
    step(&run, 1, FIKAREHU_CELL_EXCH, VENT_OPENING, 430);
}

/* First openings written into a recipe: of bays that it has, and in edition 3 only. */
static void written_openings(void) {
    static struct file file, before;
    static struct run run;
    make_3(&file, table_a, sizeof table_a, zeros, 4, (const uint8_t[]){3}, 1, 2);
    CHECK(write_opening(file.bytes, file.length, 0, 250) && write_opening(file.bytes, file.length, 1, 65535), "not written");
    before = file;
    CHECK(!write_opening(file.bytes, file.length, 2, 1), "an opening of bay 2 of two bays");
    CHECK(!write_opening(file.bytes, file.length - 1, 0, 1), "an opening of a file that is cut");
    CHECK(memcmp(&file, &before, sizeof file) == 0, "written where it should not be");
    load_file(&run, &file);
    expect_vent("bay 0", run.image, 0, VENT_OPENING, 250);
    expect_vent("bay 1", run.image, 1, VENT_OPENING, 65535);
    make_2(&file, table_a, sizeof table_a, (const uint8_t[]){3}, 1, 2);
    before = file;
    CHECK(!write_opening(file.bytes, file.length, 0, 1), "an opening in edition 2");
    CHECK(memcmp(&file, &before, sizeof file) == 0, "written in edition 2");
}

/* The vent of bay 0 in an image from outside, which must keep the rules of images. */
static void expect_image(const char *what, const uint8_t *image, size_t length, enum vent_state state, unsigned number) {
    static uint8_t out[FIKAREHU_MAX_IMAGE];
    struct fikarehu_stepped stepped = fikarehu_step(image, length, FIKAREHU_MAX_NAMES, out, sizeof out);
    CHECK(stepped.number == FIKAREHU_REFUSED_NO_THREAD, "%s: no image: %u", what, stepped.number);
    expect_vent(what, image, 0, state, number);
}

#define BYTES(...) ((const uint8_t[]){__VA_ARGS__}), sizeof((const uint8_t[]){__VA_ARGS__})

static void images(void) {
    expect_image("a chain to a future", BYTES(4, 0, 2, 0, 26, 0, 2, 0, 1, 0, 28, 0, 2, 0, 5, 0, 30, 0, 0, 0, 3, 2, 30, 0, 0, 0, 9, 1, 9, 2),
                 VENT_AWAITS_FUTURE, 2);
    expect_image("a ring of two", BYTES(3, 0, 2, 0, 20, 0, 2, 0, 1, 0, 22, 0, 2, 0, 1, 0, 24, 0, 2, 0, 9, 1, 9, 2, 9, 1), VENT_NEVER,
                 2);
    expect_image("a cell for a num", BYTES(2, 0, 2, 0, 14, 0, 2, 0, 2, 0, 16, 0, 1, 0, 9, 1, 3), VENT_NO_NUM, 1);
    expect_image("the highest num", BYTES(1, 0, 2, 0, 8, 0, 3, 0, 4, 0xFF, 0xFF), VENT_OPENING, 65535);
    expect_image("a thread at a case", BYTES(2, 0, 2, 0, 14, 0, 2, 0, 1, 0, 16, 0, 4, 0, 9, 1, 13, 3, 0, 1), VENT_AWAITS_THREAD, 1);
    expect_image("a pair for a num", BYTES(2, 0, 2, 0, 14, 0, 2, 0, 1, 0, 16, 0, 4, 0, 9, 1, 10, 0, 3, 3), VENT_NO_NUM, 1);
    expect_image("unit for a num", BYTES(1, 0, 2, 0, 8, 0, 1, 0, 3), VENT_NO_NUM, 0);
}

static void expect_owners(const char *what, const uint8_t *image, const unsigned *owners, unsigned count) {
    CHECK(vent_two_bytes(image) == count, "%s: %u names, expected %u", what, vent_two_bytes(image), count);
    for (unsigned name = 0; name < count; name++) {
        const unsigned owner = read_owner(image, name);
        CHECK(owner == owners[name], "%s: name %u is of bay %u, expected %u", what, name, owner, owners[name]);
    }
}

#define OWNERS(...) ((const unsigned[]){__VA_ARGS__}), sizeof((const unsigned[]){__VA_ARGS__}) / sizeof(unsigned)

/* One name of each kind; the open handle's companion, 3, is its future and no owner. */
static void owners_of_every_kind(void) {
    expect_owners("every kind",
                  (const uint8_t[]){5, 0, 1, 15, 32, 0, 1, 0, 2, 1, 33, 0, 1, 0, 3, 3, 34, 0, 0, 0, 5, 12, 34, 0, 0, 0, 4, 9, 34, 0, 0,
                                    0, 3, 3},
                  OWNERS(15, 1, 12, 12, 9));
}

/* handle (λx. λh. h x) in two bays: the second one's future and handle are of bay 1, before the future is bound and after. */
static void owners_of_a_run(void) {
    static const uint8_t table[] = {0, 0, 0, 1, 0, 0, 2, 1, 0, 3, 1, 0, 4, 3, 0, 4, 1, 4, 4, 5, 0};
    static const uint8_t term[] = {2, 8, 6, 1, 5, 1, 4, 2, 0, 0, 0, 1};
    static const uint32_t rules[] = {FIKAREHU_HANDLE_NEW, FIKAREHU_BETA, FIKAREHU_BETA, FIKAREHU_HANDLE_BIND};
    static struct file file;
    static struct run run;
    make(&file, table, sizeof table, term, sizeof term, 2);
    load_file(&run, &file);
    expect_owners("loaded", run.image, OWNERS(0, 1, 0, 1));
    for (size_t i = 0; i < sizeof rules / sizeof rules[0]; i++) {
        step(&run, 3, rules[i], VENT_OPENING, 0);
        expect_owners("bay 1 steps", run.image, OWNERS(0, 1, 0, 1, 1, 1));
    }
    step(&run, 2, FIKAREHU_HANDLE_NEW, VENT_OPENING, 0);
    expect_owners("bay 0 steps", run.image, OWNERS(0, 1, 0, 1, 1, 1, 0, 0));
}

/* The longest chain: the setting holds name 1, each thread the next name, the last one a num, or the first thread's name. */
static void longest(int ring) {
    static uint8_t image[FIKAREHU_MAX_IMAGE];
    const unsigned names = FIKAREHU_MAX_NAMES;
    size_t at = FIKAREHU_FIRST_HEAD + (size_t)FIKAREHU_HEAD_LENGTH * names;
    image[0] = (uint8_t)names;
    image[1] = (uint8_t)(names >> 8);
    for (unsigned name = 0; name < names; name++) {
        const int last = name == names - 1;
        const uint8_t num[] = {FIKAREHU_TAG_NUM, 0xAE, 1}, link[] = {FIKAREHU_TAG_NAME, (uint8_t)(last ? 1 : name + 1)};
        const size_t length = last && !ring ? sizeof num : sizeof link;
        const uint8_t head[] = {name == 0 ? FIKAREHU_KIND_CELL : FIKAREHU_KIND_THREAD, 0, (uint8_t)at, (uint8_t)(at >> 8),
                                (uint8_t)length, 0};
        memcpy(image + FIKAREHU_FIRST_HEAD + FIKAREHU_HEAD_LENGTH * name, head, sizeof head);
        memcpy(image + at, last && !ring ? num : link, length);
        at += length;
    }
    if (ring) {
        expect_image("the longest ring", image, at, VENT_NEVER, read_vent(image, 0).name);
    } else {
        expect_image("the longest chain", image, at, VENT_OPENING, 430);
    }
}

int main(void) {
    a_thread();
    a_chain();
    a_future();
    a_case();
    a_starting_num();
    written_openings();
    images();
    owners_of_every_kind();
    owners_of_a_run();
    longest(0);
    longest(1);
    return finish();
}
