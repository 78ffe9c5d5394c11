/*
 * Fikarehu: recipes for bays. A recipe is checked, loaded into its starting
 * image, and stepped one thread at a time; or run for a number of turns.
 *
 * Profiles. The common profile, fikarehu_load and fikarehu_step, lets any bay
 * name any setting, and all bays share the limits of an image. The separate one,
 * fikarehu_load_separate and fikarehu_step_separate, is for bays with a tenant
 * each: a bay names its own setting only, and each bay has its own share of the
 * limits. Both write the same images. What fikarehu_load_separate has written goes
 * to fikarehu_step_separate, and so does each image that comes of it; nothing
 * checks that. fikarehu_check and fikarehu_run are of the common profile.
 *
 * Slices. A pointer and a length name that many bytes. A pointer may be NULL
 * where its length is 0. Nothing beyond the length is read or written.
 *
 * Overlap. The out buffer must not overlap the recipe or the image. Of a run,
 * neither buffer may overlap the other or the recipe.
 *
 * Stack. Every call stays within 64 KiB of stack, on any input. There is no heap
 * and no state between calls: any number of threads may call at once, on buffers
 * of their own.
 *
 * Buffers. A load or a step that writes puts the new image into the first bytes
 * of the out buffer and leaves the bytes beyond as they were. A refusal, done
 * or waiting leaves the whole out buffer as it was. A load or a step is refused
 * with FIKAREHU_REFUSED_BUFFER, before anything else is looked at, unless the
 * out buffer has at least FIKAREHU_MAX_IMAGE bytes; no image is longer. A run is
 * refused so unless both its buffers have as many, whatever the turns. A run that
 * is refused leaves both buffers as they were; else the last image lies in the
 * first bytes of the buffer that is answered, and what the other buffer and the
 * bytes beyond the last image hold is left free.
 *
 * Refusals. The lowest number that fits is answered, each cause tried over the
 * whole file; but FIKAREHU_REFUSED_BUFFER comes before all others.
 */
#ifndef FIKAREHU_H
#define FIKAREHU_H

#include <stddef.h>
#include <stdint.h>

#ifdef __cplusplus
extern "C" {
#endif

/* This header's version. */
#define FIKAREHU_VERSION "0.9.0"
#define FIKAREHU_VERSION_MAJOR 0
#define FIKAREHU_VERSION_MINOR 9
#define FIKAREHU_VERSION_PATCH 0

/* The limits of a recipe. */
enum {
    FIKAREHU_MIN_FILE = 12,            /* bytes of a file */
    FIKAREHU_MAX_FILE = 8192,
    FIKAREHU_MIN_PARTS = 2,            /* parts: the type table, and a term for each bay; in edition 3 the */
    FIKAREHU_MAX_PARTS = 17,           /* starting part is one more, so 3 to 18 there */
    FIKAREHU_MAX_BAYS = 16,            /* bays; the owner of a name in an image is below it too */
    FIKAREHU_MIN_ENTRIES = 3,          /* entries of the type table */
    FIKAREHU_MAX_ENTRIES = 256,
    FIKAREHU_MAX_NESTING = 100,        /* nesting of a term, the root being 1 */
    FIKAREHU_MAX_RECIPE_NODES = 1024   /* nodes over all terms */
};

/* The limits of an image. In the separate profile with b bays a bay's share of the names and of the
 * nodes is the limit divided by b, rounded down. */
enum {
    FIKAREHU_MAX_NAMES = 256,
    FIKAREHU_MAX_NODES = 4096,  /* nodes over all expressions */
    FIKAREHU_MAX_IMAGE = 13826  /* bytes, and the least length of an out buffer */
};

/* Bytes: an entry of the type table, the longest node, the number of names before the first head
 * of an image, and a head. */
enum {
    FIKAREHU_ENTRY_LENGTH = 3,
    FIKAREHU_MAX_NODE_LENGTH = 3,
    FIKAREHU_FIRST_HEAD = 2,
    FIKAREHU_HEAD_LENGTH = 6
};

/* The kind of a name: the first byte of its head in an image. The second is the companion byte: of a
 * thread, a cell, a used handle and a future the owning bay, below FIKAREHU_MAX_BAYS; of an open handle
 * the number of its future, whose owner is the handle's too. */
enum {
    FIKAREHU_KIND_THREAD = 1,
    FIKAREHU_KIND_CELL = 2,
    FIKAREHU_KIND_OPEN_HANDLE = 3,
    FIKAREHU_KIND_USED_HANDLE = 4,
    FIKAREHU_KIND_FUTURE = 5  /* not yet bound */
};

/* The kind of a type: the first byte of its entry in a type table. */
enum {
    FIKAREHU_TYPE_UNIT = 0,
    FIKAREHU_TYPE_NUM = 1,
    FIKAREHU_TYPE_CELL = 2,
    FIKAREHU_TYPE_ONCE = 3,  /* a function usable once */
    FIKAREHU_TYPE_MANY = 4,  /* a function usable many times */
    /* from edition 2 on */
    FIKAREHU_TYPE_ONCE_PAIR = 5,
    FIKAREHU_TYPE_MANY_PAIR = 6,
    FIKAREHU_TYPE_ONCE_LIST = 7,
    FIKAREHU_TYPE_MANY_LIST = 8
};

/* The numbers of the first three entries of every type table: unit, num, cell of num. */
enum {
    FIKAREHU_UNIT_ENTRY = 0,
    FIKAREHU_NUM_ENTRY = 1,
    FIKAREHU_SETTING_ENTRY = 2
};

/* The tag of a node: the first byte of a term, and of each subterm. */
enum {
    FIKAREHU_TAG_VARIABLE = 0,
    FIKAREHU_TAG_LAMBDA = 1,
    FIKAREHU_TAG_APPLICATION = 2,
    FIKAREHU_TAG_UNIT = 3,
    FIKAREHU_TAG_NUM = 4,
    FIKAREHU_TAG_CELL = 5,
    FIKAREHU_TAG_EXCH = 6,
    FIKAREHU_TAG_THREAD = 7,
    FIKAREHU_TAG_HANDLE = 8,
    FIKAREHU_TAG_NAME = 9,
    /* from edition 2 on, and in any image */
    FIKAREHU_TAG_PAIR = 10,
    FIKAREHU_TAG_LIST = 11,      /* the front of a list, and the rest */
    FIKAREHU_TAG_CASE_PAIR = 12, /* takes a pair apart */
    FIKAREHU_TAG_CASE_LIST = 13  /* takes a list apart */
};

/* The refusals: 1 to 11 and 19 by a check, a load or a run, 12 by a load, a step or a run, 13 to 17 by
 * a step, of either profile; 20 and 21 by fikarehu_load_separate alone. The order: a check tries 1 to 11,
 * then 19; a load and a run try 12, then 1 to 11, then 19, and fikarehu_load_separate then 20, then 21.
 * A run passes on what arises; 15 never does, for lack of room only passes a thread over. 18 is the
 * program test_load's, tried after 19. */
enum {
    FIKAREHU_REFUSED_FILE_LENGTH = 1,  /* file length outside 12 to 8,192 */
    FIKAREHU_REFUSED_OPENING = 2,      /* first two bytes, edition, or n outside 2 to 17, in edition 3
                                          outside 3 to 18 */
    FIKAREHU_REFUSED_LAYOUT = 3,       /* pairs break the layout; table length no multiple of 3, or outside 9 to 768 */
    FIKAREHU_REFUSED_TYPE_ENTRY = 4,   /* a type entry breaks its rule */
    FIKAREHU_REFUSED_NO_TERM = 5,      /* a part is not exactly one term: unknown tag, cut, bytes over */
    FIKAREHU_REFUSED_TERM_SIZE = 6,    /* nesting or nodes above the limit */
    FIKAREHU_REFUSED_SCOPE = 7,        /* index with no lambda, name not below b, type number not below t */
    FIKAREHU_REFUSED_ANNOTATION = 8,   /* lambda's type no function, constant's type no instance of Fig. 8
                                          (handle as document 01 has it), pair's no pair, list front's no list */
    FIKAREHU_REFUSED_TYPE = 9,         /* application of a non-function, argument, body, component or
                                          subject of another type */
    FIKAREHU_REFUSED_LINEARITY = 10,   /* a once-variable not used exactly once, or free under a many-lambda */
    FIKAREHU_REFUSED_BAY_ONCE = 11,    /* a bay's type has multiplicity once */
    FIKAREHU_REFUSED_BUFFER = 12,      /* out buffer under 13,826 bytes */
    FIKAREHU_REFUSED_IMAGE = 13,       /* image breaks a rule or limit under "The image" */
    FIKAREHU_REFUSED_NO_THREAD = 14,   /* number is no thread */
    FIKAREHU_REFUSED_ROOM = 15,        /* a rule applies, outcome above 256 names or 4,096 nodes; in the
                                          separate profile, any bay of the outcome above its share */
    FIKAREHU_REFUSED_USED_HANDLE = 16, /* used handle applied */
    FIKAREHU_REFUSED_WRONG_KIND = 17,  /* two values meet, neither a rule, nor waiting, nor 16; a case of
                                          another kind of value */
    FIKAREHU_REFUSED_SEED = 18,        /* a seed of zero; no function here answers it */
    FIKAREHU_REFUSED_STARTING = 19,    /* edition 3: a starting part whose length is not twice the number of
                                          bays */
    FIKAREHU_REFUSED_OTHER_SETTING = 20,  /* separate: a bay names another bay's setting */
    FIKAREHU_REFUSED_SHARE = 21        /* separate: a bay starts above its share */
};

/* The rules: Fig. 5's in its order, and the two that take a pair or a list apart. */
enum {
    FIKAREHU_BETA = 1,
    FIKAREHU_THREAD_NEW = 2,
    FIKAREHU_FUTURE_DEREF = 3,
    FIKAREHU_HANDLE_NEW = 4,
    FIKAREHU_HANDLE_BIND = 5,
    FIKAREHU_CELL_NEW = 6,
    FIKAREHU_CELL_EXCH = 7,
    FIKAREHU_CASE_PAIR = 8,
    FIKAREHU_CASE_LIST = 9
};

/* The answer of a check. */
struct fikarehu_verdict {
    uint32_t refusal;                  /* 0 for accepted, else 1 to 11 or 19, and every other field is 0 */
    uint32_t bays;                     /* b, the number of bays, at least 1 */
    uint8_t types[FIKAREHU_MAX_BAYS];  /* each bay's type number; 0 beyond the bays */
};

/* The answer of a load of either profile. */
struct fikarehu_loaded {
    uint32_t refusal;                  /* 0 for loaded, else 12, 1 to 11, 19, or in the separate profile 20 or
                                          21, and every other field is 0 */
    uint32_t bays;                     /* b, the number of bays, at least 1 */
    uint8_t types[FIKAREHU_MAX_BAYS];  /* each bay's type number; 0 beyond the bays */
    uint64_t length;                   /* the length of the image that was written */
};

/* What a step came to. */
enum {
    FIKAREHU_DONE = 0,     /* the thread's expression is a value */
    FIKAREHU_RULE = 1,     /* a rule moved the thread, and the new image was written */
    FIKAREHU_WAITING = 2,  /* the thread needs the value of another name */
    FIKAREHU_REFUSED = 3   /* nothing was done */
};

/* The answer of a step of either profile. */
struct fikarehu_stepped {
    uint32_t outcome;   /* FIKAREHU_DONE, _RULE, _WAITING or _REFUSED */
    uint32_t number;    /* 0 when done, the rule 1 to 9, the awaited name, or the refusal 12 to 17 */
    uint64_t length;    /* the new image's length after a rule, else 0 */
};

/* Why a run stopped. */
enum {
    FIKAREHU_TURNS = 0,  /* all turns were taken; nothing is said of the threads */
    FIKAREHU_IDLE = 1,   /* before that: no rule moves any thread; each is done or waits */
    FIKAREHU_ROOM = 2    /* before that: rules move some threads, and each of these lacks room */
};

/* The answer of a run. */
struct fikarehu_ran {
    uint32_t refusal;  /* 0 for run, else the refusal, 12, 1 to 11 or 19, and every other field is 0 */
    uint32_t stop;     /* FIKAREHU_TURNS, _IDLE or _ROOM */
    uint32_t turns;    /* the turns taken */
    uint32_t buffer;   /* the last image's: 0 for the first, 1 for the second */
    uint64_t length;   /* the last image's */
};

/* The verdict on the recipe of recipe_len bytes. */
struct fikarehu_verdict fikarehu_check(const uint8_t *recipe, size_t recipe_len);

/* Checks the recipe and writes its starting image to out. Bay k's setting holds its starting num, the
 * two bytes from 2k on of the starting part; in editions 1 and 2 it holds 0. */
struct fikarehu_loaded fikarehu_load(const uint8_t *recipe, size_t recipe_len, uint8_t *out, size_t out_len);

/* Steps one thread of the image, the whole slice of image_len bytes, and writes the new image to
 * out. Any thread number may be given; one that is no thread of the image is refused with
 * FIKAREHU_REFUSED_NO_THREAD. */
struct fikarehu_stepped fikarehu_step(const uint8_t *image, size_t image_len, uint64_t thread, uint8_t *out,
                                      size_t out_len);

/* As fikarehu_load, and refuses besides a bay k whose term names another setting than k, wherever in it
 * (20), then a bay whose setting and term have more nodes than its share (21). */
struct fikarehu_loaded fikarehu_load_separate(const uint8_t *recipe, size_t recipe_len, uint8_t *out,
                                              size_t out_len);

/* As fikarehu_step, but 15 is answered where the rule's outcome leaves any bay above its share: more of
 * the names that the bay owns, or more nodes over the threads and cells among them. b is one more than the
 * highest owner in the image handed in. */
struct fikarehu_stepped fikarehu_step_separate(const uint8_t *image, size_t image_len, uint64_t thread,
                                               uint8_t *out, size_t out_len);

/* Checks the recipe, loads it into the first buffer, and takes up to that many turns, each a step
 * from one buffer into the other. A turn steps the first thread that a rule moves and that has
 * room, going round by number from the one after the last stepped; the first turn starts from the
 * lowest number. The run stops before that many turns only when there is no such thread. */
struct fikarehu_ran fikarehu_run(const uint8_t *recipe, size_t recipe_len, uint16_t turns, uint8_t *first,
                                 size_t first_len, uint8_t *second, size_t second_len);

#ifdef __cplusplus
}
#endif

#endif
