/*
 * A host in C: loads a recipe and takes turns between two buffers, and prints every bay's vent opening when no thread can go any more, or
 * after the turns that were asked for, and then whose jobs wait or lack room. The runner takes the turns; with --steps, a loop of steps
 * takes the same ones. With --separate, the load and the steps are those of the separate profile, for bays with a tenant each. With --open,
 * a bay's vent is set by hand before the first turn: its starting num in the recipe's bytes.
 *
 *   make library && cc -std=c11 -Iinclude examples/host.c target/staticlib/libfikarehu.a -o host && ./host examples/nine-bays.recipe 1000
 */
#include <stdio.h>
#include <stdlib.h>
#include <string.h>

#include "fikarehu.h"
#include "vent.c"

static unsigned names_of(const uint8_t *image) {
    return image[0] + 256u * image[1];
}

static void print_vents(const uint8_t *image, uint32_t bays) {
    for (uint32_t bay = 0; bay < bays; bay++) {
        struct vent vent = read_vent(image, bay);
        printf("bay %u: ", bay);
        switch (vent.state) {
        case VENT_OPENING:
            if (vent.opening > VENT_WIDE_OPEN) {
                printf("%u\n", vent.opening);
            } else {
                printf("%u.%u %%\n", vent.opening / 10, vent.opening % 10);
            }
            break;
        case VENT_AWAITS_THREAD:
            printf("awaits name %u, a thread of bay %u that is not done\n", vent.name, read_owner(image, vent.name));
            break;
        case VENT_AWAITS_FUTURE:
            printf("awaits name %u, a future of bay %u that is not bound\n", vent.name, read_owner(image, vent.name));
            break;
        case VENT_NEVER:
            printf("never a value: name %u leads back to itself\n", vent.name);
            break;
        case VENT_NO_NUM:
            printf("no num\n");
            break;
        }
    }
}

static void print_stop(uint32_t stop) {
    switch (stop) {
    case FIKAREHU_TURNS:
        printf("all turns are taken\n");
        break;
    case FIKAREHU_IDLE:
        printf("no thread can go: each is done or waits\n");
        break;
    case FIKAREHU_ROOM:
        printf("no thread can go: one lacks room\n");
        break;
    }
}

/* What a run comes to: the fields of the runner's answer, and the last image. */
struct course {
    struct fikarehu_ran ran;
    const uint8_t *image;
};

static uint8_t first[FIKAREHU_MAX_IMAGE], second[FIKAREHU_MAX_IMAGE];

/* A profile's load and step, which go together: what the one has written goes to the other. */
struct profile {
    struct fikarehu_loaded (*load)(const uint8_t *recipe, size_t recipe_len, uint8_t *out, size_t out_len);
    struct fikarehu_stepped (*step)(const uint8_t *image, size_t image_len, uint64_t thread, uint8_t *out, size_t out_len);
};

static const struct profile common = {fikarehu_load, fikarehu_step};
static const struct profile separate = {fikarehu_load_separate, fikarehu_step_separate};

/* Whose jobs wait, and for whose, and whose lack room: each thread is tried by a step, and the run does not go on from what that writes. */
static void print_standing(const struct profile *profile, const struct course *course) {
    const uint8_t *image = course->image;
    uint8_t *other = course->ran.buffer == 0 ? second : first;
    for (unsigned name = 0; name < names_of(image); name++) {
        struct fikarehu_stepped stepped = profile->step(image, course->ran.length, name, other, sizeof first);
        if (stepped.outcome == FIKAREHU_WAITING) {
            printf("thread %u of bay %u waits for name %u of bay %u\n", name, read_owner(image, name), stepped.number,
                   read_owner(image, stepped.number));
        } else if (stepped.outcome == FIKAREHU_REFUSED && stepped.number == FIKAREHU_REFUSED_ROOM) {
            printf("thread %u of bay %u lacks room\n", name, read_owner(image, name));
        }
    }
}

/* The first way: one call, in the common profile. */
static struct course by_runner(const uint8_t *recipe, size_t size, uint16_t turns) {
    struct fikarehu_ran ran = fikarehu_run(recipe, size, turns, first, sizeof first, second, sizeof second);
    return (struct course){ran, ran.buffer == 0 ? first : second};
}

/* Steps the first thread that goes, from a number on and round to the number before; the number after it is the next one to look at. */
static uint32_t take_turn(const struct profile *profile, struct course *course, unsigned *from) {
    uint8_t *other = course->ran.buffer == 0 ? second : first;
    unsigned names = names_of(course->image);
    uint32_t stop = FIKAREHU_IDLE;
    for (unsigned more = 0; more < names; more++) {
        unsigned name = (*from + more) % names;
        struct fikarehu_stepped stepped =
            profile->step(course->image, course->ran.length, name, other, sizeof first);
        if (stepped.outcome == FIKAREHU_RULE) {
            *from = name + 1;
            course->image = other;
            course->ran.buffer ^= 1;
            course->ran.length = stepped.length;
            course->ran.turns++;
            return FIKAREHU_TURNS;
        }
        if (stepped.outcome == FIKAREHU_REFUSED && stepped.number == FIKAREHU_REFUSED_ROOM) {
            stop = FIKAREHU_ROOM; /* the image stays as it is, as with done, waiting and a number that is no thread */
        }
    }
    return stop;
}

/* The second way: a load and a loop of steps, which could choose another order or stop when the host likes. */
static struct course by_steps(const struct profile *profile, const uint8_t *recipe, size_t size, uint16_t turns) {
    struct fikarehu_loaded loaded = profile->load(recipe, size, first, sizeof first);
    struct course course = {{.refusal = loaded.refusal, .length = loaded.length}, first};
    unsigned from = 0;
    while (loaded.refusal == 0 && course.ran.turns < turns && course.ran.stop == FIKAREHU_TURNS) {
        course.ran.stop = take_turn(profile, &course, &from);
    }
    return course;
}

/* The turns of a run that is told no other number. */
enum { TURNS = 1000, MOST_TURNS = 65535 };

static int usage(const char *program) {
    fprintf(stderr, "use: %s [--steps | --separate] [--open BAY=NUM].. RECIPE [TURNS, 0 to %d]\n", program, MOST_TURNS);
    return 1;
}

/* Sets a vent by hand, as BAY=NUM says. */
static int set_by_hand(uint8_t *recipe, size_t size, const char *word) {
    unsigned bay, opening;
    char more;
    return sscanf(word, "%u=%u%c", &bay, &opening, &more) == 2 && opening <= UINT16_MAX &&
           write_opening(recipe, size, bay, (uint16_t)opening);
}

int main(int count, char **words) {
    static uint8_t recipe[FIKAREHU_MAX_FILE + 1];
    const char *openings[FIKAREHU_MAX_BAYS];
    const struct profile *profile = &common;
    int steps = 0, set = 0, at = 1;
    for (; at < count && strncmp(words[at], "--", 2) == 0; at++) {
        if (strcmp(words[at], "--steps") == 0) {
            steps = 1;
        } else if (strcmp(words[at], "--separate") == 0) {
            steps = 1; /* the runner knows no separate bays */
            profile = &separate;
        } else if (strcmp(words[at], "--open") == 0 && at + 1 < count && set < FIKAREHU_MAX_BAYS) {
            openings[set++] = words[++at];
        } else {
            return usage(words[0]);
        }
    }
    if (count - at < 1 || count - at > 2) {
        return usage(words[0]);
    }
    const char *name = words[at];
    char *end = "";
    unsigned long turns = count - at < 2 ? TURNS : strtoul(words[at + 1], &end, 10);
    if (*end != '\0' || turns > MOST_TURNS) {
        return usage(words[0]);
    }
    FILE *file = fopen(name, "rb");
    if (file == NULL) {
        perror(name);
        return 1;
    }
    size_t size = fread(recipe, 1, sizeof recipe, file); /* one byte more than the limit: a longer file is refused */
    if (ferror(file)) {
        perror(name);
        return 1;
    }
    fclose(file);

    for (int i = 0; i < set; i++) {
        if (!set_by_hand(recipe, size, openings[i])) {
            fprintf(stderr, "%s: no starting num can be set by %s\n", name, openings[i]);
            return 1;
        }
    }
    struct course course =
        steps ? by_steps(profile, recipe, size, (uint16_t)turns) : by_runner(recipe, size, (uint16_t)turns);
    if (course.ran.refusal != 0) {
        fprintf(stderr, "%s: refused %u\n", name, course.ran.refusal);
        return 1;
    }
    printf("%u turns taken, %u names; ", course.ran.turns, names_of(course.image));
    print_stop(course.ran.stop);
    print_vents(course.image, fikarehu_check(recipe, size).bays);
    print_standing(profile, &course);
    return 0;
}
