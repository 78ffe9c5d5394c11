/* What the C tests share: counting checks, a buffer against a page that traps, a small stack. */
#ifndef FIKAREHU_TESTS_CHECK_H
#define FIKAREHU_TESTS_CHECK_H

#include <pthread.h>
#include <stdint.h>
#include <stdio.h>
#include <stdlib.h>
#include <string.h>
#include <sys/mman.h>
#include <unistd.h>

/* The stack that docs/HOST.md asks of a thread that calls. */
enum { SMALL_STACK = 64 * 1024 };

static unsigned checks, failures;

/* One check; a line for a failure only. */
#define CHECK(condition, ...)                            \
    do {                                                 \
        checks++;                                        \
        if (!(condition)) {                              \
            failures++;                                  \
            printf("%s:%d: failed: ", __FILE__, __LINE__); \
            printf(__VA_ARGS__);                         \
            printf("\n");                                \
        }                                                \
    } while (0)

/* The last line, and the program's exit code. */
static int finish(void) {
    printf("%u checks, %u failed\n", checks, failures);
    return failures == 0 ? 0 : 1;
}

static void must(int fine, const char *what) {
    if (!fine) {
        printf("the test itself failed: %s\n", what);
        exit(2);
    }
}

/* The end of a readable and writable room of at least `room` bytes, where a page begins that traps. */
static inline uint8_t *end_before_trap(size_t room) {
    size_t page = (size_t)sysconf(_SC_PAGESIZE);
    size_t pages = (room + page - 1) / page;
    uint8_t *map = mmap(NULL, (pages + 1) * page, PROT_READ | PROT_WRITE, MAP_PRIVATE | MAP_ANONYMOUS, -1, 0);
    must(map != MAP_FAILED, "mmap");
    must(mprotect(map + pages * page, page, PROT_NONE) == 0, "mprotect");
    return map + pages * page;
}

/* Runs the function on a thread of its own with a stack of that many bytes. */
static inline void on_small_stack(size_t bytes, void *(*function)(void *), void *argument) {
    pthread_attr_t attributes;
    pthread_t thread;
    must(pthread_attr_init(&attributes) == 0, "pthread_attr_init");
    must(pthread_attr_setstacksize(&attributes, bytes) == 0, "pthread_attr_setstacksize");
    must(pthread_create(&thread, &attributes, function, argument) == 0, "pthread_create");
    must(pthread_join(thread, NULL) == 0, "pthread_join");
    pthread_attr_destroy(&attributes);
}

#endif
