/* An allocator that refuses, preloaded into a built program (LD_PRELOAD).
 *
 * Tests: a request of 2^62 bytes and more takes no memory, and is a signal. Below, MORE is what it has above that.
 *   MORE from 1 to 0xFFFF        counting begins anew; the request of this number is refused, the next one being 1
 *   MORE 0x10000 and a count     granted if that number of requests was made since, and none was refused; counting ends
 *   MORE 0x20000 and a size      granted exactly where none of these requests was larger; counting ends
 *   MORE 0x30000                 granted exactly where one of them was refused; counting ends
 *
 * Programs: where the environment has REFUSE=K, the K-th request of the process is refused. Where it has REFUSE_COUNT=FILE,
 * the file tells how many requests were made, and whether one of them was refused.
 */
#define _GNU_SOURCE
#include <dlfcn.h>
#include <errno.h>
#include <fcntl.h>
#include <stdio.h>
#include <stdlib.h>
#include <unistd.h>

static const size_t SIGNAL = (size_t)1 << 62;

static void *(*real_malloc)(size_t);
static void *(*real_realloc)(void *, size_t);

static unsigned long made, refused_at, was_refused;
static size_t largest;
static int counts;

static void set_up(void) {
    if (real_malloc)
        return;
    real_realloc = (void *(*)(void *, size_t))dlsym(RTLD_NEXT, "realloc");
    real_malloc = (void *(*)(size_t))dlsym(RTLD_NEXT, "malloc");
}

__attribute__((constructor)) static void begin(void) {
    set_up();
    const char *number = getenv("REFUSE");
    refused_at = number ? strtoul(number, NULL, 10) : 0;
    made = was_refused = 0;
    counts = number || getenv("REFUSE_COUNT");
}

__attribute__((destructor)) static void end(void) {
    const char *file = getenv("REFUSE_COUNT");
    counts = 0;
    if (!file)
        return;
    int to = open(file, O_WRONLY | O_CREAT | O_TRUNC, 0600);
    if (to < 0 || dprintf(to, "%lu %lu\n", made, was_refused) < 0)
        _exit(99);
    close(to);
}

/* Whether this request is to be refused. */
static int is_refused(size_t size) {
    if (!counts)
        return 0;
    made++;
    if (size > largest)
        largest = size;
    if (made != refused_at)
        return 0;
    was_refused++;
    return 1;
}

static void *refuse(void) {
    errno = ENOMEM;
    return NULL;
}

/* What a signal is answered. */
static void *answer(size_t more) {
    size_t kind = more >> 16, number = more & 0xFFFF;
    if (more == 0 || kind > 3)
        return refuse();
    int is_granted[] = {1, made == number && !was_refused, largest <= number, was_refused != 0};
    counts = kind == 0;
    if (counts) {
        made = was_refused = largest = 0;
        refused_at = number;
    }
    return is_granted[kind] ? real_malloc(1) : refuse();
}

void *malloc(size_t size) {
    set_up();
    if (size >= SIGNAL)
        return answer(size - SIGNAL);
    return is_refused(size) ? refuse() : real_malloc(size);
}

void *realloc(void *block, size_t size) {
    set_up();
    return is_refused(size) ? refuse() : real_realloc(block, size);
}
