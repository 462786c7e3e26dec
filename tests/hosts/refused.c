/* refused CORRECT CERTIFICATE <TRACE

   Refuses each allocation of a report, one at a time, and then of a check, and prints how many allocations each has.
   Each refused one has to be answered by out of memory, with `out` and `size` as before and no block still held; the
   status is 0 only if all are. The heap is this program's own: it defines what the library calls of one. */
#include "../../bindings/synchrony.h"
#include <stdio.h>
#include <stdlib.h>
#include <string.h>

enum { ROOM = 1 << 16, TEXT = 1 << 20, BEFORE = 7 };

struct tried {
    uint64_t ok;
    void *block;
};
static long left, held;
static char nothing[16];

static struct tried tried(void *block) { return (struct tried){ block != 0, block ? block : nothing }; }

struct tried rattle_alloc(size_t size, size_t align) {
    if (left-- == 0) return tried(0);
    held++;
    return tried(malloc(size ? size : align));
}

struct tried rattle_realloc(void *block, size_t kept, size_t size, size_t align) {
    (void)kept;
    if (left-- == 0) return tried(0);
    return tried(realloc(block, size ? size : align));
}

void rattle_dealloc(void *block) { held--, free(block); }

static uint8_t trace[TEXT], certificate[TEXT], out[ROOM];
static size_t length, certificate_length, size;

static uint32_t report(uint64_t correct) { return synchrony_report(correct, trace, length, out, ROOM, &size); }

static uint32_t check(uint64_t correct) {
    return synchrony_check(correct, trace, length, certificate, certificate_length, out, ROOM, &size);
}

/* Whether a refused allocation has left everything as before. */
static int is_as_before(uint32_t answer) {
    if (answer != SYNCHRONY_NO_MEMORY || size != BEFORE || held) return 0;
    for (size_t at = 0; at < ROOM; at++)
        if (out[at] != BEFORE) return 0;
    return 1;
}

/* How many allocations a call has, or -1. */
static long count_growths(uint32_t (*call)(uint64_t), uint64_t correct) {
    for (long growth = 0;; growth++) {
        memset(out, BEFORE, ROOM);
        left = growth, held = 0, size = BEFORE;
        uint32_t answer = call(correct);
        if (left >= 0) return held ? -1 : growth - left;
        if (!is_as_before(answer)) return printf("growth %ld: answer %u, size %zu, %ld blocks held\n", growth, answer, size, held), -1;
    }
}

int main(int count, char **words) {
    if (count < 3) return 2;
    uint64_t correct = strtoull(words[1], 0, 0);
    FILE *file = fopen(words[2], "rb");
    length = fread(trace, 1, TEXT, stdin);
    certificate_length = file ? fread(certificate, 1, TEXT, file) : 0;
    long reports = count_growths(report, correct), checks = count_growths(check, correct);
    printf("%ld %ld\n", reports, checks);
    return reports < 0 || checks < 0;
}
