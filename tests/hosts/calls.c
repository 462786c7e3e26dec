/* calls report CORRECT ROOM <TRACE
   calls check CORRECT ROOM CERTIFICATE <TRACE

   One call with this much room. Prints its answer, its size and the bytes of the room then, as far as they are written.
   The status is the answer; or 100, if a byte was written that none should be. */
#include "../../bindings/synchrony.h"
#include <stdio.h>
#include <stdlib.h>
#include <string.h>

enum { BEFORE = 7, BEHIND = 16, WRONG = 100 };

struct text {
    uint8_t *bytes;
    size_t length;
};

static struct text read_all(FILE *file) {
    struct text it = { malloc(SYNCHRONY_MAX_TEXT + 1), 0 };
    if (file && it.bytes) it.length = fread(it.bytes, 1, SYNCHRONY_MAX_TEXT + 1, file);
    return it;
}

int main(int count, char **words) {
    if (count < 4) return WRONG;
    uint64_t correct = strtoull(words[2], 0, 0);
    size_t room = strtoull(words[3], 0, 0), size = SIZE_MAX, written = 0;
    struct text trace = read_all(stdin);
    uint8_t *out = malloc(room + BEHIND);
    memset(out, BEFORE, room + BEHIND);

    uint32_t answer;
    if (strcmp(words[1], "check") == 0) {
        struct text certificate = read_all(fopen(words[4], "rb"));
        answer = synchrony_check(correct, trace.bytes, trace.length, certificate.bytes, certificate.length, out, room, &size);
    } else {
        answer = synchrony_report(correct, trace.bytes, trace.length, out, room, &size);
    }
    if (answer != SYNCHRONY_NO_ROOM && size != SIZE_MAX) written = size < room ? size : room;
    for (size_t at = written; at < room + BEHIND; at++)
        if (out[at] != BEFORE) return WRONG;
    printf("%u %zd\n", answer, (ssize_t)size);
    fwrite(out, 1, written, stdout);
    return answer;
}
