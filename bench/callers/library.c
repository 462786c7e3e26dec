/* library CORRECT FILE COUNT: writes the report of a trace by the library, after so many calls for it. */
#include "../bindings/synchrony.h"
#include <stdio.h>
#include <stdlib.h>

enum { ROOM = 1 << 20 };

int main(int count, char **words) {
    if (count < 4) return 2;
    uint64_t correct = strtoull(words[1], 0, 0);
    FILE *file = fopen(words[2], "rb");
    uint8_t *text = malloc(SYNCHRONY_MAX_TEXT + 1), *out = malloc(ROOM);
    if (!file || !text || !out) return 6;
    size_t length = fread(text, 1, SYNCHRONY_MAX_TEXT + 1, file), size = 0;
    uint32_t answer = SYNCHRONY_DONE;
    for (long calls = strtol(words[3], 0, 0); calls > 0 && answer == SYNCHRONY_DONE; calls--)
        answer = synchrony_report(correct, text, length, out, ROOM, &size);
    if (answer == SYNCHRONY_DONE) fwrite(out, 1, size, stdout);
    return answer;
}
