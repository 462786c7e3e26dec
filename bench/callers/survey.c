/* survey CORRECT TICK <NAMES: prints the least bounds that hold from a tick on, for each trace whose file is named. It makes the
   calls that a survey of the Python package makes, and nothing else. */
#include "../bindings/synchrony.h"
#include <stdio.h>
#include <stdlib.h>
#include <string.h>

enum { ROOM = 1 << 20, TEXT = 1 << 24 };

static char text[TEXT], out[ROOM + 1], name[4096];

/* The line of the last row that begins no later than the tick. */
static char *row_at(unsigned long tick) {
    char *row = strchr(out, '\n') + 1;
    for (char *next = row; *next && strtoul(next, 0, 10) <= tick; next = strchr(next, '\n') + 1) row = next;
    return row;
}

int main(int count, char **words) {
    if (count < 3) return 2;
    uint64_t correct = strtoull(words[1], 0, 0);
    unsigned long tick = strtoul(words[2], 0, 10), delta, phi;
    while (fgets(name, sizeof name, stdin)) {
        name[strcspn(name, "\n")] = 0;
        FILE *file = fopen(name, "rb");
        if (!file) return 6;
        size_t length = fread(text, 1, TEXT, file), size = 0;
        fclose(file);
        uint32_t answer = synchrony_report(correct, (uint8_t *)text, length, (uint8_t *)out, ROOM, &size);
        if (answer != SYNCHRONY_DONE) return answer;
        out[size] = 0;
        sscanf(row_at(tick), "%*u,%lu,%lu", &delta, &phi);
        printf("%s,%lu,%lu\n", name, delta, phi);
    }
    return 0;
}
