/* Plans the table on standard input, prints the plan, and asks a machine for changes of its mode.
 *
 * bash tools/staticlib.sh && cc -O2 -I include examples/change.c target/staticlib/libstellarsnare.a -o target/change
 * target/change < examples/printed.csv
 */
#include <inttypes.h>
#include <stdio.h>

#include "stellarsnare.h"

/* a byte more than the longest text has, so that a longer one is refused and not cut */
static uint8_t text[65536 + 1];
static uint64_t words[STELLARSNARE_WORDS];
static uint8_t out[STELLARSNARE_PRINTED];
static uint64_t machine[3];
static uint64_t refusal[5];

/* A line: a word, and numbers. */
static void line(const char *word, const uint64_t *numbers, size_t count) {
    fputs(word, stdout);
    for (size_t i = 0; i < count; i++) {
        printf(",%" PRIu64, numbers[i]);
    }
    fputs("\r\n", stdout);
}

static int refused(void) {
    line("refused", refusal, 5);
    return 1;
}

/* Asks for a mode at a tick: the line has the delay, and the machine after it. */
static void request(uint64_t mode, uint64_t clock) {
    uint64_t delay = 0;
    if (!stellarsnare_request(words, STELLARSNARE_WORDS, machine, mode, clock, &delay, refusal)) {
        refused();
        return;
    }
    line("accepted", (uint64_t[]){delay, machine[0], machine[1], machine[2]}, 4);
}

int main(void) {
    size_t bytes = fread(text, 1, sizeof text, stdin);
    if (!stellarsnare_plan(text, bytes, words, STELLARSNARE_WORDS, refusal)) {
        return refused();
    }
    size_t length = 0;
    if (!stellarsnare_print(words, STELLARSNARE_WORDS, out, STELLARSNARE_PRINTED, &length, refusal)) {
        return refused();
    }
    fwrite(out, 1, length, stdout);
    if (!stellarsnare_start(words, STELLARSNARE_WORDS, 2, machine, refusal)) {
        return refused();
    }
    line("machine", machine, 3);
    request(1, 21);
    request(2, 45);
    request(2, 46);
    return 0;
}
