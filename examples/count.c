/* How many frames are enough? Reads a trace file, counts its hits at every capacity, and prints the smallest capacity at
 * which the trace has at most so many misses.
 *
 *   count FILE lru|lfu|opt MISSES
 *
 * Status: 0 a capacity is printed, or that none is enough; 1 the file is refused; 2 bad usage, or no such file. */
#include "musselrung.h"

#include <inttypes.h>
#include <stdio.h>
#include <stdlib.h>
#include <string.h>

/* The largest numbers that a call is lent; on a small machine they are better static than on the stack. */
static uint8_t file[MUSSELRUNG_FILE + 1]; /* one more, so that a longer file is seen to be one */
static uint16_t capacities[MUSSELRUNG_CAPACITIES];
static uint16_t references[MUSSELRUNG_REFERENCES];
static uint32_t hits[MUSSELRUNG_CAPACITIES];

static int bad(const char *what) {
    fprintf(stderr, "count: %s\n", what);
    return 2;
}

int main(int words, char **word) {
    static const char *const policies[MUSSELRUNG_POLICIES] = {"lru", "lfu", "opt"};
    uint32_t policy = 0, answer, c;
    uint64_t counts[2], place, most;
    size_t length;
    char *end;
    FILE *from;

    if (words != 4)
        return bad("usage: count FILE lru|lfu|opt MISSES");
    while (policy < MUSSELRUNG_POLICIES && strcmp(word[2], policies[policy]) != 0)
        policy++;
    most = strtoull(word[3], &end, 10);
    if (end == word[3] || *end != '\0')
        return bad("MISSES is a number");
    from = fopen(word[1], "rb");
    if (from == NULL)
        return bad("no such file");
    length = fread(file, 1, sizeof file, from);
    fclose(from);

    answer = musselrung_read(file, length, capacities, references, counts, &place);
    if (answer == 0)
        answer = musselrung_count(references, counts[1], policy, MUSSELRUNG_CAPACITIES, hits, MUSSELRUNG_CAPACITIES, &place);
    if (answer != 0) {
        printf("refused %" PRIu32, answer);
        if (answer == MUSSELRUNG_BAD_PAGE)
            printf(": reference %" PRIu64, place);
        printf("\n");
        return 1;
    }
    for (c = 1; c <= MUSSELRUNG_CAPACITIES; c++) {
        uint64_t misses = counts[1] - hits[c - 1];
        if (misses <= most) {
            printf("%" PRIu32 " frames: %" PRIu64 " misses in %" PRIu64 " references\n", c, misses, counts[1]);
            return 0;
        }
    }
    printf("no capacity up to %d is enough\n", MUSSELRUNG_CAPACITIES);
    return 0;
}
