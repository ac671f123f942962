/* A trace as it comes: gives the references of a trace file to a session one by one, and prints what it can be asked at the end.
 *
 *   session FILE lru|lfu K
 *
 * Status: 0; 1 the file, the policy or K is refused; 2 bad usage, or no such file. */
#include "musselrung.h"

#include <inttypes.h>
#include <stdio.h>
#include <stdlib.h>
#include <string.h>

static musselrung_session session;
static uint8_t file[MUSSELRUNG_FILE + 1]; /* one more, so that a longer file is seen to be one */
static uint16_t capacities[MUSSELRUNG_CAPACITIES], references[MUSSELRUNG_REFERENCES], shown[MUSSELRUNG_CAPACITIES];

static int refused(uint32_t answer) {
    printf("refused %" PRIu32 "\n", answer);
    return 1;
}

int main(int words, char **word) {
    uint64_t counts[2], value, i, c, k, first = 0;
    uint32_t policy, answer;
    FILE *from;

    if (words != 4 || (from = fopen(word[1], "rb")) == NULL) {
        fprintf(stderr, "usage: session FILE lru|lfu K\n");
        return 2;
    }
    answer = musselrung_read(file, fread(file, 1, sizeof file, from), capacities, references, counts, &value);
    fclose(from);
    if (answer != 0)
        return refused(answer);
    policy = strcmp(word[2], "lru") == 0 ? MUSSELRUNG_LRU : strcmp(word[2], "lfu") == 0 ? MUSSELRUNG_LFU : MUSSELRUNG_OPT;
    k = strtoull(word[3], NULL, 10);
    answer = musselrung_session_start(&session, policy, k);
    if (answer != 0)
        return refused(answer);

    for (i = 0; i < counts[1]; i++) {
        answer = musselrung_session_refer(&session, references[i], &value);
        if (answer != 0)
            return refused(answer);
        first += value == 0; /* the page was not in the list */
    }
    musselrung_session_references(&session, &value);
    printf("%" PRIu64 " references, %" PRIu64 " of them to a page not in the list\n", value, first);
    printf("list");
    musselrung_session_list(&session, shown, &value);
    for (i = 0; i < value; i++)
        printf(" %d", shown[i]);
    printf("\n");
    for (c = 1; c <= k; c++) {
        uint64_t hits, misses;
        if (musselrung_session_hits(&session, c, &hits) == 0 && musselrung_session_misses(&session, c, &misses) == 0)
            printf("%" PRIu64 " frames: %" PRIu64 " hits, %" PRIu64 " misses\n", c, hits, misses);
    }
    printf("%" PRIu64 " frames: refused %" PRIu32 "\n", c, musselrung_session_hits(&session, c, &value));
    printf("sound: %" PRIu32 "\n", musselrung_session_sound(&session));
    return 0;
}
