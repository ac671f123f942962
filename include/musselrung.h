/* Musselrung for C11 and C++17: hits of a page trace at every number of frames, and which frame to give up.
 *
 * Link with libmusselrung.a, which `tools/library` builds. docs/C.md says how, and has the stack, the bytes and the time of
 * each call; docs/RULES.md has the rules that the ids in brackets name.
 *
 * How calls answer. A call that can be refused answers 0, or the number of the refusal that applies first, in the order given
 * with the call (A2). Three kinds cannot: `_fresh` answers nothing, musselrung_report a number of bytes, and `_sound` 1 for
 * good and 0 for bad. What a call tells beside that, where there is something to tell, it writes to its last argument: what an
 * accepted call answers, else 0; musselrung_count, _list and _read tell the place of a bad page there (A1). A refused call
 * changes nothing else. Ids in brackets are those of docs/RULES.md and may be skipped.
 *
 * What stands in a structure. A session, a row and banks are memory that the caller lends. Only these calls should write it,
 * but nothing is taken on trust: each call first tests what it was lent, and answers MUSSELRUNG_UNSOUND, before any other
 * refusal, if no such thing can be worked with (X2 to X6, said at each structure). Memory of zeros always fails: begin with
 * musselrung_session_start, musselrung_row_fresh or musselrung_banks_fresh, which take any memory.
 *
 * What the caller owes. Pointers that are not null and lead to as much memory as the declaration says, in which no two
 * arguments of one call overlap; the true length of a trace, a table and a file; and one call at a time on one structure.
 * Calls on different structures may run at once: there is no memory behind them. None allocates or waits. And no call of a row on
 * the row inside banks: musselrung_row_put and its like do not look at the gates, and would let a transfer into a bank
 * without power. */
#ifndef MUSSELRUNG_H
#define MUSSELRUNG_H

#include <stddef.h>
#include <stdint.h>

/* ---- limits (L1 to L8): each is a number of things, so the largest page number is one less than MUSSELRUNG_PAGES */

#define MUSSELRUNG_CAPACITIES 64
#define MUSSELRUNG_REFERENCES 4096
#define MUSSELRUNG_PAGES 1024
#define MUSSELRUNG_FRAMES 64
#define MUSSELRUNG_SLOTS 64
#define MUSSELRUNG_HELD 32
#define MUSSELRUNG_BANKS 4
#define MUSSELRUNG_BANK_FRAMES 16
#define MUSSELRUNG_POLICIES 3

/* depths 1 to 64, and 0 for "not in the list" */
#define MUSSELRUNG_DEPTHS 65

/* the bytes of the longest trace file (F5), and of the room that a report is written into */
#define MUSSELRUNG_FILE 8324
#define MUSSELRUNG_REPORT 2880

/* policies (L7); a session takes the first two */
#define MUSSELRUNG_LRU 0
#define MUSSELRUNG_LFU 1
#define MUSSELRUNG_OPT 2

/* ---- refusals (R1 to R40) */

#define MUSSELRUNG_BAD_LIMIT 1           /* K is not 1 to 64 */
#define MUSSELRUNG_TOO_MANY_REFERENCES 2 /* more than 4,096 */
#define MUSSELRUNG_BAD_PAGE 3            /* a page above 1,023 */
#define MUSSELRUNG_SHORT_TABLE 4         /* a hit table shorter than K */
#define MUSSELRUNG_BAD_POLICY 5          /* a policy above 2, or 2 for a session */
#define MUSSELRUNG_SESSION_FULL 6        /* the session has accepted 4,096 references */
#define MUSSELRUNG_BAD_CAPACITY 7        /* the capacity asked of a session is not 1 to K */
#define MUSSELRUNG_CUT_FILE 8            /* the file ends inside a count or a section */
#define MUSSELRUNG_BAD_CAPACITIES 9      /* over 64 capacities, one that is not 1 to 64, or not rising strictly */
#define MUSSELRUNG_BYTES_LEFT 10         /* bytes remain after the last section */
#define MUSSELRUNG_PAST_THE_TRACE 14     /* a list after more references than the trace has */
#define MUSSELRUNG_BAD_FRAME 20          /* a frame above 63 */
#define MUSSELRUNG_HELD_ALREADY 21       /* put of a held frame */
#define MUSSELRUNG_NOT_HELD 22           /* touch, start, end or drop of a frame that is not held */
#define MUSSELRUNG_BUSY_FRAME 23         /* start or drop of a busy frame */
#define MUSSELRUNG_IDLE_FRAME 24         /* end of an idle frame */
#define MUSSELRUNG_ROW_FULL 25           /* put of an absent frame while 32 are held */
#define MUSSELRUNG_NOTHING_HELD 26       /* no victim: nothing is held */
#define MUSSELRUNG_ALL_BUSY 27           /* no victim: every held frame is busy, or in a bank that is not open */
#define MUSSELRUNG_WRONG_BANK_STATE 30   /* close of a bank not open, cut of one not closing, open of an open one */
#define MUSSELRUNG_BANK_BUSY 31          /* cut of a bank while a frame of it is busy: leave its power on */
#define MUSSELRUNG_BAD_BANK 32           /* a bank above 3 */
#define MUSSELRUNG_BANK_NOT_OPEN 33      /* put or start of a frame in a bank that is not open */
#define MUSSELRUNG_UNSOUND 40            /* the lent session, row or banks fail the call's test */

/* ---- structures. Their fields are there to be looked at; only the calls write them. */

/* One reference after the other, under LRU or LFU (S1 to S3).
 * X2, tested by refer, list and references: the policy is 0 or 1, k is 1 to 64, length is at most k, references at most 4,096.
 * X3, tested by hits and misses after X2: the 65 depths add up to the references.
 * X4, tested by musselrung_session_sound alone: X2 and X3; in each place in use stands a page below 1,024 with its count (of
 * counts) beside it, no page twice; the places behind read 0; and the counts add up to the references under LFU, to 0 under
 * LRU. A place holds its page p with its count c as c * 65536 + 65535 - p. */
typedef struct musselrung_session {
    uint64_t k;                               /* how many places the list may have */
    uint64_t length;                          /* how many are in use */
    uint64_t references;                      /* how many references were accepted */
    uint32_t places[MUSSELRUNG_CAPACITIES];   /* the list, place 1 first */
    uint32_t depths[MUSSELRUNG_DEPTHS];       /* how often each depth came */
    uint16_t counts[MUSSELRUNG_PAGES];        /* LFU: how often each page was referenced */
    uint8_t policy;
} musselrung_session;

/* Which frames are held, in the order of their last put or touch (W1 to W7).
 * X5, tested by every row call and by musselrung_row_sound: front is at most 64; a slot that holds a frame is not below the
 * front, and any other reads 64; a held frame (state 1 or 2) has a place below 64 and stands in that slot, an absent one has
 * place 64; as many slots hold a frame as frames are held, and that number is `held`; it is at most 32, and below 32 where the
 * slot at the front is empty or there is none. A row passes exactly if a fresh row and some calls give it. */
typedef struct musselrung_row {
    uint64_t front;                     /* all slots below it are empty */
    uint64_t held;                      /* how many frames are held */
    uint8_t slots[MUSSELRUNG_SLOTS];    /* the frame in each slot, 64 for none; the most recent is first */
    uint8_t places[MUSSELRUNG_FRAMES];  /* the slot of each frame, 64 for none */
    uint8_t states[MUSSELRUNG_FRAMES];  /* 0 absent, 1 idle, 2 busy */
} musselrung_row;

/* A row whose frames lie in four banks that can lose their power (B1 to B6). Its row is for the calls of banks alone.
 * X6, tested by every banks call and by musselrung_banks_sound: X5; the gates of a bank's 16 frames are equal and at most 2, and
 * no frame of an off bank is held. Exact as well. */
typedef struct musselrung_banks {
    musselrung_row row;
    uint8_t gates[MUSSELRUNG_FRAMES]; /* for each frame the state of its bank: 0 off, 1 open, 2 closing */
} musselrung_banks;

#ifdef __cplusplus
#define MUSSELRUNG_ASSERT static_assert
#else
#define MUSSELRUNG_ASSERT _Static_assert
#endif

MUSSELRUNG_ASSERT(sizeof(musselrung_session) == 2592, "a session has 2592 bytes");
MUSSELRUNG_ASSERT(offsetof(musselrung_session, k) == 0, "k");
MUSSELRUNG_ASSERT(offsetof(musselrung_session, length) == 8, "length");
MUSSELRUNG_ASSERT(offsetof(musselrung_session, references) == 16, "references");
MUSSELRUNG_ASSERT(offsetof(musselrung_session, places) == 24, "places");
MUSSELRUNG_ASSERT(offsetof(musselrung_session, depths) == 280, "depths");
MUSSELRUNG_ASSERT(offsetof(musselrung_session, counts) == 540, "counts");
MUSSELRUNG_ASSERT(offsetof(musselrung_session, policy) == 2588, "policy");
MUSSELRUNG_ASSERT(sizeof(musselrung_row) == 208, "a row has 208 bytes");
MUSSELRUNG_ASSERT(offsetof(musselrung_row, front) == 0, "front");
MUSSELRUNG_ASSERT(offsetof(musselrung_row, held) == 8, "held");
MUSSELRUNG_ASSERT(offsetof(musselrung_row, slots) == 16, "slots");
MUSSELRUNG_ASSERT(offsetof(musselrung_row, places) == 80, "places");
MUSSELRUNG_ASSERT(offsetof(musselrung_row, states) == 144, "states");
MUSSELRUNG_ASSERT(sizeof(musselrung_banks) == 272, "banks have 272 bytes");
MUSSELRUNG_ASSERT(offsetof(musselrung_banks, row) == 0, "row");
MUSSELRUNG_ASSERT(offsetof(musselrung_banks, gates) == 208, "gates");

#undef MUSSELRUNG_ASSERT

#ifdef __cplusplus
extern "C" {
#endif

/* ---- whole traces and files: they keep nothing, so there is nothing to test */

/* The hits of a trace at each capacity 1 to k, into the first k entries of the table (A4); later entries stay. `room` is how many
 * entries it has. LRU gives up the page whose last use is longest ago; LFU the one used least often since the start, at equal
 * counts the larger page number; OPT the one whose next use is farthest, among those never used again the larger number.
 * 0, and `place` is 0.
 * Refusals: 5 policy, 1 k, 2 references, 4 room, 3 a bad page, whose index from 0 is then in `place`. */
uint32_t musselrung_count(const uint16_t *trace, uint64_t references, uint32_t policy, uint64_t k, uint32_t *hits,
                          uint64_t room, uint64_t *place);

/* The one-pass list of a trace after its first t references (M8): its pages in the order of places, and 0 behind them.
 * 0, and `length` is how many places are in use.
 * Refusals: 5 policy, 1 k, 2 references, 3 a bad page, whose index from 0 is then in `length`, 14 t. */
uint32_t musselrung_list(const uint16_t *trace, uint64_t references, uint32_t policy, uint64_t k, uint64_t t,
                         uint16_t places[MUSSELRUNG_CAPACITIES], uint64_t *length);

/* Reads a trace file (F1 to F5): a count and so many capacities, rising, then a count and so many pages, each number two bytes,
 * low byte first. Capacities and references go into the tables from their start, how many of each into counts[0] and counts[1].
 * 0, and `place` is 0.
 * Refusals, section by section: 8 no count, 9 too many capacities or 2 too many references, 8 values missing, 9 bad
 * capacities; after both sections 10 bytes left, 3 a bad page, whose index from 0 is then in `place`. */
uint32_t musselrung_read(const uint8_t *file, uint64_t length, uint16_t capacities[MUSSELRUNG_CAPACITIES],
                         uint16_t references[MUSSELRUNG_REFERENCES], uint64_t counts[2], uint64_t *place);

/* Writes the report of a trace file (T1), or the line that it is refused (T2), and answers how many bytes that is. No byte
 * behind them is written. Nothing is refused. */
uint64_t musselrung_report(const uint8_t *file, uint64_t length, uint8_t out[MUSSELRUNG_REPORT]);

/* ---- what is exported over the parts of a structure: skip this block. The calls below it pass the parts; use those. */

uint32_t musselrung_session_start_parts(uint32_t wanted, uint64_t limit, uint8_t *policy, uint64_t *k, uint64_t *length,
                                        uint64_t *references, uint32_t places[MUSSELRUNG_CAPACITIES],
                                        uint32_t depths[MUSSELRUNG_DEPTHS], uint16_t counts[MUSSELRUNG_PAGES]);
uint32_t musselrung_session_refer_parts(uint8_t policy, uint64_t k, uint64_t *length, uint64_t *references,
                                        uint32_t places[MUSSELRUNG_CAPACITIES], uint32_t depths[MUSSELRUNG_DEPTHS],
                                        uint16_t counts[MUSSELRUNG_PAGES], uint32_t page, uint64_t *value);
uint32_t musselrung_session_list_parts(uint8_t policy, uint64_t k, uint64_t length, uint64_t references,
                                       const uint32_t places[MUSSELRUNG_CAPACITIES], uint16_t shown[MUSSELRUNG_CAPACITIES],
                                       uint64_t *value);
uint32_t musselrung_session_references_parts(uint8_t policy, uint64_t k, uint64_t length, uint64_t references,
                                             uint64_t *value);
uint32_t musselrung_session_hits_parts(uint8_t policy, uint64_t k, uint64_t length, uint64_t references,
                                       const uint32_t depths[MUSSELRUNG_DEPTHS], uint64_t capacity, uint64_t *value);
uint32_t musselrung_session_misses_parts(uint8_t policy, uint64_t k, uint64_t length, uint64_t references,
                                         const uint32_t depths[MUSSELRUNG_DEPTHS], uint64_t capacity, uint64_t *value);
uint32_t musselrung_session_sound_parts(uint8_t policy, uint64_t k, uint64_t length, uint64_t references,
                                        const uint32_t places[MUSSELRUNG_CAPACITIES],
                                        const uint32_t depths[MUSSELRUNG_DEPTHS], const uint16_t counts[MUSSELRUNG_PAGES]);

void musselrung_row_fresh_parts(uint8_t slots[MUSSELRUNG_SLOTS], uint8_t places[MUSSELRUNG_FRAMES],
                                uint8_t states[MUSSELRUNG_FRAMES], uint64_t *front, uint64_t *held);
uint32_t musselrung_row_put_parts(uint8_t slots[MUSSELRUNG_SLOTS], uint8_t places[MUSSELRUNG_FRAMES],
                                  uint8_t states[MUSSELRUNG_FRAMES], uint64_t *front, uint64_t *held, uint32_t frame,
                                  uint64_t *value);
uint32_t musselrung_row_touch_parts(uint8_t slots[MUSSELRUNG_SLOTS], uint8_t places[MUSSELRUNG_FRAMES],
                                    uint8_t states[MUSSELRUNG_FRAMES], uint64_t *front, uint64_t *held, uint32_t frame,
                                    uint64_t *value);
uint32_t musselrung_row_start_parts(uint8_t slots[MUSSELRUNG_SLOTS], uint8_t places[MUSSELRUNG_FRAMES],
                                    uint8_t states[MUSSELRUNG_FRAMES], uint64_t *front, uint64_t *held, uint32_t frame,
                                    uint64_t *value);
uint32_t musselrung_row_end_parts(uint8_t slots[MUSSELRUNG_SLOTS], uint8_t places[MUSSELRUNG_FRAMES],
                                  uint8_t states[MUSSELRUNG_FRAMES], uint64_t *front, uint64_t *held, uint32_t frame,
                                  uint64_t *value);
uint32_t musselrung_row_drop_parts(uint8_t slots[MUSSELRUNG_SLOTS], uint8_t places[MUSSELRUNG_FRAMES],
                                   uint8_t states[MUSSELRUNG_FRAMES], uint64_t *front, uint64_t *held, uint32_t frame,
                                   uint64_t *value);
uint32_t musselrung_row_victim_parts(const uint8_t slots[MUSSELRUNG_SLOTS], const uint8_t places[MUSSELRUNG_FRAMES],
                                     const uint8_t states[MUSSELRUNG_FRAMES], uint64_t front, uint64_t held,
                                     uint64_t *value);
uint32_t musselrung_row_sound_parts(const uint8_t slots[MUSSELRUNG_SLOTS], const uint8_t places[MUSSELRUNG_FRAMES],
                                    const uint8_t states[MUSSELRUNG_FRAMES], uint64_t front, uint64_t held);

void musselrung_banks_fresh_parts(uint8_t slots[MUSSELRUNG_SLOTS], uint8_t places[MUSSELRUNG_FRAMES],
                                  uint8_t states[MUSSELRUNG_FRAMES], uint64_t *front, uint64_t *held,
                                  uint8_t gates[MUSSELRUNG_FRAMES]);
uint32_t musselrung_banks_put_parts(uint8_t slots[MUSSELRUNG_SLOTS], uint8_t places[MUSSELRUNG_FRAMES],
                                    uint8_t states[MUSSELRUNG_FRAMES], uint64_t *front, uint64_t *held,
                                    const uint8_t gates[MUSSELRUNG_FRAMES], uint32_t frame, uint64_t *value);
uint32_t musselrung_banks_touch_parts(uint8_t slots[MUSSELRUNG_SLOTS], uint8_t places[MUSSELRUNG_FRAMES],
                                      uint8_t states[MUSSELRUNG_FRAMES], uint64_t *front, uint64_t *held,
                                      const uint8_t gates[MUSSELRUNG_FRAMES], uint32_t frame, uint64_t *value);
uint32_t musselrung_banks_start_parts(uint8_t slots[MUSSELRUNG_SLOTS], uint8_t places[MUSSELRUNG_FRAMES],
                                      uint8_t states[MUSSELRUNG_FRAMES], uint64_t *front, uint64_t *held,
                                      const uint8_t gates[MUSSELRUNG_FRAMES], uint32_t frame, uint64_t *value);
uint32_t musselrung_banks_end_parts(uint8_t slots[MUSSELRUNG_SLOTS], uint8_t places[MUSSELRUNG_FRAMES],
                                    uint8_t states[MUSSELRUNG_FRAMES], uint64_t *front, uint64_t *held,
                                    const uint8_t gates[MUSSELRUNG_FRAMES], uint32_t frame, uint64_t *value);
uint32_t musselrung_banks_drop_parts(uint8_t slots[MUSSELRUNG_SLOTS], uint8_t places[MUSSELRUNG_FRAMES],
                                     uint8_t states[MUSSELRUNG_FRAMES], uint64_t *front, uint64_t *held,
                                     const uint8_t gates[MUSSELRUNG_FRAMES], uint32_t frame, uint64_t *value);
uint32_t musselrung_banks_close_parts(uint8_t slots[MUSSELRUNG_SLOTS], uint8_t places[MUSSELRUNG_FRAMES],
                                      uint8_t states[MUSSELRUNG_FRAMES], uint64_t *front, uint64_t *held,
                                      uint8_t gates[MUSSELRUNG_FRAMES], uint32_t bank, uint64_t *value);
uint32_t musselrung_banks_cut_parts(uint8_t slots[MUSSELRUNG_SLOTS], uint8_t places[MUSSELRUNG_FRAMES],
                                    uint8_t states[MUSSELRUNG_FRAMES], uint64_t *front, uint64_t *held,
                                    uint8_t gates[MUSSELRUNG_FRAMES], uint32_t bank, uint64_t *value);
uint32_t musselrung_banks_open_parts(uint8_t slots[MUSSELRUNG_SLOTS], uint8_t places[MUSSELRUNG_FRAMES],
                                     uint8_t states[MUSSELRUNG_FRAMES], uint64_t *front, uint64_t *held,
                                     uint8_t gates[MUSSELRUNG_FRAMES], uint32_t bank, uint64_t *value);
uint32_t musselrung_banks_victim_parts(const uint8_t slots[MUSSELRUNG_SLOTS], const uint8_t places[MUSSELRUNG_FRAMES],
                                       const uint8_t states[MUSSELRUNG_FRAMES], uint64_t front, uint64_t held,
                                       const uint8_t gates[MUSSELRUNG_FRAMES], uint64_t *value);
uint32_t musselrung_banks_sound_parts(const uint8_t slots[MUSSELRUNG_SLOTS], const uint8_t places[MUSSELRUNG_FRAMES],
                                      const uint8_t states[MUSSELRUNG_FRAMES], uint64_t front, uint64_t held,
                                      const uint8_t gates[MUSSELRUNG_FRAMES]);

/* ---- sessions */

/* Starts a session under a policy with a list of k places, whatever stood in the memory.
 * 0. Refusals: 5 policy (also OPT), 1 k; the memory is then as it was, and no session has started. */
static inline uint32_t musselrung_session_start(musselrung_session *session, uint32_t policy, uint64_t k) {
    return musselrung_session_start_parts(policy, k, &session->policy, &session->k, &session->length, &session->references,
                                          session->places, session->depths, session->counts);
}

/* One reference: the page goes to place 1 of the list, its depth is counted, and LFU counts the page, also while it is out of the
 * list. The page that stood at place 1 goes down: at each place the one that a cache would rather keep stays, and the other goes
 * on, to the place that the page came from or to the end of the list (M1 to M4).
 * 0, and `depth` is the place where the page stood, 0 if it was not in the list: a hit at every capacity from there on.
 * Refusals: 40 X2, 6 full (it can still be read; start anew to go on), 3 page. */
static inline uint32_t musselrung_session_refer(musselrung_session *session, uint32_t page, uint64_t *depth) {
    return musselrung_session_refer_parts(session->policy, session->k, &session->length, &session->references,
                                          session->places, session->depths, session->counts, page, depth);
}

/* The list as it stands: its pages in the order of places into `shown`, and 0 behind them. Changes nothing else.
 * 0, and `length` is how many places are in use.
 * Refusals: 40 X2. */
static inline uint32_t musselrung_session_list(const musselrung_session *session, uint16_t shown[MUSSELRUNG_CAPACITIES],
                                               uint64_t *length) {
    return musselrung_session_list_parts(session->policy, session->k, session->length, session->references,
                                         session->places, shown, length);
}

/* How many references were accepted. Changes nothing.
 * 0, and `references` is the number.
 * Refusals: 40 X2. */
static inline uint32_t musselrung_session_references(const musselrung_session *session, uint64_t *references) {
    return musselrung_session_references_parts(session->policy, session->k, session->length, session->references,
                                               references);
}

/* How many of them were hits at a capacity. Changes nothing.
 * 0, and `hits` is the number.
 * Refusals: 40 X2 or X3, 7 capacity. */
static inline uint32_t musselrung_session_hits(const musselrung_session *session, uint64_t capacity, uint64_t *hits) {
    return musselrung_session_hits_parts(session->policy, session->k, session->length, session->references,
                                         session->depths, capacity, hits);
}

/* How many of them were misses at a capacity. Changes nothing.
 * 0, and `misses` is the number.
 * Refusals: 40 X2 or X3, 7 capacity. */
static inline uint32_t musselrung_session_misses(const musselrung_session *session, uint64_t capacity, uint64_t *misses) {
    return musselrung_session_misses_parts(session->policy, session->k, session->length, session->references,
                                           session->depths, capacity, misses);
}

/* 1 if the session passes the whole test X4, else 0. Changes nothing, refuses nothing. */
static inline uint32_t musselrung_session_sound(const musselrung_session *session) {
    return musselrung_session_sound_parts(session->policy, session->k, session->length, session->references,
                                          session->places, session->depths, session->counts);
}

/* ---- the frame row */

/* A fresh row, which holds nothing, whatever stood in the memory. */
static inline void musselrung_row_fresh(musselrung_row *row) {
    musselrung_row_fresh_parts(row->slots, row->places, row->states, &row->front, &row->held);
}

/* An absent frame becomes idle, and the most recent.
 * 0, and `examined` is 64 if the slots were squeezed together, else 0 (W5): a measure of work, for whoever times calls.
 * Refusals: 40 X5, 20 frame, 21 held already, 25 row full. */
static inline uint32_t musselrung_row_put(musselrung_row *row, uint32_t frame, uint64_t *examined) {
    return musselrung_row_put_parts(row->slots, row->places, row->states, &row->front, &row->held, frame, examined);
}

/* A held frame, idle or busy, becomes the most recent.
 * 0, and `examined` is 64 if the slots were squeezed together, else 0 (W5): a measure of work, for whoever times calls.
 * Refusals: 40 X5, 20 frame, 22 not held. */
static inline uint32_t musselrung_row_touch(musselrung_row *row, uint32_t frame, uint64_t *examined) {
    return musselrung_row_touch_parts(row->slots, row->places, row->states, &row->front, &row->held, frame, examined);
}

/* A transfer starts: an idle frame becomes busy, and stays where it is.
 * 0. Refusals: 40 X5, 20 frame, 22 not held, 23 busy. */
static inline uint32_t musselrung_row_start(musselrung_row *row, uint32_t frame) {
    uint64_t none;
    return musselrung_row_start_parts(row->slots, row->places, row->states, &row->front, &row->held, frame, &none);
}

/* The transfer ends: a busy frame becomes idle, and stays where it is.
 * 0. Refusals: 40 X5, 20 frame, 22 not held, 24 idle. */
static inline uint32_t musselrung_row_end(musselrung_row *row, uint32_t frame) {
    uint64_t none;
    return musselrung_row_end_parts(row->slots, row->places, row->states, &row->front, &row->held, frame, &none);
}

/* An idle frame becomes absent.
 * 0. Refusals: 40 X5, 20 frame, 22 not held, 23 busy. */
static inline uint32_t musselrung_row_drop(musselrung_row *row, uint32_t frame) {
    uint64_t none;
    return musselrung_row_drop_parts(row->slots, row->places, row->states, &row->front, &row->held, frame, &none);
}

/* The idle frame whose last put or touch came earliest (W7). Changes nothing.
 * 0, and `frame` is it.
 * Refusals: 40 X5, 26 nothing held, 27 all busy. */
static inline uint32_t musselrung_row_victim(const musselrung_row *row, uint64_t *frame) {
    return musselrung_row_victim_parts(row->slots, row->places, row->states, row->front, row->held, frame);
}

/* 1 if the row passes the test X5, else 0. Changes nothing, refuses nothing. */
static inline uint32_t musselrung_row_sound(const musselrung_row *row) {
    return musselrung_row_sound_parts(row->slots, row->places, row->states, row->front, row->held);
}

/* ---- the row under banks: frame n lies in bank n / 16 (L8) */

/* A fresh row under four open banks, whatever stood in the memory. */
static inline void musselrung_banks_fresh(musselrung_banks *banks) {
    musselrung_banks_fresh_parts(banks->row.slots, banks->row.places, banks->row.states, &banks->row.front,
                                 &banks->row.held, banks->gates);
}

/* An absent frame of an open bank becomes idle, and the most recent.
 * 0, and `examined` is 64 if the slots were squeezed together, else 0 (W5): a measure of work, for whoever times calls.
 * Refusals: 40 X6, 20 frame, 33 its bank is not open, 21 held already, 25 row full. */
static inline uint32_t musselrung_banks_put(musselrung_banks *banks, uint32_t frame, uint64_t *examined) {
    return musselrung_banks_put_parts(banks->row.slots, banks->row.places, banks->row.states, &banks->row.front,
                                      &banks->row.held, banks->gates, frame, examined);
}

/* A held frame, idle or busy, becomes the most recent; also in a closing bank (B3).
 * 0, and `examined` is 64 if the slots were squeezed together, else 0 (W5): a measure of work, for whoever times calls.
 * Refusals: 40 X6, 20 frame, 22 not held. */
static inline uint32_t musselrung_banks_touch(musselrung_banks *banks, uint32_t frame, uint64_t *examined) {
    return musselrung_banks_touch_parts(banks->row.slots, banks->row.places, banks->row.states, &banks->row.front,
                                        &banks->row.held, banks->gates, frame, examined);
}

/* A transfer starts in an open bank: an idle frame becomes busy, and stays where it is.
 * 0. Refusals: 40 X6, 20 frame, 33 its bank is not open, 22 not held, 23 busy. */
static inline uint32_t musselrung_banks_start(musselrung_banks *banks, uint32_t frame) {
    uint64_t none;
    return musselrung_banks_start_parts(banks->row.slots, banks->row.places, banks->row.states, &banks->row.front,
                                        &banks->row.held, banks->gates, frame, &none);
}

/* The transfer ends, in any bank: a busy frame becomes idle, and stays where it is.
 * 0. Refusals: 40 X6, 20 frame, 22 not held, 24 idle. */
static inline uint32_t musselrung_banks_end(musselrung_banks *banks, uint32_t frame) {
    uint64_t none;
    return musselrung_banks_end_parts(banks->row.slots, banks->row.places, banks->row.states, &banks->row.front,
                                      &banks->row.held, banks->gates, frame, &none);
}

/* An idle frame, in any bank, becomes absent.
 * 0. Refusals: 40 X6, 20 frame, 22 not held, 23 busy. */
static inline uint32_t musselrung_banks_drop(musselrung_banks *banks, uint32_t frame) {
    uint64_t none;
    return musselrung_banks_drop_parts(banks->row.slots, banks->row.places, banks->row.states, &banks->row.front,
                                       &banks->row.held, banks->gates, frame, &none);
}

/* An open bank becomes closing: nothing new goes into it, and what is under way may end (B2).
 * 0. Refusals: 40 X6, 32 bank, 30 it is not open. */
static inline uint32_t musselrung_banks_close(musselrung_banks *banks, uint32_t bank) {
    uint64_t none;
    return musselrung_banks_close_parts(banks->row.slots, banks->row.places, banks->row.states, &banks->row.front,
                                        &banks->row.held, banks->gates, bank, &none);
}

/* A closing bank in which no frame is busy becomes off, and its frames leave the row: only after a 0 may its power go (B2).
 * 0. Refusals: 40 X6, 32 bank, 30 it is not closing, 31 a frame of it is busy. */
static inline uint32_t musselrung_banks_cut(musselrung_banks *banks, uint32_t bank) {
    uint64_t none;
    return musselrung_banks_cut_parts(banks->row.slots, banks->row.places, banks->row.states, &banks->row.front,
                                      &banks->row.held, banks->gates, bank, &none);
}

/* A closing or an off bank becomes open; call it once the bank has its power again. Frames that a cut took out stay out (B2).
 * 0. Refusals: 40 X6, 32 bank, 30 it is open. */
static inline uint32_t musselrung_banks_open(musselrung_banks *banks, uint32_t bank) {
    uint64_t none;
    return musselrung_banks_open_parts(banks->row.slots, banks->row.places, banks->row.states, &banks->row.front,
                                       &banks->row.held, banks->gates, bank, &none);
}

/* The idle frame of an open bank whose last put or touch came earliest (B4). Changes nothing.
 * 0, and `frame` is it.
 * Refusals: 40 X6, 26 nothing held, 27 every held frame is busy or in a bank that is not open. */
static inline uint32_t musselrung_banks_victim(const musselrung_banks *banks, uint64_t *frame) {
    return musselrung_banks_victim_parts(banks->row.slots, banks->row.places, banks->row.states, banks->row.front,
                                         banks->row.held, banks->gates, frame);
}

/* 1 if the banks pass the test X6, else 0. Changes nothing, refuses nothing. */
static inline uint32_t musselrung_banks_sound(const musselrung_banks *banks) {
    return musselrung_banks_sound_parts(banks->row.slots, banks->row.places, banks->row.states, banks->row.front,
                                        banks->row.held, banks->gates);
}

#ifdef __cplusplus
}
#endif

#endif
