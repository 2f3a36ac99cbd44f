/* A long election and its bag. Sixteen peers, all honest, go through eight
 * periods, each with 16 hashes, 16 backings and a board: 264 entries in all, and
 * the bag has room for 256. Before each period the program counts what its steps
 * can add; where the bag might not have room for it, the hashes of the oldest
 * period are cleared. It prints for each period the entries that are there and
 * the count, as `period 1: entries 33, gain 33`, and for each clear the entries
 * before and after it. It exits with 1 if a step is refused, or if memory is out.
 *
 *     tools/build board
 *     cc -Iinclude examples/clear.c target/staticlib/libboard.a -o clear
 */
#include "board.h"

#include <stdio.h>
#include <stdlib.h>

enum {
    PEERS = 16,
    THRESHOLD = 11,
    PERIODS = 8,
    STEPS = PEERS * (3 + THRESHOLD) + 1 /* of a period */
};

/* all peers honest and no items: every board is empty. What is not named is 0 */
static const uint8_t table[BOARD_TABLE_PAIRS_AT] = {
    [BOARD_TABLE_PEERS_AT] = PEERS,
    [BOARD_TABLE_THRESHOLD_AT] = THRESHOLD,
    [BOARD_TABLE_HONEST_AT] = 255, 255,
    [BOARD_TABLE_PERIODS_AT] = PERIODS,
};

/* Steps, one behind the other. */
struct steps {
    uint8_t bytes[STEPS * BOARD_STEP_LENGTH];
    size_t length;
};

/* Adds a step; a field that the op does not use is 0. */
static void add(struct steps *steps, enum board_op op, int peer, int period, unsigned entry) {
    uint8_t *step = steps->bytes + steps->length;
    for (int i = 0; i < BOARD_STEP_LENGTH; i++) {
        step[i] = 0;
    }
    step[BOARD_STEP_OP_AT] = (uint8_t)op;
    step[BOARD_STEP_PEER_AT] = (uint8_t)peer;
    step[BOARD_STEP_PERIOD_AT] = (uint8_t)period;
    step[BOARD_STEP_ENTRY_AT] = (uint8_t)entry;
    steps->length += BOARD_STEP_LENGTH;
}

/* The steps of a period, whose first hash will be the entry with this number: all close it and send their hashes, each
 * hears as many as it needs and backs, and the board is published. */
static struct steps steps_of(int period, unsigned first) {
    struct steps steps = {.length = 0};
    for (int j = 1; j <= PEERS; j++) {
        add(&steps, BOARD_OP_CLOSE, j, 0, 0);
        add(&steps, BOARD_OP_HASH, j, period, 0);
    }
    for (int j = 1; j <= PEERS; j++) {
        for (unsigned heard = 0; heard < THRESHOLD; heard++) {
            add(&steps, BOARD_OP_HEAR, j, 0, first + heard);
        }
        add(&steps, BOARD_OP_BACK, j, 0, 0);
    }
    add(&steps, BOARD_OP_PUBLISH, 0, 0, first + PEERS); /* the first backing stands behind the hashes */
    return steps;
}

/* Takes the steps; whether each is done. */
static int is_taken(uint8_t *state, const struct steps *steps) {
    int good = 1;
    for (size_t at = 0; good && at < steps->length; at += BOARD_STEP_LENGTH) {
        good = board_step(table, sizeof table, state, BOARD_STATE_LENGTH,
                          steps->bytes + at, BOARD_STEP_LENGTH) == BOARD_DONE;
    }
    return good;
}

/* The number of entries in the bag. */
static unsigned entry_count(const uint8_t *state) {
    const uint8_t *count = state + BOARD_STATE_COUNT_AT;
    return count[0] + 256u * count[1];
}

/* Clears a period that all have backed. The other entries get new numbers. */
static int is_cleared(uint8_t *state, int period) {
    unsigned before = entry_count(state);
    struct steps clear = {.length = 0};
    add(&clear, BOARD_OP_CLEAR, 0, period, 0);
    int good = is_taken(state, &clear);
    printf("clear %d: entries %u, then %u\n", period, before, entry_count(state));
    return good;
}

/* A period from its close to its board. The oldest that is not cleared is the one with this number. */
static int is_run(uint8_t *state, int period, int *oldest) {
    struct steps steps = steps_of(period, entry_count(state));
    size_t gain = board_gain(steps.bytes, steps.length);
    int good = 1;
    printf("period %d: entries %u, gain %zu\n", period, entry_count(state), gain);
    while (good && *oldest < period && entry_count(state) + gain > BOARD_ENTRIES_MOST) {
        good = is_cleared(state, *oldest);
        *oldest += 1;
        steps = steps_of(period, entry_count(state));
    }
    return good && is_taken(state, &steps);
}

int main(void) {
    uint8_t *state = malloc(BOARD_STATE_LENGTH);
    int oldest = 0;
    int good = state != NULL && board_fresh(table, sizeof table, state, BOARD_STATE_LENGTH) == BOARD_DONE;
    for (int period = 0; good && period < PERIODS; period++) {
        good = is_run(state, period, &oldest);
    }
    if (good) {
        printf("end: entries %u\n", entry_count(state));
    }
    free(state);
    return good ? EXIT_SUCCESS : EXIT_FAILURE;
}
