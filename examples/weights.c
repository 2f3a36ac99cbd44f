/* Peers of unequal weight: of four peers the first weighs 4 and each other 1, and
 * the threshold is 5. For every set of signers it asks peer 1 for its receipt
 * share, and prints who signed, what they weigh and the answer, as
 * `signers 1 2, weight 5: 0`. It exits with 1 unless the share is given exactly
 * where the signers weigh as much as the threshold, or if memory is out.
 *
 *     tools/build board
 *     cc -Iinclude examples/weights.c target/staticlib/libboard.a -o weights
 */
#include "board.h"

#include <stdio.h>
#include <stdlib.h>

enum {
    PEERS = 4,
    THRESHOLD = 5, /* all weigh 7, so 5, 6 or 7 */
    HEADER_AT = BOARD_SEASON_LENGTH,
    WEIGHTS_AT = HEADER_AT + BOARD_TABLE_WEIGHTS_AT,
    PAIR_AT = HEADER_AT + BOARD_TABLE_PAIRS_AT + PEERS,
    ITEM_AT = PAIR_AT + BOARD_PAIR_LENGTH,
    ITEM_LENGTH = BOARD_ITEM_PREFERENCES_AT + 1
};

/* all peers honest, one period, one item: a vote on ballot 7. What is not named is 0 */
static const uint8_t table[ITEM_AT + ITEM_LENGTH] = {
    [BOARD_SEASON_AT] = BOARD_SEASON_THIRD,
    [HEADER_AT + BOARD_TABLE_PEERS_AT] = PEERS,
    [HEADER_AT + BOARD_TABLE_THRESHOLD_AT] = THRESHOLD,
    [HEADER_AT + BOARD_TABLE_HONEST_AT + 1] = (1 << PEERS) - 1,
    [HEADER_AT + BOARD_TABLE_PERIODS_AT] = 1,
    [HEADER_AT + BOARD_TABLE_ITEMS_AT] = 1,
    [WEIGHTS_AT] = 4, 1, 1, 1,
    [PAIR_AT + BOARD_PAIR_OFFSET_AT + 1] = ITEM_AT,
    [PAIR_AT + BOARD_PAIR_SIZE_AT + 1] = ITEM_LENGTH,
    [ITEM_AT + BOARD_ITEM_BALLOT_AT + 3] = 7,
    [ITEM_AT + BOARD_ITEM_KIND_AT] = BOARD_ITEM_VOTE,
    [ITEM_AT + BOARD_ITEM_PREFERENCES_AT] = 1,
};

/* Whether a set has peer k. */
static int has_peer(unsigned set, int k) {
    return set >> (k - 1) & 1;
}

/* The answer to a step in period 0 about item 0; a peer that the op does not use is 0. */
static uint8_t answer_of(uint8_t *state, enum board_op op, int peer, int other) {
    uint8_t step[BOARD_STEP_LENGTH] = {0};
    step[BOARD_STEP_OP_AT] = (uint8_t)op;
    step[BOARD_STEP_PEER_AT] = (uint8_t)peer;
    step[BOARD_STEP_OTHER_AT] = (uint8_t)other;
    return board_step(table, sizeof table, state, BOARD_STATE_LENGTH, step, sizeof step);
}

/* From a fresh state the peers of the set sign the vote, and peer 1 takes their signatures. */
static int is_signed(uint8_t *state, unsigned set) {
    int good = board_fresh(table, sizeof table, state, BOARD_STATE_LENGTH) == BOARD_DONE
            && answer_of(state, BOARD_OP_POST, 0, 0) == BOARD_DONE;
    for (int k = 1; k <= PEERS; k++) {
        if (has_peer(set, k)) {
            good = good && answer_of(state, BOARD_OP_HAND, k, 0) == BOARD_DONE
                && answer_of(state, BOARD_OP_SIGN, k, 0) == BOARD_DONE
                && answer_of(state, BOARD_OP_TAKE, 1, k) == BOARD_DONE;
        }
    }
    return good;
}

/* Asks peer 1 for its share and prints the answer, which must be that of the weight. */
static int is_answered(uint8_t *state, unsigned set) {
    unsigned weight = 0;
    printf("signers");
    for (int k = 1; k <= PEERS; k++) {
        if (has_peer(set, k)) {
            printf(" %d", k);
            weight += table[WEIGHTS_AT + k - 1];
        }
    }
    uint8_t answer = answer_of(state, BOARD_OP_SHARE, 1, 0);
    printf(", weight %u: %d\n", weight, answer);
    return answer == (weight < THRESHOLD ? BOARD_SHORT : BOARD_DONE);
}

int main(void) {
    uint8_t *state = malloc(BOARD_STATE_LENGTH);
    int good = state != NULL;
    for (unsigned set = 1; good && set < 1u << PEERS; set++) {
        good = is_signed(state, set) && is_answered(state, set);
    }
    free(state);
    return good ? EXIT_SUCCESS : EXIT_FAILURE;
}
