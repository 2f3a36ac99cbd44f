/* Case R, the smallest board, through the C interface. First step by step: each
 * step's number and answer, then the entries of the bag. Then as one rehearsal:
 * its report. It exits with 1 unless all went well.
 *
 *     tools/build board
 *     cc -Iinclude examples/case_r.c target/staticlib/libboard.a -o case_r
 */
#include "board.h"

#include <stdio.h>
#include <stdlib.h>
#include <string.h>

/* one peer, threshold 1, peer 1 honest, one period, one item: audit of ballot 7 */
static const uint8_t table[] = {1, 1, 0, 1, 1, 1, 0, 10, 0, 5, 0, 0, 0, 7, 2};

/* a step that uses no other fields than these; those that its op does not use are 0 */
#define STEP(op, peer, item_or_entry) \
    {[BOARD_STEP_OP_AT] = op, [BOARD_STEP_PEER_AT] = peer, [BOARD_STEP_ITEM_AT] = item_or_entry}

/* peer 1 and, but for the last, item, period and entry 0 */
static const uint8_t steps[][BOARD_STEP_LENGTH] = {
    STEP(BOARD_OP_POST, 0, 0),    /* item 0 is posted */
    STEP(BOARD_OP_HAND, 1, 0),    /* it is handed to peer 1 */
    STEP(BOARD_OP_SIGN, 1, 0),    /* peer 1 signs it */
    STEP(BOARD_OP_SHARE, 1, 0),   /* and gives its receipt share */
    STEP(BOARD_OP_RECEIPT, 0, 0), /* the receipt */
    STEP(BOARD_OP_CLOSE, 1, 0),   /* peer 1 closes period 0 */
    STEP(BOARD_OP_HASH, 1, 0),    /* sends the hash of its board: entry 0 */
    STEP(BOARD_OP_HEAR, 1, 0),    /* hears it */
    STEP(BOARD_OP_BACK, 1, 0),    /* backs the board: entry 1 */
    STEP(BOARD_OP_PUBLISH, 0, 1), /* the board is published: entry 2 */
};

/* the whole report */
static const char report[] =
    "peers 1 threshold 1 honest 1\n"
    "1 0\n2 0\n3 0\n4 0\n5 0\n6 0\n7 0\n8 0\n9 0\n10 0\n"
    "db 1 0 0 1\nreceipt 0 0\nboard 0 0\ntotals 1 1 1\nend\n";

/* Step by step from the fresh state, to a bag with the board in it. */
static int is_stepped(uint8_t *state, size_t length) {
    int good = board_fresh(table, sizeof table, state, length) == BOARD_DONE;
    for (size_t i = 0; good && i < sizeof steps / BOARD_STEP_LENGTH; i++) {
        uint8_t answer = board_step(table, sizeof table, state, length, steps[i], BOARD_STEP_LENGTH);
        printf("%zu %d\n", i + 1, answer);
        good = answer == BOARD_DONE;
    }
    const uint8_t *count = state + BOARD_STATE_COUNT_AT;
    const uint8_t *last = state + BOARD_STATE_BAG_AT + 2 * BOARD_ENTRY_LENGTH;
    if (good) {
        printf("entries %d, the last: kind %d, period %d, items %d\n", count[0],
               last[BOARD_ENTRY_KIND_AT], last[BOARD_ENTRY_PERIOD_AT], last[BOARD_ENTRY_BOARD_AT]);
    }
    return good && count[0] == 3 && last[BOARD_ENTRY_KIND_AT] == BOARD_ENTRY_BOARD
        && last[BOARD_ENTRY_BOARD_AT] == 1;
}

/* At once: the report, and the state that the steps led to. */
static int is_rehearsed(const uint8_t *stepped, uint8_t *state, size_t length,
                        uint8_t *out, size_t room) {
    uint8_t input[sizeof table + sizeof steps];
    memcpy(input, table, sizeof table);
    memcpy(input + sizeof table, steps, sizeof steps);
    size_t written = board_rehearse(input, sizeof input, state, length, out, room);
    int good = written == sizeof report - 1 && memcmp(out, report, written) == 0;
    if (good) {
        fwrite(out, 1, written, stdout);
    }
    return good && memcmp(state, stepped, length) == 0;
}

int main(void) {
    size_t length = board_state_length(), room = board_report_most();
    uint8_t *stepped = malloc(length), *state = malloc(length), *out = malloc(room);
    int good = stepped != NULL && state != NULL && out != NULL
            && is_stepped(stepped, length)
            && is_rehearsed(stepped, state, length, out, room);
    free(stepped);
    free(state);
    free(out);
    return good ? EXIT_SUCCESS : EXIT_FAILURE;
}
