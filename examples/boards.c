/* Reads the published boards out of a state, each with its period and its
 * items, and prints them in the report's words, as `board 0 0 3 9`.
 *
 * `boards -` first runs the rehearsal that it reads from standard input, and
 * says `refused N` if that is refused. `boards` runs one of its own: one peer,
 * two periods, an item in each. It exits with 1 if its own fails, if the input
 * cannot be read, or if memory is out.
 *
 *     tools/build board
 *     cc -Iinclude examples/boards.c target/staticlib/libboard.a -o boards
 */
#include "board.h"

#include <stdio.h>
#include <stdlib.h>
#include <string.h>

/* one peer, threshold 1, peer 1 honest, two periods, two items: audits of ballot 7 and ballot 8 */
static const uint8_t table[] = {1, 1, 0, 1, 2, 2, 0, 14, 0, 5, 0, 19, 0, 5,
                                0, 0, 0, 7, BOARD_ITEM_AUDIT, 0, 0, 0, 8, BOARD_ITEM_AUDIT};

/* The number of entries in the bag. */
static size_t entry_count(const uint8_t *state) {
    const uint8_t *count = state + BOARD_STATE_COUNT_AT;
    return count[0] + 256u * count[1];
}

/* The entry with this number, counted from 0. */
static const uint8_t *entry_at(const uint8_t *state, size_t number) {
    return state + BOARD_STATE_BAG_AT + BOARD_ENTRY_LENGTH * number;
}

/* Whether the board of an entry has the item. */
static int has_item(const uint8_t *entry, unsigned item) {
    return entry[BOARD_ENTRY_BOARD_AT + item / 8] >> item % 8 & 1;
}

/* Prints the boards of a state, in the bag's order. */
static void print_boards(const uint8_t *state) {
    for (size_t number = 0; number < entry_count(state); number++) {
        const uint8_t *entry = entry_at(state, number);
        if (entry[BOARD_ENTRY_KIND_AT] != BOARD_ENTRY_BOARD) {
            continue; /* a hash or a backing */
        }
        printf("board %d", entry[BOARD_ENTRY_PERIOD_AT]);
        for (unsigned item = 0; item < BOARD_ITEMS_MOST; item++) {
            if (has_item(entry, item)) {
                printf(" %u", item);
            }
        }
        printf("\n");
    }
}

/* Takes one step of peer 1; fields that the op does not use are 0. */
static int is_taken(uint8_t *state, enum board_op op, uint8_t period, uint8_t item_or_entry) {
    uint8_t step[BOARD_STEP_LENGTH] = {0};
    step[BOARD_STEP_OP_AT] = (uint8_t)op;
    step[BOARD_STEP_PEER_AT] = op == BOARD_OP_POST || op == BOARD_OP_PUBLISH ? 0 : 1;
    step[BOARD_STEP_PERIOD_AT] = period;
    step[BOARD_STEP_ITEM_AT] = item_or_entry;
    return board_step(table, sizeof table, state, BOARD_STATE_LENGTH, step, sizeof step) == BOARD_DONE;
}

/* One period, with the item of its own number: posted, signed, backed, published. */
static int is_published(uint8_t *state, uint8_t period) {
    uint8_t item = period;
    int good = is_taken(state, BOARD_OP_POST, 0, item)
            && is_taken(state, BOARD_OP_HAND, 0, item)
            && is_taken(state, BOARD_OP_SIGN, 0, item)
            && is_taken(state, BOARD_OP_CLOSE, 0, 0);
    uint8_t hash = (uint8_t)entry_count(state); /* the number of the next entry */
    uint8_t backing = (uint8_t)(hash + 1);
    return good && is_taken(state, BOARD_OP_HASH, period, 0)
        && is_taken(state, BOARD_OP_HEAR, 0, hash)
        && is_taken(state, BOARD_OP_BACK, 0, 0)
        && is_taken(state, BOARD_OP_PUBLISH, 0, backing);
}

/* The rehearsal of this program. */
static int print_own(uint8_t *state) {
    int good = board_fresh(table, sizeof table, state, BOARD_STATE_LENGTH) == BOARD_DONE
            && is_published(state, 0) && is_published(state, 1);
    if (good) {
        print_boards(state);
    }
    return good;
}

/* The rehearsal of standard input. One byte more than is judged is read, so that a longer input shows. */
static int print_given(uint8_t *state, uint8_t *input, uint8_t *out) {
    size_t got = fread(input, 1, BOARD_INPUT_MOST + 1, stdin);
    size_t length = board_rehearse(input, got, state, BOARD_STATE_LENGTH, out, BOARD_REPORT_MOST);
    if (ferror(stdin)) {
        return 0;
    }
    if (memcmp(out, "refused", 7) == 0) {
        fwrite(out, 1, length, stdout);
    } else {
        print_boards(state);
    }
    return 1;
}

int main(int count, char **words) {
    uint8_t *state = malloc(BOARD_STATE_LENGTH);
    uint8_t *input = malloc(BOARD_INPUT_MOST + 1), *out = malloc(BOARD_REPORT_MOST);
    int good = state != NULL && input != NULL && out != NULL
            && (count > 1 && strcmp(words[1], "-") == 0 ? print_given(state, input, out) : print_own(state));
    free(state);
    free(input);
    free(out);
    return good ? EXIT_SUCCESS : EXIT_FAILURE;
}
