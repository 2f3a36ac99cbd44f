/* Shrinks a rehearsal whose last step is refused: prints the steps that are left,
 * each with its number in the rehearsal, its word and its bytes, as
 * `3 hand 02 01 00 00 00 00 00 00 00 00 00 00 00`. Where the op has no word the
 * bytes stand alone.
 *
 * `shrink -` shrinks the rehearsal that it reads from standard input, and says
 * `refused N` if that is refused, or 18 if its last step is not. `shrink` shrinks
 * one of its own: one peer, one period, two votes that clash. It exits with 1 if
 * the input cannot be read, or if memory is out.
 *
 *     tools/build board
 *     cc -Iinclude examples/shrink.c target/staticlib/libboard.a -o shrink
 */
#include "board.h"

#include <stdio.h>
#include <stdlib.h>
#include <string.h>

/* one peer, threshold 1, peer 1 honest, one period, two items: votes on ballot 7 */
static const uint8_t table[] = {1, 1, 0, 1, 1, 2, 0, 14, 0, 6, 0, 20, 0, 6,
                                0, 0, 0, 7, BOARD_ITEM_VOTE, 1, 0, 0, 0, 7, BOARD_ITEM_VOTE, 2};

/* a step that uses no other fields than these; those that its op does not use are 0 */
#define STEP(op, peer, item) \
    {[BOARD_STEP_OP_AT] = op, [BOARD_STEP_PEER_AT] = peer, [BOARD_STEP_ITEM_AT] = item}

static const uint8_t steps[][BOARD_STEP_LENGTH] = {
    STEP(BOARD_OP_POST, 0, 0),
    STEP(BOARD_OP_POST, 0, 1),
    STEP(BOARD_OP_HAND, 1, 0),
    STEP(BOARD_OP_DOWN, 1, 0),
    STEP(BOARD_OP_UP, 1, 0),
    STEP(BOARD_OP_SIGN, 1, 0),
    STEP(BOARD_OP_HAND, 1, 1), /* 11: it clashes with item 0 */
};

/* the words of the ops, as a rehearsal's text has them */
static const char *const words[BOARD_OP_CLEAR + 1] = {
    [BOARD_OP_POST] = "post", [BOARD_OP_HAND] = "hand", [BOARD_OP_SIGN] = "sign",
    [BOARD_OP_TAKE] = "take", [BOARD_OP_SHARE] = "share", [BOARD_OP_RECEIPT] = "receipt",
    [BOARD_OP_CLOSE] = "close", [BOARD_OP_FETCH] = "fetch", [BOARD_OP_HASH] = "hash",
    [BOARD_OP_HEAR] = "hear", [BOARD_OP_BACK] = "back", [BOARD_OP_PUBLISH] = "publish",
    [BOARD_OP_FALSE_SIGNATURE] = "false-signature", [BOARD_OP_FALSE_SHARE] = "false-share",
    [BOARD_OP_FALSE_HASH] = "false-hash", [BOARD_OP_FALSE_BACKING] = "false-backing",
    [BOARD_OP_DOWN] = "down", [BOARD_OP_UP] = "up", [BOARD_OP_CLEAR] = "clear",
};

/* A number of two bytes, high byte first. */
static size_t number_at(const uint8_t *at) {
    return 256u * at[0] + at[1];
}

/* The length of the table at the front of a rehearsal: it ends where its last pair says. One that starts with 0 is of
 * season 2 or 3, and in season 3 its pairs stand behind a weight for each peer. */
static size_t length_of_table(const uint8_t *input) {
    size_t header_at = input[0] == 0 ? BOARD_SEASON_LENGTH : 0;
    int has_weights = header_at > 0 && input[BOARD_SEASON_AT] == BOARD_SEASON_THIRD;
    size_t weights = has_weights ? input[header_at + BOARD_TABLE_PEERS_AT] : 0;
    size_t pairs_at = header_at + BOARD_TABLE_PAIRS_AT + weights;
    size_t pairs_end = pairs_at + BOARD_PAIR_LENGTH * (size_t)input[header_at + BOARD_TABLE_ITEMS_AT];
    const uint8_t *last = input + pairs_end - BOARD_PAIR_LENGTH;
    return pairs_end == pairs_at ? pairs_end
        : number_at(last + BOARD_PAIR_OFFSET_AT) + number_at(last + BOARD_PAIR_SIZE_AT);
}

/* The last step may be short of bytes. */
static void print_step(unsigned long number, const uint8_t *step, size_t length) {
    uint8_t op = step[BOARD_STEP_OP_AT];
    printf("%lu", number);
    if (op <= BOARD_OP_CLEAR && words[op] != NULL) {
        printf(" %s", words[op]);
    }
    for (size_t i = 0; i < length && i < BOARD_STEP_LENGTH; i++) {
        printf(" %02X", step[i]);
    }
    printf("\n");
}

/* Prints the steps that are left of an input, or the refusal. The text has room for a byte behind it. */
static void print_left(const uint8_t *input, size_t input_length, char *text) {
    size_t length = board_shrink(input, input_length, (uint8_t *)text, BOARD_SHRINK_MOST);
    text[length] = 0;
    if (strncmp(text, "refused", 7) == 0) {
        printf("%s", text);
        return;
    }
    for (char *end; *text != 0; text = end + 1) { /* the end is that of the line */
        unsigned long number = strtoul(text, &end, 10);
        size_t at = length_of_table(input) + BOARD_STEP_LENGTH * (number - 1);
        print_step(number, input + at, input_length - at);
    }
}

/* The rehearsal of this program. */
static size_t own(uint8_t *input) {
    memcpy(input, table, sizeof table);
    memcpy(input + sizeof table, steps, sizeof steps);
    return sizeof table + sizeof steps;
}

/* The rehearsal of standard input. One byte more than is judged is read, so that a longer input shows. */
static size_t given(uint8_t *input) {
    return fread(input, 1, BOARD_INPUT_MOST + 1, stdin);
}

int main(int count, char **arguments) {
    uint8_t *input = malloc(BOARD_INPUT_MOST + 1);
    char *text = malloc(BOARD_SHRINK_MOST + 1);
    size_t length = 0;
    int good = input != NULL && text != NULL;
    if (good) {
        length = count > 1 && strcmp(arguments[1], "-") == 0 ? given(input) : own(input);
        good = !ferror(stdin);
    }
    if (good) {
        print_left(input, length, text);
    }
    free(input);
    free(text);
    return good ? EXIT_SUCCESS : EXIT_FAILURE;
}
