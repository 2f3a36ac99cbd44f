/* Writes the sheet of a published board, and prints it item by item in the words
 * of a rehearsal's text, as `vote 7 02 01`. To print it nothing is read but the
 * sheet: neither table nor state.
 *
 * `sheet - Q` runs the rehearsal that it reads from standard input, and prints
 * the sheet of period Q, or says `refused N` if the rehearsal is refused or the
 * sheet is. `sheet` prints the sheet of a rehearsal of its own: one peer, one
 * period, three items. It exits with 1 if the words are others, if the input
 * cannot be read, if what was written is no sheet, or if memory is out.
 *
 *     tools/build board
 *     cc -Iinclude examples/sheet.c target/staticlib/libboard.a -o sheet
 */
#include "board.h"

#include <stdio.h>
#include <stdlib.h>
#include <string.h>

/* one peer, threshold 1, peer 1 honest, one period, three items: a vote on ballot 7, an audit of ballot 300, a
 * cancellation of ballot 8 */
static const uint8_t table[] = {1, 1, 0, 1, 1, 3, 0, 18, 0, 7, 0, 25, 0, 5, 0, 30, 0, 5,
                                0, 0, 0, 7, BOARD_ITEM_VOTE, 2, 1,
                                0, 0, 1, 44, BOARD_ITEM_AUDIT,
                                0, 0, 0, 8, BOARD_ITEM_CANCELLATION};

/* a step that uses no other fields than these; those that its op does not use are 0 */
#define STEP(op, peer, item_or_entry) \
    {[BOARD_STEP_OP_AT] = op, [BOARD_STEP_PEER_AT] = peer, [BOARD_STEP_ITEM_AT] = item_or_entry}

/* an item from its post to the signature of peer 1, which is enough here */
#define ACCEPT(item) STEP(BOARD_OP_POST, 0, item), STEP(BOARD_OP_HAND, 1, item), STEP(BOARD_OP_SIGN, 1, item)

/* the cancellation comes first, but the sheet has the table's order */
static const uint8_t steps[][BOARD_STEP_LENGTH] = {
    ACCEPT(2), ACCEPT(0), ACCEPT(1),
    STEP(BOARD_OP_CLOSE, 1, 0),   /* peer 1 closes period 0 */
    STEP(BOARD_OP_HASH, 1, 0),    /* sends the hash of its board: entry 0 */
    STEP(BOARD_OP_HEAR, 1, 0),    /* hears it */
    STEP(BOARD_OP_BACK, 1, 0),    /* backs the board: entry 1 */
    STEP(BOARD_OP_PUBLISH, 0, 1), /* the board is published: entry 2 */
};

/* What a rehearsal and a sheet take. */
struct buffers {
    uint8_t *input, *state, *report, *sheet;
};

/* A number of so many bytes, high byte first. */
static unsigned long number_at(const uint8_t *at, int bytes) {
    unsigned long number = 0;
    for (int i = 0; i < bytes; i++) {
        number = 256 * number + at[i];
    }
    return number;
}

/* The length of the table at the front of a rehearsal: it ends where its last pair says. One that starts with 0 is of
 * season 2 or 3, and in season 3 its pairs stand behind a weight for each peer. */
static size_t length_of_table(const uint8_t *input) {
    size_t header_at = input[0] == 0 ? BOARD_SEASON_LENGTH : 0;
    int has_weights = header_at > 0 && input[BOARD_SEASON_AT] == BOARD_SEASON_THIRD;
    size_t weights = has_weights ? input[header_at + BOARD_TABLE_PEERS_AT] : 0;
    size_t pairs_at = header_at + BOARD_TABLE_PAIRS_AT + weights;
    size_t pairs_end = pairs_at + BOARD_PAIR_LENGTH * (size_t)input[header_at + BOARD_TABLE_ITEMS_AT];
    const uint8_t *last = input + pairs_end - BOARD_PAIR_LENGTH;
    return pairs_end == pairs_at ? pairs_end
        : number_at(last + BOARD_PAIR_OFFSET_AT, 2) + number_at(last + BOARD_PAIR_SIZE_AT, 2);
}

/* A vote has preferences after its kind; an audit has its place or nothing, a cancellation nothing. */
static void print_item(const uint8_t *item, size_t length) {
    uint8_t kind = item[BOARD_ITEM_KIND_AT];
    printf("%s %lu", kind == BOARD_ITEM_VOTE ? "vote" : kind == BOARD_ITEM_AUDIT ? "audit" : "cancel",
           number_at(item + BOARD_ITEM_BALLOT_AT, 4));
    for (size_t i = BOARD_ITEM_PREFERENCES_AT; i < length; i++) {
        printf(kind == BOARD_ITEM_AUDIT ? " place %d" : " %02X", item[i]);
    }
    printf("\n");
}

/* Prints a sheet, as whoever has its bytes alone can. */
static int is_printed(const uint8_t *sheet, size_t sheet_length) {
    size_t offset, length;
    uint8_t item = 0;
    if (board_check_sheet(sheet, sheet_length) != BOARD_DONE) {
        return 0;
    }
    printf("period %d\n", sheet[BOARD_SHEET_PERIOD_AT]);
    while (board_sheet_item(sheet, sheet_length, item, &offset, &length) == BOARD_DONE) {
        print_item(sheet + offset, length);
        item++;
    }
    return item == sheet[BOARD_SHEET_COUNT_AT];
}

/* Runs the rehearsal, writes the period's sheet and prints it; or says why not. */
static int is_hung(struct buffers lent, size_t input_length, uint8_t period) {
    size_t length = board_rehearse(lent.input, input_length, lent.state, BOARD_STATE_LENGTH,
                                   lent.report, BOARD_REPORT_MOST);
    if (memcmp(lent.report, "refused", 7) == 0) {
        return fwrite(lent.report, 1, length, stdout) == length;
    }
    uint8_t answer = board_write_sheet(lent.input, length_of_table(lent.input), lent.state, BOARD_STATE_LENGTH,
                                       period, lent.sheet, BOARD_SHEET_MOST, &length);
    if (answer != BOARD_DONE) {
        return printf("refused %d\n", answer) > 0;
    }
    return is_printed(lent.sheet, length);
}

/* The rehearsal of this program. */
static int own(struct buffers lent) {
    memcpy(lent.input, table, sizeof table);
    memcpy(lent.input + sizeof table, steps, sizeof steps);
    return is_hung(lent, sizeof table + sizeof steps, 0);
}

/* The rehearsal of standard input. One byte more than is judged is read, so that a longer input shows. */
static int given(struct buffers lent, const char *word) {
    char *end;
    unsigned long period = strtoul(word, &end, 10);
    size_t length = fread(lent.input, 1, BOARD_INPUT_MOST + 1, stdin);
    return *word != 0 && *end == 0 && period < 256 && !ferror(stdin) && is_hung(lent, length, (uint8_t)period);
}

int main(int count, char **words) {
    struct buffers lent = {malloc(BOARD_INPUT_MOST + 1), malloc(BOARD_STATE_LENGTH),
                           malloc(BOARD_REPORT_MOST), malloc(BOARD_SHEET_MOST)};
    int good = lent.input != NULL && lent.state != NULL && lent.report != NULL && lent.sheet != NULL;
    if (count == 3 && strcmp(words[1], "-") == 0) {
        good = good && given(lent, words[2]);
    } else {
        good = good && count == 1 && own(lent);
    }
    free(lent.input);
    free(lent.state);
    free(lent.report);
    free(lent.sheet);
    return good ? EXIT_SUCCESS : EXIT_FAILURE;
}
