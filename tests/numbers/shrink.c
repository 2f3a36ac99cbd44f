/* Holds the numbers of shrinking in include/board.h to the engine: rehearsals that
 * are made here, beside the text that is expected of each. What no call may write
 * has a value of its own. */
#include "made.h"

enum { GUARD = 7, MANY = BOARD_SHRINK_MOST + 100 };

static uint8_t input[2 * ROOM], out[MANY];
static size_t input_length;

/* The rehearsal of the table, without steps. */
static void begin(void) {
    memset(input, 0, sizeof input);
    memcpy(input, table, table_length);
    input_length = table_length;
}

/* Another step, of these fields. */
#define ADD(...) add((struct step){__VA_ARGS__})
static void add(struct step s) {
    put_step(input + input_length, s);
    input_length += BOARD_STEP_LENGTH;
}

/* The text for an output of so many bytes: as many as fit, and nothing behind them. */
static void check_room(const char *text, size_t room) {
    size_t length = strlen(text), written = length < room ? length : room;
    memset(out, GUARD, sizeof out);
    CHECK(board_shrink(input, input_length, out, room) == length);
    CHECK(memcmp(out, text, written) == 0);
    for (size_t i = written; i < sizeof out; i++) {
        CHECK(out[i] == GUARD);
    }
}

/* The text for every room, from none to more than it takes. */
static void check_text(const char *text) {
    for (size_t room = 0; room <= strlen(text) + 1; room++) {
        check_room(text, room);
    }
    check_room(text, BOARD_SHRINK_MOST);
}

static void check_refused(int number) {
    char line[20];
    snprintf(line, sizeof line, "refused %d\n", number);
    check_text(line);
}

/* No steps, or the last one is done, be it the only one or not; a refusal before it counts for nothing. */
static void check_clean(void) {
    begin();
    check_refused(BOARD_CLEAN);
    ADD(.op = BOARD_OP_POST, .item = 0);
    check_refused(BOARD_CLEAN);
    ADD(.op = BOARD_OP_POST, .item = ITEMS);
    ADD(.op = BOARD_OP_POST, .item = 1);
    check_refused(BOARD_CLEAN);
}

/* A hand that clashes. Without the `up` peer 1 would be down, so that it is dropped in the second pass, after the
 * `down`; peer 2 has no part in it, nor has the signature. */
static void check_left(void) {
    begin();
    ADD(.op = BOARD_OP_POST, .item = 0);            /* 1 */
    ADD(.op = BOARD_OP_POST, .item = 1);            /* 2 */
    ADD(.op = BOARD_OP_HAND, .peer = 2, .item = 0); /* 3 */
    ADD(.op = BOARD_OP_HAND, .peer = 1, .item = 0); /* 4 */
    ADD(.op = BOARD_OP_DOWN, .peer = 1);            /* 5 */
    ADD(.op = BOARD_OP_UP, .peer = 1);              /* 6 */
    ADD(.op = BOARD_OP_SIGN, .peer = 1, .item = 0); /* 7 */
    ADD(.op = BOARD_OP_HAND, .peer = 1, .item = 1); /* 8: BOARD_CLASH */
    check_text("1\n2\n4\n8\n");
    ADD(.op = BOARD_OP_POST, .item = ITEMS);        /* 9: BOARD_NAME */
    check_text("9\n");
    input_length++;                                 /* 10: BOARD_FORM, one byte */
    check_text("10\n");
}

/* The input's length is judged first, then the table, and then whether it is clean, as it is here. */
static void check_order(void) {
    begin();
    input_length = BOARD_INPUT_MOST + 1;
    check_refused(BOARD_INPUT);
    input_length = table_length - 1;
    check_refused(BOARD_PAIRS);
    input_length = BOARD_TABLE_PAIRS_AT - 1;
    check_refused(BOARD_HEADER);
    input[BOARD_TABLE_PERIODS_AT] = 0;
    input_length = BOARD_INPUT_MOST;
    check_refused(BOARD_HEADER);
    put_header(1, 1, 1, 1, 2);
    put_item(0, 7, BOARD_ITEM_AUDIT, 0);
    put_item(1, 7, BOARD_ITEM_AUDIT, 0);
    begin();
    check_refused(BOARD_TWIN);
    put_header(1, 1, 1, 1, 1);
    put_item(0, 7, BOARD_ITEM_AUDIT, 1);
    begin();
    check_refused(BOARD_ITEM);
}

/* Peer 1 weighs 4, the three others 1 each, and the threshold is 5. Peer 2 knows all four signers, gives its share, and
 * in the next period gives no other. Peer 1's signature came to it last and is tried first, but the three others weigh
 * 3; so those of peers 3 and 4 are dropped. */
static void check_weighed(void) {
    put_weighted_header(4, BOARD_WEIGHT_LEAST, 5, 15, 2, 1);
    put_weight(1, BOARD_WEIGHT_MOST);
    put_item(0, 7, BOARD_ITEM_VOTE, 1);
    begin();
    ADD(.op = BOARD_OP_POST);                        /* 1 */
    for (int j = 4; j >= 1; j--) {
        ADD(.op = BOARD_OP_HAND, .peer = j);         /* 2, 4, 6, 8 */
        ADD(.op = BOARD_OP_SIGN, .peer = j);         /* 3, 5, 7, 9 */
    }
    for (int k = 4; k >= 1; k--) {
        ADD(.op = BOARD_OP_TAKE, .peer = 2, .other = k); /* 10 to 13 */
    }
    ADD(.op = BOARD_OP_SHARE, .peer = 2);            /* 14 */
    ADD(.op = BOARD_OP_CLOSE, .peer = 2);            /* 15 */
    ADD(.op = BOARD_OP_SHARE, .peer = 2);            /* 16: BOARD_GIVEN */
    check_text("1\n6\n7\n8\n9\n13\n14\n15\n16\n");
}

void check_shrink_numbers(void) {
    CHECK(board_shrink_most() == BOARD_SHRINK_MOST);
    put_table();
    check_clean();
    check_left();
    check_order();
    check_weighed();
}
