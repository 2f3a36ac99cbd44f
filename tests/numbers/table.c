/* Holds the numbers of lengths, tables and items in include/board.h to the engine. */
#include "made.h"

static uint8_t out[4 * ROOM];

/* The report of the table alone, with so many bytes 0 behind it: for a refused one its number, else 0. */
static int refusal_of(size_t more, size_t state_length) {
    static uint8_t input[2 * ROOM];
    int number = 0;
    memset(input, 0, sizeof input);
    memcpy(input, table, table_length);
    size_t length = board_rehearse(input, table_length + more, state, state_length, out, sizeof out);
    CHECK(length < sizeof out);
    out[length] = 0;
    return sscanf((const char *)out, "refused %d", &number) == 1 ? number : 0;
}

/* An input of the right length or not, with a state of the right length or not, which is not altered. */
static void check_rehearsal_lengths(void) {
    size_t most = BOARD_INPUT_MOST - table_length;
    memset(state, 7, ROOM);
    memset(expected, 7, ROOM);
    CHECK(refusal_of(most + 1, BOARD_STATE_LENGTH) == BOARD_INPUT);
    CHECK(refusal_of(most + 1, BOARD_STATE_LENGTH + 1) == BOARD_INPUT);
    CHECK(refusal_of(most, BOARD_STATE_LENGTH + 1) == BOARD_STATE);
    CHECK(refusal_of(most, BOARD_STATE_LENGTH - 1) == BOARD_STATE);
    CHECK(as_expected());
    CHECK(refusal_of(most, BOARD_STATE_LENGTH) == BOARD_DONE);
    CHECK(!as_expected());
}

static void check_lengths(void) {
    CHECK(board_state_length() == BOARD_STATE_LENGTH);
    CHECK(board_report_most() == BOARD_REPORT_MOST);
    CHECK(board_fresh(table, table_length, state, BOARD_STATE_LENGTH - 1) == BOARD_STATE);
    check_rehearsal_lengths();
    uint8_t post[BOARD_STEP_LENGTH + 1] = {BOARD_OP_POST};
    start();
    for (size_t length = 0; length <= BOARD_STEP_LENGTH + 1; length++) {
        uint8_t answer = board_step(table, table_length, state, BOARD_STATE_LENGTH, post, length);
        CHECK(answer == (length == BOARD_STEP_LENGTH ? BOARD_DONE : BOARD_FORM));
    }
}

/* The header's fields have different values, and the report says them. */
static void check_table(void) {
    char line[100];
    int written = snprintf(line, sizeof line, "peers %d threshold %d honest %d\ntotals 0 0 0\nend\n",
                           PEERS, THRESHOLD, HONEST);
    put_table();
    CHECK(board_check_table(table, table_length) == BOARD_DONE);
    CHECK(refusal_of(0, BOARD_STATE_LENGTH) == BOARD_DONE);
    CHECK(memcmp(out, line, (size_t)written + 1) == 0);
    CHECK(board_check_table(table, 0) == BOARD_HEADER);
    CHECK(board_check_table(table, BOARD_TABLE_PAIRS_AT - 1) == BOARD_HEADER);
    CHECK(board_check_table(table, BOARD_TABLE_PAIRS_AT) == BOARD_PAIRS);
    CHECK(board_check_table(table, table_length - 1) == BOARD_PAIRS);
    start();
    CHECK(STEP(.op = BOARD_OP_RECEIPT, .period = PERIODS - 1) == BOARD_SHORT);
    CHECK(STEP(.op = BOARD_OP_RECEIPT, .period = PERIODS) == BOARD_NAME);
    CHECK(STEP(.op = BOARD_OP_POST, .item = ITEMS - 1) == BOARD_DONE);
    CHECK(STEP(.op = BOARD_OP_POST, .item = ITEMS) == BOARD_NAME);
}

/* One item of each kind, with fewer, as many and more bytes than it may have; and twins. */
static void check_items(void) {
    static const struct { int kind, preferences, answer; } cases[] = {
        {BOARD_ITEM_VOTE, 0, BOARD_ITEM}, {BOARD_ITEM_VOTE, 1, BOARD_DONE},
        {BOARD_ITEM_VOTE, BOARD_PREFERENCES_MOST, BOARD_DONE},
        {BOARD_ITEM_VOTE, BOARD_PREFERENCES_MOST + 1, BOARD_ITEM},
        {BOARD_ITEM_AUDIT, -1, BOARD_ITEM}, {BOARD_ITEM_AUDIT, 0, BOARD_DONE},
        {BOARD_ITEM_AUDIT, 1, BOARD_ITEM}, {BOARD_ITEM_CANCELLATION, 0, BOARD_DONE},
        {BOARD_ITEM_CANCELLATION, 1, BOARD_ITEM}, {0, 0, BOARD_ITEM}, {4, 0, BOARD_ITEM},
    };
    for (size_t i = 0; i < sizeof cases / sizeof cases[0]; i++) {
        put_header(1, 1, 1, 1, 1);
        put_item(0, 7, cases[i].kind, cases[i].preferences);
        CHECK(board_check_table(table, table_length) == cases[i].answer);
    }
    put_header(1, 1, 1, 1, 2);
    put_item(0, 7, BOARD_ITEM_AUDIT, 0);
    put_item(1, 7, BOARD_ITEM_AUDIT, 0);
    CHECK(board_check_table(table, table_length) == BOARD_TWIN);
}

/* With a ballot number in its last byte alone, a vote clashes with an audit of it, and with no cancellation. */
static void check_kinds(void) {
    put_header(1, 1, 1, 1, 3);
    put_item(0, 7, BOARD_ITEM_VOTE, 1);
    put_item(1, 7, BOARD_ITEM_AUDIT, 0);
    put_item(2, 7, BOARD_ITEM_CANCELLATION, 0);
    start();
    for (int item = 0; item < 3; item++) {
        CHECK(STEP(.op = BOARD_OP_POST, .item = item) == BOARD_DONE);
    }
    CHECK(STEP(.op = BOARD_OP_HAND, .peer = 1, .item = 0) == BOARD_DONE);
    CHECK(STEP(.op = BOARD_OP_HAND, .peer = 1, .item = 1) == BOARD_CLASH);
    CHECK(STEP(.op = BOARD_OP_HAND, .peer = 1, .item = 2) == BOARD_DONE);
}

/* Under eight bytes a table of the new season has no header; an audit has its place, and by that alone clashes with
 * another of its ballot. */
static void check_new_season(void) {
    put_new_header(1, 1, 1, 1, 2);
    put_item(0, 7, BOARD_ITEM_AUDIT, 1);
    put_item(1, 7, BOARD_ITEM_AUDIT, 1);
    CHECK(board_check_table(table, table_length) == BOARD_DONE);
    size_t pairs_at = BOARD_SEASON_LENGTH + BOARD_TABLE_PAIRS_AT;
    CHECK(board_check_table(table, pairs_at - 1) == BOARD_HEADER);
    CHECK(board_check_table(table, pairs_at) == BOARD_PAIRS);
    start();
    for (int item = 0; item < 2; item++) {
        CHECK(STEP(.op = BOARD_OP_POST, .item = item) == BOARD_DONE);
        CHECK(STEP(.op = BOARD_OP_HAND, .peer = 1, .item = item) == (item == 0 ? BOARD_DONE : BOARD_CLASH));
    }
    uint8_t *second = table + table_length - 6, *first = second - 6;
    second[BOARD_ITEM_PLACE_AT] = first[BOARD_ITEM_PLACE_AT];
    CHECK(board_check_table(table, table_length) == BOARD_TWIN);
    for (int more = 0; more <= 2; more++) {
        put_new_header(1, 1, 1, 1, 1);
        put_item(0, 7, BOARD_ITEM_AUDIT, more);
        CHECK(board_check_table(table, table_length) == (more == 1 ? BOARD_DONE : BOARD_ITEM));
    }
}

/* Two peers that weigh 5 together have a threshold of 4 or 5; with a weight too few there is no header. Of sixteen
 * each in turn has every weight, and the threshold fits all that are taken. */
static void check_weights(void) {
    for (int threshold = 0; threshold < 256; threshold++) {
        put_weighted_header(2, BOARD_WEIGHT_MOST, threshold, 3, 1, 1);
        put_weight(2, BOARD_WEIGHT_LEAST);
        put_item(0, 7, BOARD_ITEM_AUDIT, 1);
        int fits = threshold == 4 || threshold == 5;
        CHECK(board_check_table(table, table_length) == (fits ? BOARD_DONE : BOARD_HEADER));
    }
    put_weighted_header(2, BOARD_WEIGHT_MOST, 8, 3, 1, 1);
    size_t weights_at = BOARD_SEASON_LENGTH + BOARD_TABLE_WEIGHTS_AT;
    for (size_t length = 0; length <= weights_at + 2; length++) {
        CHECK(board_check_table(table, length) == (length < weights_at + 2 ? BOARD_HEADER : BOARD_PAIRS));
    }
    for (int k = 1; k <= BOARD_PEERS_MOST; k++) {
        for (int weight = 0; weight < 256; weight++) {
            int fits = BOARD_WEIGHT_LEAST <= weight && weight <= BOARD_WEIGHT_MOST;
            put_weighted_header(BOARD_PEERS_MOST, 2, 24, 0, 1, 0);
            put_weight(k, weight);
            CHECK(board_check_table(table, table_length) == (fits ? BOARD_DONE : BOARD_HEADER));
        }
    }
}

/* An item of the table is signed by a peer, and peer 2 takes the signature. */
static void check_signed(int j, int item) {
    CHECK(STEP(.op = BOARD_OP_HAND, .peer = j, .item = item) == BOARD_DONE);
    CHECK(STEP(.op = BOARD_OP_SIGN, .peer = j, .item = item) == BOARD_DONE);
    CHECK(STEP(.op = BOARD_OP_TAKE, .peer = 2, .other = j, .item = item) == BOARD_DONE);
}

/* Peer 1 weighs 4, the three others 1 each, and the threshold is 5. The three are short of it for item 0; for item 1
 * peers 1 and 2 reach it. */
static void check_weighed(void) {
    put_weighted_header(4, BOARD_WEIGHT_LEAST, 5, 15, 1, 2);
    put_weight(1, BOARD_WEIGHT_MOST);
    put_item(0, 7, BOARD_ITEM_AUDIT, 1);
    put_item(1, 8, BOARD_ITEM_VOTE, 1);
    start();
    CHECK(STEP(.op = BOARD_OP_POST, .item = 0) == BOARD_DONE);
    CHECK(STEP(.op = BOARD_OP_POST, .item = 1) == BOARD_DONE);
    for (int j = 2; j <= 4; j++) {
        check_signed(j, 0);
        CHECK(STEP(.op = BOARD_OP_SHARE, .peer = 2, .item = 0) == BOARD_SHORT);
    }
    check_signed(1, 1);
    CHECK(STEP(.op = BOARD_OP_SHARE, .peer = 2, .item = 1) == BOARD_SHORT);
    check_signed(2, 1);
    CHECK(STEP(.op = BOARD_OP_SHARE, .peer = 2, .item = 1) == BOARD_DONE);
    CHECK(STEP(.op = BOARD_OP_RECEIPT, .item = 1) == BOARD_SHORT);
    CHECK(STEP(.op = BOARD_OP_TAKE, .peer = 1, .other = 2, .item = 1) == BOARD_DONE);
    CHECK(STEP(.op = BOARD_OP_SHARE, .peer = 1, .item = 1) == BOARD_DONE);
    CHECK(STEP(.op = BOARD_OP_RECEIPT, .item = 1) == BOARD_DONE);
}

static void check_limits(void) {
    put_header(BOARD_PEERS_MOST, BOARD_PEERS_MOST, 0, 1, 0);
    CHECK(board_check_table(table, table_length) == BOARD_DONE);
    put_header(BOARD_PEERS_MOST + 1, BOARD_PEERS_MOST + 1, 0, 1, 0);
    CHECK(board_check_table(table, table_length) == BOARD_HEADER);
    put_header(1, 1, 1, BOARD_PERIODS_MOST, 0);
    CHECK(board_check_table(table, table_length) == BOARD_DONE);
    put_header(1, 1, 1, BOARD_PERIODS_MOST + 1, 0);
    CHECK(board_check_table(table, table_length) == BOARD_HEADER);
    int heaviest = BOARD_PEERS_MOST * BOARD_WEIGHT_MOST;
    for (int items = BOARD_ITEMS_MOST; items <= BOARD_ITEMS_MOST + 1; items++) {
        put_weighted_header(BOARD_PEERS_MOST, BOARD_WEIGHT_MOST, heaviest, 0, 1, items);
        for (int k = 0; k < items; k++) {
            put_item(k, k, BOARD_ITEM_VOTE, BOARD_PREFERENCES_MOST);
        }
        CHECK(board_check_table(table, table_length) == (items == BOARD_ITEMS_MOST ? BOARD_DONE : BOARD_HEADER));
        CHECK(items > BOARD_ITEMS_MOST || table_length == BOARD_TABLE_MOST);
    }
}

void check_table_numbers(void) {
    put_table();
    check_lengths();
    check_table();
    check_items();
    check_kinds();
    check_new_season();
    check_weights();
    check_weighed();
    check_limits();
}
