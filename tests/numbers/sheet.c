/* Holds the numbers of a sheet in include/board.h to the engine: sheets are
 * written, judged and handed out item by item, beside the sheet that is expected.
 * What no call may write has a value of its own. */
#include "made.h"

enum { GUARD = 7, BEHIND = 100, MANY = BOARD_SHEET_MOST + BEHIND };

static uint8_t sheet[MANY], hung[MANY];
static size_t hung_length, lent_state;
static int items;

/* The front of the sheet that is expected, with room for so many pairs. */
static void expect_front(int period, int count) {
    memset(hung, GUARD, sizeof hung);
    hung[BOARD_SHEET_PERIOD_AT] = (uint8_t)period;
    hung[BOARD_SHEET_COUNT_AT] = (uint8_t)count;
    hung_length = (size_t)(BOARD_SHEET_PAIRS_AT + BOARD_PAIR_LENGTH * count);
    items = 0;
}

/* The next item of that sheet. */
static void expect_item(const uint8_t *text, size_t size) {
    uint8_t *pair = hung + BOARD_SHEET_PAIRS_AT + BOARD_PAIR_LENGTH * items;
    put_number(pair + BOARD_PAIR_OFFSET_AT, hung_length, 2);
    put_number(pair + BOARD_PAIR_SIZE_AT, size, 2);
    memcpy(hung + hung_length, text, size);
    hung_length += size;
    items++;
}

static size_t number_at(const uint8_t *at) {
    return 256u * at[0] + at[1];
}

/* The sheet of a board of the table, by the texts of its items. */
static void expect_board(int period, uint64_t board) {
    int count = 0;
    for (int i = 0; i < BOARD_ITEMS_MOST; i++) {
        count += (int)(board >> i & 1);
    }
    expect_front(period, count);
    for (int i = 0; i < BOARD_ITEMS_MOST; i++) {
        const uint8_t *pair = pair_of(i);
        if (board >> i & 1) {
            expect_item(table + number_at(pair + BOARD_PAIR_OFFSET_AT), number_at(pair + BOARD_PAIR_SIZE_AT));
        }
    }
}

/* The writer's answer for a buffer of so many bytes: the sheet that is expected,
 * its length, and nothing behind it; or nothing at all. */
static uint8_t written(int period, size_t room) {
    size_t length = GUARD;
    memset(sheet, GUARD, sizeof sheet);
    uint8_t answer = board_write_sheet(table, table_length, state, lent_state, (uint8_t)period, sheet, room, &length);
    for (size_t i = 0; answer != BOARD_DONE && i < sizeof sheet; i++) {
        CHECK(sheet[i] == GUARD);
    }
    CHECK(answer != BOARD_DONE || memcmp(sheet, hung, sizeof sheet) == 0);
    CHECK(length == (answer == BOARD_DONE ? hung_length : GUARD));
    CHECK(as_expected());
    return answer;
}

/* An entry in the bag; no steps need lead to a state that is lent. */
static void enter(int number, int kind, int signer, int period, uint64_t board) {
    put_entry(state, number, kind, signer, period, board);
    put_entry(expected, number, kind, signer, period, board);
}

/* Every room for the sheet that is expected, from none to more than it takes. */
static void check_rooms(int period) {
    for (size_t room = 0; room <= hung_length + 1; room++) {
        CHECK(written(period, room) == (room < hung_length ? BOARD_SHEET : BOARD_DONE));
    }
    CHECK(written(period, BOARD_SHEET_MOST) == BOARD_DONE);
}

/* Period 0 has a hash and a backing and no board, period 1 two boards, of which the first is its own, and period 2
 * one without items. */
static void check_written(void) {
    uint64_t first = 1 << 1 | 1 << 3 | 1 << 5 | 1 << 10, second = 1 << 2;
    start();
    enter(0, BOARD_ENTRY_HASH, 1, 0, first);
    enter(1, BOARD_ENTRY_BACKING, 2, 0, first);
    enter(2, BOARD_ENTRY_BOARD, 0, 2, 0);
    enter(3, BOARD_ENTRY_BOARD, 0, 1, first);
    enter(4, BOARD_ENTRY_BOARD, 0, 1, second);
    expect_board(1, first);
    check_rooms(1);
    expect_board(2, 0);
    CHECK(hung_length == BOARD_SHEET_PAIRS_AT);
    check_rooms(2);
    for (size_t room = 0; room <= BOARD_SHEET_MOST; room += BOARD_SHEET_MOST) {
        CHECK(written(0, room) == BOARD_UNKNOWN);
        CHECK(written(PERIODS, room) == BOARD_NAME);
        CHECK(written(255, room) == BOARD_NAME);
    }
}

/* What is wrong with table or state comes before period and buffer, which are wrong here as well. */
static void check_order(void) {
    lent_state--;
    CHECK(written(PERIODS, 0) == BOARD_STATE);
    size_t whole = table_length;
    table_length--;
    CHECK(written(PERIODS, 0) == BOARD_PAIRS);
    table_length = BOARD_TABLE_PAIRS_AT - 1;
    CHECK(written(PERIODS, 0) == BOARD_HEADER);
    table_length = whole;
    lent_state++;
    state[BOARD_STATE_DOWN_AT] = expected[BOARD_STATE_DOWN_AT] = 2;
    CHECK(written(PERIODS, 0) == BOARD_STATE);
    put_header(1, 1, 1, 1, 2);
    put_item(0, 7, BOARD_ITEM_AUDIT, 0);
    put_item(1, 7, BOARD_ITEM_AUDIT, 0);
    CHECK(written(PERIODS, 0) == BOARD_TWIN);
    put_header(1, 1, 1, 1, 1);
    put_item(0, 7, BOARD_ITEM_AUDIT, 1);
    CHECK(written(PERIODS, 0) == BOARD_ITEM);
}

/* Of a season with places: an audit with its place, a vote and a cancellation, of which the first two are on the
 * board. */
static void check_placed(void) {
    put_item(0, 7, BOARD_ITEM_AUDIT, 1);
    put_item(1, 8, BOARD_ITEM_VOTE, BOARD_PREFERENCES_MOST);
    put_item(2, 7, BOARD_ITEM_CANCELLATION, 0);
    start();
    enter(0, BOARD_ENTRY_BOARD, 0, 0, 1 << 0 | 1 << 1);
    expect_board(0, 1 << 0 | 1 << 1);
    check_rooms(0);
}

/* The longest sheet: every item, each as long as can be. */
static void check_longest(void) {
    put_header(1, 1, 1, 1, BOARD_ITEMS_MOST);
    for (int k = 0; k < BOARD_ITEMS_MOST; k++) {
        put_item(k, k, BOARD_ITEM_VOTE, BOARD_PREFERENCES_MOST);
    }
    start();
    enter(0, BOARD_ENTRY_BOARD, 0, 0, UINT64_MAX);
    expect_board(0, UINT64_MAX);
    CHECK(hung_length == BOARD_SHEET_MOST);
    CHECK(written(0, BOARD_SHEET_MOST - 1) == BOARD_SHEET);
    CHECK(written(0, BOARD_SHEET_MOST) == BOARD_DONE);
}

/* The reader's answers to the sheet that is expected and to every item number; where it refuses, nothing is altered. */
static void check_read(int answer) {
    CHECK(board_check_sheet(hung, hung_length) == answer);
    for (int k = 0; k < 256; k++) {
        const uint8_t *pair = hung + BOARD_SHEET_PAIRS_AT + BOARD_PAIR_LENGTH * k;
        size_t offset = GUARD, length = GUARD;
        int there = answer == BOARD_DONE && k < items;
        CHECK(board_sheet_item(hung, hung_length, (uint8_t)k, &offset, &length)
              == (answer == BOARD_DONE && !there ? BOARD_NAME : answer));
        CHECK(offset == (there ? number_at(pair + BOARD_PAIR_OFFSET_AT) : GUARD));
        CHECK(length == (there ? number_at(pair + BOARD_PAIR_SIZE_AT) : GUARD));
    }
}

/* So many audits of different ballots, or all of one. */
static void expect_audits(int period, int count, int different) {
    expect_front(period, count);
    for (int k = 0; k < count; k++) {
        uint8_t text[] = {0, 0, 0, 0, BOARD_ITEM_AUDIT};
        put_number(text + BOARD_ITEM_BALLOT_AT, (size_t)(different ? k : 0), 4);
        expect_item(text, sizeof text);
    }
}

/* Every part of a sheet altered in turn, and every length but its own. */
static void check_damaged(void) {
    static const int places[] = {
        BOARD_SHEET_COUNT_AT,
        BOARD_SHEET_PAIRS_AT + BOARD_PAIR_OFFSET_AT + 1,
        BOARD_SHEET_PAIRS_AT + BOARD_PAIR_SIZE_AT + 1,
        BOARD_SHEET_PAIRS_AT + 2 * BOARD_PAIR_LENGTH + BOARD_ITEM_KIND_AT,
    };
    expect_audits(0, 2, 1);
    size_t whole = hung_length;
    for (hung_length = 0; hung_length <= whole + 1; hung_length++) {
        check_read(hung_length == whole ? BOARD_DONE : BOARD_SHEET);
    }
    hung_length = whole;
    for (size_t i = 0; i < sizeof places / sizeof places[0]; i++) {
        for (int by = -1; by <= 3; by += 4) {
            hung[places[i]] = (uint8_t)(hung[places[i]] + by);
            check_read(BOARD_SHEET);
            hung[places[i]] = (uint8_t)(hung[places[i]] - by);
        }
    }
    check_read(BOARD_DONE);
}

static void check_reader(void) {
    for (int count = 0; count <= BOARD_ITEMS_MOST + 1; count++) {
        expect_audits(BOARD_PERIODS_MOST - 1, count, 1);
        check_read(count > BOARD_ITEMS_MOST ? BOARD_SHEET : BOARD_DONE);
        expect_audits(0, count, 0);
        check_read(count > 1 ? BOARD_SHEET : BOARD_DONE);
        expect_audits(BOARD_PERIODS_MOST, count, 1);
        check_read(BOARD_SHEET);
    }
    check_damaged();
}

void check_sheet_numbers(void) {
    CHECK(board_sheet_most() == BOARD_SHEET_MOST);
    lent_state = BOARD_STATE_LENGTH;
    put_table();
    check_written();
    check_order();
    put_new_header(1, 1, 1, 1, 3);
    check_placed();
    check_read(BOARD_DONE);
    put_weighted_header(1, BOARD_WEIGHT_MOST, BOARD_WEIGHT_MOST, 1, 1, 3);
    check_placed();
    check_read(BOARD_DONE);
    check_longest();
    check_read(BOARD_DONE);
    check_reader();
}
