/* Holds the numbers of steps, entries and places in include/board.h to the
 * engine: after each step the whole state must be the one before it with that
 * step's bytes changed, at the places that the header gives and docs/STATE.md
 * explains. */
#include "made.h"

static int entries;

static void expect_bit(size_t at, size_t bit) {
    expected[at + bit / 8] |= (uint8_t)(1 << bit % 8);
}

/* the place of (peer, period, item) among signatures and shares, and of an item of (peer, period) */
static size_t spot(int k, int p, int i) {
    return (size_t)((64 * p + i) * 16 + k - 1);
}

static size_t cell(int j, int p, int i) {
    return (size_t)((8 * (j - 1) + p) * 64 + i);
}

static void expect_known(int j, int p, int i, int k) {
    expect_bit(BOARD_STATE_DATABASES_AT, cell(j, p, i) * 16 + (size_t)k - 1);
}

static void expect_entry(int kind, int signer, int period, uint64_t board) {
    put_entry(expected, entries, kind, signer, period, board);
    entries++;
}

/* Item 3 is posted and, in period 1, held and signed by all, taken by peer 2, shared and receipted. */
static void check_open(void) {
    for (int item = 0; item < ITEMS; item++) {
        CHECK(STEP(.op = BOARD_OP_POST, .item = item) == BOARD_DONE);
        expect_bit(BOARD_STATE_POSTED_AT, (size_t)item);
        CHECK(as_expected());
    }
    for (int j = 1; j <= PEERS; j++) {
        if (j == LIAR) {
            CHECK(STEP(.op = BOARD_OP_CLOSE, .peer = j) == BOARD_ROLE);
            continue;
        }
        CHECK(STEP(.op = BOARD_OP_CLOSE, .peer = j) == BOARD_DONE);
        expected[BOARD_STATE_OPEN_AT + j - 1] = 1;
        CHECK(as_expected());
        CHECK(STEP(.op = BOARD_OP_SIGN, .peer = j, .item = 3) == BOARD_UNKNOWN);
        CHECK(STEP(.op = BOARD_OP_HAND, .peer = j, .item = 3) == BOARD_DONE);
        expect_bit(BOARD_STATE_HELD_AT, cell(j, 1, 3));
        CHECK(as_expected());
        CHECK(STEP(.op = BOARD_OP_SIGN, .peer = j, .item = 3) == BOARD_DONE);
        expect_bit(BOARD_STATE_SIGNED_AT, spot(j, 1, 3));
        expect_known(j, 1, 3, j);
        CHECK(as_expected());
    }
}

/* Signatures to every peer, a false one among them; then shares, and at the seventh the receipt. */
static void check_receipt(void) {
    CHECK(STEP(.op = BOARD_OP_FALSE_SIGNATURE, .peer = LIAR, .period = 1, .item = 3) == BOARD_DONE);
    expect_bit(BOARD_STATE_SIGNED_AT, spot(LIAR, 1, 3));
    CHECK(as_expected());
    CHECK(STEP(.op = BOARD_OP_TAKE, .peer = 2, .other = 9, .period = 2, .item = 3) == BOARD_PERIOD);
    CHECK(STEP(.op = BOARD_OP_SHARE, .peer = 2, .item = 3) == BOARD_SHORT);
    for (int k = 1; k <= PEERS; k++) {
        CHECK(STEP(.op = BOARD_OP_TAKE, .peer = 2, .other = k, .period = 1, .item = 3) == BOARD_DONE);
        expect_known(2, 1, 3, k);
        CHECK(as_expected());
    }
    CHECK(STEP(.op = BOARD_OP_SHARE, .peer = 2, .item = 3) == BOARD_DONE);
    expect_bit(BOARD_STATE_SHARED_AT, spot(2, 1, 3));
    CHECK(as_expected());
    CHECK(STEP(.op = BOARD_OP_FALSE_SHARE, .peer = LIAR, .period = 1, .item = 3) == BOARD_DONE);
    expect_bit(BOARD_STATE_SHARED_AT, spot(LIAR, 1, 3));
    CHECK(as_expected());
    for (int j = 5; j <= PEERS; j++) {
        CHECK(STEP(.op = BOARD_OP_RECEIPT, .period = 1, .item = 3) == BOARD_SHORT);
        for (int k = 1; k <= PEERS; k++) {
            CHECK(STEP(.op = BOARD_OP_TAKE, .peer = j, .other = k, .period = 1, .item = 3) == BOARD_DONE);
            expect_known(j, 1, 3, k);
        }
        CHECK(STEP(.op = BOARD_OP_SHARE, .peer = j, .item = 3) == BOARD_DONE);
        expect_bit(BOARD_STATE_SHARED_AT, spot(j, 1, 3));
        CHECK(as_expected());
    }
    CHECK(STEP(.op = BOARD_OP_RECEIPT, .period = 1, .item = 3) == BOARD_DONE);
    expect_bit(BOARD_STATE_RECEIPTED_AT, 64 + 3);
    CHECK(as_expected());
}

/* Every peer closes period 1 too, and those that took nothing fetch peer 2's database of it. */
static void check_fetch(void) {
    for (int j = 1; j <= PEERS; j++) {
        if (j == LIAR) {
            continue;
        }
        CHECK(STEP(.op = BOARD_OP_CLOSE, .peer = j) == BOARD_DONE);
        expected[BOARD_STATE_OPEN_AT + j - 1] = 2;
        CHECK(as_expected());
    }
    for (int j = 1; j <= 3; j += 2) {
        CHECK(STEP(.op = BOARD_OP_FETCH, .peer = j, .other = 2, .period = 1) == BOARD_DONE);
        for (int k = 1; k <= PEERS; k++) {
            expect_known(j, 1, 3, k);
        }
        CHECK(as_expected());
    }
}

/* In period 2 whoever gave a share for item 3 in period 1 is refused another; the others are but short of signers. */
static void check_given(void) {
    for (int j = 1; j <= PEERS; j++) {
        if (j != LIAR) {
            CHECK(STEP(.op = BOARD_OP_SHARE, .peer = j, .item = 3) == (j == 1 || j == 3 ? BOARD_SHORT : BOARD_GIVEN));
        }
    }
    CHECK(as_expected());
}

/* The board of a period, sent by every honest peer, heard by every one, backed and published. */
static void check_board(int period, uint64_t board) {
    int first = entries, backing = 0;
    for (int j = 1; j <= PEERS; j++) {
        if (j != LIAR) {
            CHECK(STEP(.op = BOARD_OP_HASH, .peer = j, .period = period) == BOARD_DONE);
            expect_entry(BOARD_ENTRY_HASH, j, period, board);
            CHECK(as_expected());
        }
    }
    for (int j = 1; j <= PEERS; j++) {
        if (j == LIAR) {
            continue;
        }
        CHECK(STEP(.op = BOARD_OP_BACK, .peer = j) == BOARD_SHORT);
        for (int e = first; e < first + HONEST; e++) {
            CHECK(STEP(.op = BOARD_OP_HEAR, .peer = j, .entry = e) == BOARD_DONE);
            expect_bit(BOARD_STATE_HEARD_AT, (size_t)(256 * (j - 1) + e));
            CHECK(as_expected());
        }
        CHECK(STEP(.op = BOARD_OP_BACK, .peer = j) == BOARD_DONE);
        backing = entries;
        expect_entry(BOARD_ENTRY_BACKING, j, period, board);
        expected[BOARD_STATE_NEXT_AT + j - 1] = (uint8_t)(period + 1);
        CHECK(as_expected());
    }
    CHECK(STEP(.op = BOARD_OP_PUBLISH, .entry = backing) == BOARD_DONE);
    expect_entry(BOARD_ENTRY_BOARD, 0, period, board);
    CHECK(as_expected());
}

/* A dishonest peer's hashes of one board after the other, until the bag is full. */
static void check_full(uint64_t board) {
    for (; entries < BOARD_ENTRIES_MOST; board++) {
        CHECK(STEP(.op = BOARD_OP_FALSE_HASH, .peer = LIAR, .period = 2, .board = board) == BOARD_DONE);
        expect_entry(BOARD_ENTRY_HASH, LIAR, 2, board);
        CHECK(as_expected());
    }
    CHECK(STEP(.op = BOARD_OP_FALSE_HASH, .peer = LIAR, .period = 2, .board = 0) == BOARD_FULL);
    CHECK(as_expected());
}

/* A dishonest peer's entries, of a board with items in two bytes; and more of them until the bag is full. */
static void check_false_entries(void) {
    uint64_t board = 1 << 3 | 1 << 9;
    CHECK(STEP(.op = BOARD_OP_FALSE_HASH, .peer = LIAR, .period = 2, .board = board) == BOARD_DONE);
    expect_entry(BOARD_ENTRY_HASH, LIAR, 2, board);
    CHECK(as_expected());
    CHECK(STEP(.op = BOARD_OP_FALSE_BACKING, .peer = LIAR, .period = 2, .board = board) == BOARD_DONE);
    expect_entry(BOARD_ENTRY_BACKING, LIAR, 2, board);
    CHECK(as_expected());
    check_full(1 << 10);
}

/* As many entries as there are honest peers go, from the first of them on, and those behind them move up. */
static void expect_removed(int first) {
    uint8_t *bag = expected + BOARD_STATE_BAG_AT;
    entries -= HONEST;
    memmove(bag + BOARD_ENTRY_LENGTH * first, bag + BOARD_ENTRY_LENGTH * (first + HONEST),
            (size_t)(BOARD_ENTRY_LENGTH * (entries - first)));
    memset(bag + BOARD_ENTRY_LENGTH * entries, 0, BOARD_ENTRY_LENGTH * HONEST);
    expected[BOARD_STATE_COUNT_AT] = (uint8_t)(entries % 256);
    expected[BOARD_STATE_COUNT_AT + 1] = (uint8_t)(entries / 256);
}

/* Every honest peer heard so many entries, from the first of them on, and no others. */
static void expect_heard(int first, int count) {
    for (int j = 1; j <= PEERS; j++) {
        memset(expected + BOARD_STATE_HEARD_AT + 32 * (j - 1), 0, 32);
        for (int e = first; j != LIAR && e < first + count; e++) {
            expect_bit(BOARD_STATE_HEARD_AT, (size_t)(256 * (j - 1) + e));
        }
    }
}

/* The hashes of the periods 0 and 1 were entered first and behind the board of period 0; period 2 nobody has backed. A
 * removed hash may be sent again, and there is room until the bag is full as before. */
static void check_clear(void) {
    int second = 2 * HONEST + 1;
    CHECK(STEP(.op = BOARD_OP_CLEAR, .period = 2) == BOARD_PERIOD);
    CHECK(STEP(.op = BOARD_OP_CLEAR, .period = PERIODS) == BOARD_NAME);
    CHECK(STEP(.op = BOARD_OP_CLEAR, .peer = 1) == BOARD_FORM);
    CHECK(as_expected());
    CHECK(STEP(.op = BOARD_OP_CLEAR, .period = 0) == BOARD_DONE);
    expect_removed(0);
    second -= HONEST;
    expect_heard(second, HONEST);
    CHECK(as_expected());
    CHECK(STEP(.op = BOARD_OP_CLEAR, .period = 0) == BOARD_DONE);
    CHECK(STEP(.op = BOARD_OP_HEAR, .peer = 1, .entry = second) == BOARD_DONE);
    CHECK(STEP(.op = BOARD_OP_HEAR, .peer = 1, .entry = second - 1) == BOARD_UNKNOWN);
    CHECK(as_expected());
    CHECK(STEP(.op = BOARD_OP_CLEAR, .period = 1) == BOARD_DONE);
    expect_removed(second);
    expect_heard(0, 0);
    CHECK(as_expected());
    CHECK(STEP(.op = BOARD_OP_HASH, .peer = 1, .period = 1) == BOARD_DONE);
    expect_entry(BOARD_ENTRY_HASH, 1, 1, 1 << 3);
    CHECK(as_expected());
    check_full(1 << 11);
}

static void check_down(void) {
    CHECK(STEP(.op = BOARD_OP_DOWN, .peer = 5) == BOARD_DONE);
    expected[BOARD_STATE_DOWN_AT + 4] = 1;
    CHECK(as_expected());
    CHECK(STEP(.op = BOARD_OP_CLOSE, .peer = 5) == BOARD_DOWN);
    CHECK(STEP(.op = BOARD_OP_UP, .peer = 5) == BOARD_DONE);
    expected[BOARD_STATE_DOWN_AT + 4] = 0;
    CHECK(as_expected());
}

void check_state_numbers(void) {
    put_table();
    start();
    check_open();
    check_receipt();
    check_fetch();
    check_given();
    check_board(0, 0);
    check_board(1, 1 << 3);
    check_false_entries();
    check_clear();
    check_down();
}
