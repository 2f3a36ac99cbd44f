/* Holds the numbers of include/field.h to the field peer: the box of one peer goes
 * through two periods. After each call the whole state must be the one before it with
 * that call's bytes changed, at the places that the header gives and docs/FIELD.md
 * explains; and what is sent must be what is expected, or must have kept its bytes. */
#include "made.h"

#include "field.h"

enum { OWN = 2, GUARD = 7, SENT_ROOM = 100 };

static uint8_t box[ROOM], kept[ROOM], sent[SENT_ROOM], going[SENT_ROOM];
static int heard;

struct call {
    int op, peer, other, period, item;
    uint64_t board;
    int set_of, set; /* a fetch: the signers of one item */
};

/* A call of these fields, with zeros behind it; its length. */
static size_t put_call(uint8_t *bytes, struct call c) {
    memset(bytes, 0, ROOM);
    bytes[FIELD_MESSAGE_OP_AT] = (uint8_t)c.op;
    bytes[FIELD_MESSAGE_PEER_AT] |= (uint8_t)c.peer;
    bytes[FIELD_MESSAGE_OTHER_AT] |= (uint8_t)c.other;
    bytes[FIELD_MESSAGE_PERIOD_AT] |= (uint8_t)c.period;
    bytes[FIELD_MESSAGE_ITEM_AT] |= (uint8_t)c.item;
    for (int i = 0; i < 8; i++) {
        bytes[FIELD_MESSAGE_BOARD_AT + i] |= (uint8_t)(c.board >> (56 - 8 * i));
    }
    put_number(bytes + FIELD_MESSAGE_SETS_AT + FIELD_SET_LENGTH * c.set_of, (size_t)c.set, 2);
    return c.op == FIELD_OP_FETCH ? FIELD_FETCH_LENGTH : FIELD_MESSAGE_LENGTH;
}

static int is_message(int op) {
    return op == FIELD_OP_HAND || op == FIELD_OP_TAKE || op == FIELD_OP_FETCH || op == FIELD_OP_HEAR;
}

/* The answer to a call of these fields, by their names; the others are 0. It is the own peer's. */
#define CALL(...) called(OWN, (struct call){.peer = OWN, __VA_ARGS__})
static uint8_t called(int peer, struct call c) {
    static uint8_t bytes[ROOM];
    size_t length = put_call(bytes, c);
    memset(sent, GUARD, sizeof sent);
    memset(going, GUARD, sizeof going);
    return is_message(c.op)
        ? field_message(table, table_length, (uint8_t)peer, box, FIELD_STATE_LENGTH, bytes, length)
        : field_step(table, table_length, (uint8_t)peer, box, FIELD_STATE_LENGTH, bytes, length,
                     sent, FIELD_SENT_LENGTH);
}

/* Whether the state, and what stands behind it, is as expected, and so what is sent. */
static int as_kept(void) {
    return memcmp(box, kept, ROOM) == 0 && memcmp(sent, going, SENT_ROOM) == 0;
}

static void begin(void) {
    memset(box, GUARD, ROOM);
    memset(box, 0, FIELD_STATE_LENGTH);
    memcpy(kept, box, ROOM);
    heard = 0;
}

static void expect_bit(size_t at, int bit) {
    kept[at + (size_t)bit / 8] |= (uint8_t)(1 << bit % 8);
}

static void expect_signer(int period, int item, int k) {
    expect_bit(FIELD_STATE_DATABASE_AT, (64 * period + item) * 16 + k - 1);
}

/* The hash that is heard next. */
static void expect_hash(int signer, int period, uint64_t board) {
    uint8_t *hash = kept + FIELD_STATE_HEARD_AT + FIELD_HASH_LENGTH * heard;
    hash[FIELD_HASH_SIGNER_AT] = (uint8_t)signer;
    hash[FIELD_HASH_PERIOD_AT] = (uint8_t)period;
    for (int i = 0; i < 8; i++) {
        hash[FIELD_HASH_BOARD_AT + i] = (uint8_t)(board >> 8 * i);
    }
    heard++;
    kept[FIELD_STATE_COUNT_AT] = (uint8_t)(heard % 256);
    kept[FIELD_STATE_COUNT_AT + 1] = (uint8_t)(heard / 256);
}

/* What is sent: nothing, or a message of these fields. */
#define SENDS(...) expect_sent((struct call){.peer = OWN, __VA_ARGS__})
static void expect_sent(struct call c) {
    static uint8_t bytes[ROOM];
    put_call(bytes, c);
    memcpy(going, bytes, FIELD_SENT_LENGTH);
}

static void sends_nothing(void) {
    memset(going, 0, FIELD_SENT_LENGTH);
}

/* Each length but one is refused: of the state, of a message, a fetch and a step, of what is sent. */
static void check_lengths(void) {
    static uint8_t bytes[ROOM];
    CHECK(field_state_length() == FIELD_STATE_LENGTH);
    put_call(bytes, (struct call){.op = FIELD_OP_UP, .peer = OWN});
    for (size_t length = 0; length < SENT_ROOM; length++) {
        CHECK(field_step(table, table_length, OWN, box, FIELD_STATE_LENGTH, bytes, length, sent, FIELD_SENT_LENGTH)
              == (length == FIELD_STEP_LENGTH ? FIELD_DONE : FIELD_FORM));
        CHECK(field_step(table, table_length, OWN, box, FIELD_STATE_LENGTH, bytes, FIELD_STEP_LENGTH, sent, length)
              == (length == FIELD_SENT_LENGTH ? FIELD_DONE : FIELD_STATE));
    }
    for (size_t length = 0; length < 2 * FIELD_STATE_LENGTH; length++) {
        CHECK(field_step(table, table_length, OWN, box, length, bytes, FIELD_STEP_LENGTH, sent, FIELD_SENT_LENGTH)
              == (length == FIELD_STATE_LENGTH ? FIELD_DONE : FIELD_STATE));
        memset(box, 0, FIELD_STATE_LENGTH);
    }
    for (size_t length = 0; length < 2 * FIELD_FETCH_LENGTH; length++) {
        put_call(bytes, (struct call){.op = FIELD_OP_HAND, .peer = OWN, .item = 3});
        CHECK(field_message(table, table_length, OWN, box, FIELD_STATE_LENGTH, bytes, length)
              == (length == FIELD_MESSAGE_LENGTH ? FIELD_DONE : FIELD_FORM));
        put_call(bytes, (struct call){.op = FIELD_OP_FETCH, .peer = OWN, .other = 1});
        CHECK(field_message(table, table_length, OWN, box, FIELD_STATE_LENGTH, bytes, length)
              == (length == FIELD_FETCH_LENGTH ? FIELD_PERIOD : FIELD_FORM));
    }
}

/* How many bytes each part has: up to the next one. */
static void check_sizes(void) {
    CHECK(FIELD_STATE_HELD_AT + FIELD_STATE_HELD_LENGTH == FIELD_STATE_SHARED_AT);
    CHECK(FIELD_STATE_SHARED_AT + FIELD_STATE_SHARED_LENGTH == FIELD_STATE_DATABASE_AT);
    CHECK(FIELD_STATE_DATABASE_AT + FIELD_STATE_DATABASE_LENGTH == FIELD_STATE_OPEN_AT);
    CHECK(FIELD_STATE_HEARD_AT + FIELD_STATE_HEARD_LENGTH == FIELD_STATE_LENGTH);
    CHECK(FIELD_HASH_LENGTH * FIELD_HEARD_MOST == FIELD_STATE_HEARD_LENGTH);
    CHECK(FIELD_MESSAGE_SETS_AT + FIELD_SET_LENGTH * FIELD_ITEMS_MOST == FIELD_FETCH_LENGTH);
}

/* The table's refusals, and the most that it has: a table with so many is taken, one with one more is not. */
static void check_tables(void) {
    put_header(1, 1, 1, 1, 1);
    CHECK(CALL(.op = FIELD_OP_UP) == FIELD_PAIRS);
    table_length = 1;
    CHECK(CALL(.op = FIELD_OP_UP) == FIELD_HEADER);
    put_header(1, 1, 1, 1, 1);
    put_item(0, 5, BOARD_ITEM_CANCELLATION + 1, 0);
    CHECK(CALL(.op = FIELD_OP_UP) == FIELD_ITEM);
    put_header(1, 1, 1, 1, 2);
    put_item(0, 5, BOARD_ITEM_AUDIT, 0);
    put_item(1, 5, BOARD_ITEM_AUDIT, 0);
    CHECK(CALL(.op = FIELD_OP_UP) == FIELD_TWIN);
    for (int more = 0; more <= 1; more++) {
        int expected = more ? FIELD_HEADER : FIELD_DONE;
        put_header(FIELD_PEERS_MOST + more, FIELD_PEERS_MOST, 255, 1, 0);
        CHECK(CALL(.op = FIELD_OP_UP) == expected);
        put_header(2, 2, 3, FIELD_PERIODS_MOST + more, 0);
        CHECK(CALL(.op = FIELD_OP_UP) == expected);
        put_header(2, 2, 3, 1, FIELD_ITEMS_MOST + more);
        for (int k = 0; k < FIELD_ITEMS_MOST + more; k++) {
            put_item(k, k, BOARD_ITEM_AUDIT, 0);
        }
        CHECK(CALL(.op = FIELD_OP_UP) == expected);
    }
}

/* The other function's ops, another peer, one that is dishonest, which comes before the item's name; nothing is
 * altered. */
static void check_refused(void) {
    CHECK(CALL(.op = BOARD_OP_POST) == FIELD_FORM && as_kept());
    CHECK(CALL(.op = FIELD_OP_CLOSE, .item = 1) == FIELD_FORM && as_kept());
    CHECK(called(OWN, (struct call){.op = FIELD_OP_CLOSE, .peer = OWN + 1}) == FIELD_NAME && as_kept());
    CHECK(called(OWN + 1, (struct call){.op = FIELD_OP_CLOSE, .peer = OWN}) == FIELD_NAME && as_kept());
    CHECK(called(LIAR, (struct call){.op = FIELD_OP_HAND, .peer = LIAR, .item = ITEMS}) == FIELD_ROLE && as_kept());
    CHECK(CALL(.op = FIELD_OP_HAND, .item = ITEMS) == FIELD_NAME && as_kept());
    kept[FIELD_STATE_DOWN_AT] = box[FIELD_STATE_DOWN_AT] = 2;
    CHECK(CALL(.op = FIELD_OP_CLOSE) == FIELD_STATE && as_kept());
    kept[FIELD_STATE_DOWN_AT] = box[FIELD_STATE_DOWN_AT] = 0;
}

/* A close, to period 1 or 2. */
static void check_close(int open) {
    CHECK(CALL(.op = FIELD_OP_CLOSE) == FIELD_DONE);
    kept[FIELD_STATE_OPEN_AT] = (uint8_t)open;
    sends_nothing();
    CHECK(as_kept());
}

/* Item 3 in period 1: held, signed, its signatures taken, shared; each again. */
static void check_open(void) {
    CHECK(CALL(.op = FIELD_OP_SIGN, .item = 3) == FIELD_UNKNOWN && as_kept());
    for (int again = 0; again < 2; again++) {
        CHECK(CALL(.op = FIELD_OP_HAND, .item = 3) == FIELD_DONE);
        expect_bit(FIELD_STATE_HELD_AT, 64 + 3);
        CHECK(as_kept());
        CHECK(CALL(.op = FIELD_OP_SIGN, .item = 3) == FIELD_DONE);
        expect_signer(1, 3, OWN);
        SENDS(.op = FIELD_OP_SIGN, .period = 1, .item = 3);
        CHECK(as_kept());
    }
    for (int k = 1; k <= THRESHOLD; k++) {
        CHECK(CALL(.op = FIELD_OP_SHARE, .item = 3) == FIELD_SHORT && as_kept());
        CHECK(CALL(.op = FIELD_OP_TAKE, .other = k, .period = 1, .item = 3) == FIELD_DONE);
        expect_signer(1, 3, k);
        CHECK(as_kept());
    }
    CHECK(CALL(.op = FIELD_OP_TAKE, .other = 1, .period = 2, .item = 3) == FIELD_PERIOD && as_kept());
    for (int again = 0; again < 2; again++) {
        CHECK(CALL(.op = FIELD_OP_SHARE, .item = 3) == FIELD_DONE);
        expect_bit(FIELD_STATE_SHARED_AT, 64 + 3);
        SENDS(.op = FIELD_OP_SHARE, .period = 1, .item = 3);
        CHECK(as_kept());
    }
}

/* Items 0 and 1 clash; the share of period 1 is not given again in period 2. */
static void check_clash(void) {
    CHECK(CALL(.op = FIELD_OP_HAND, .item = 0) == FIELD_DONE);
    expect_bit(FIELD_STATE_HELD_AT, 64 * 2);
    CHECK(as_kept());
    CHECK(CALL(.op = FIELD_OP_HAND, .item = 1) == FIELD_CLASH && as_kept());
    CHECK(CALL(.op = FIELD_OP_SHARE, .item = 3) == FIELD_GIVEN && as_kept());
}

/* The signers of item 9 in period 1 are fetched, all but the dishonest peer. */
static void check_fetch(void) {
    int signers = (1 << PEERS) - 1 - (1 << (LIAR - 1));
    CHECK(CALL(.op = FIELD_OP_FETCH, .other = 9, .period = 2) == FIELD_PERIOD && as_kept());
    CHECK(CALL(.op = FIELD_OP_FETCH, .other = 9, .period = 1, .set_of = ITEMS, .set = 1) == FIELD_NAME && as_kept());
    CHECK(CALL(.op = FIELD_OP_FETCH, .other = 9, .period = 1, .set_of = 9, .set = signers) == FIELD_DONE);
    for (int k = 1; k <= PEERS; k++) {
        if (k != LIAR) {
            expect_signer(1, 9, k);
        }
    }
    CHECK(as_kept());
}

/* The board of a period: its hash, as many heard as it takes, each twice, and the backing. */
static void check_board(int period, uint64_t board) {
    CHECK(CALL(.op = FIELD_OP_HASH, .period = period) == FIELD_DONE);
    SENDS(.op = FIELD_OP_HASH, .period = period, .board = board);
    CHECK(as_kept());
    for (int k = PEERS; k > PEERS - THRESHOLD; k--) {
        CHECK(CALL(.op = FIELD_OP_BACK) == FIELD_SHORT && as_kept());
        CHECK(CALL(.op = FIELD_OP_HEAR, .other = k, .period = period, .board = board) == FIELD_DONE);
        expect_hash(k, period, board);
        CHECK(as_kept());
        CHECK(CALL(.op = FIELD_OP_HEAR, .other = k, .period = period, .board = board) == FIELD_DONE && as_kept());
    }
    CHECK(CALL(.op = FIELD_OP_BACK) == FIELD_DONE);
    kept[FIELD_STATE_NEXT_AT] = (uint8_t)(period + 1);
    SENDS(.op = FIELD_OP_BACK, .period = period, .board = board);
    CHECK(as_kept());
}

static void check_down(void) {
    CHECK(CALL(.op = FIELD_OP_DOWN) == FIELD_DONE);
    kept[FIELD_STATE_DOWN_AT] = 1;
    sends_nothing();
    CHECK(as_kept());
    CHECK(CALL(.op = FIELD_OP_CLOSE) == FIELD_DOWN && as_kept());
    CHECK(CALL(.op = FIELD_OP_UP) == FIELD_DONE);
    kept[FIELD_STATE_DOWN_AT] = 0;
    sends_nothing();
    CHECK(as_kept());
}

/* Hashes of one board after the other, until no more can be heard; what was heard is no matter. */
static void check_full(void) {
    uint64_t board = 0;
    for (; heard < FIELD_HEARD_MOST; board++) {
        CHECK(CALL(.op = FIELD_OP_HEAR, .other = LIAR, .period = 1, .board = board) == FIELD_DONE);
        expect_hash(LIAR, 1, board);
        CHECK(as_kept());
    }
    CHECK(CALL(.op = FIELD_OP_HEAR, .other = LIAR, .period = 1, .board = board) == FIELD_FULL && as_kept());
    CHECK(CALL(.op = FIELD_OP_HEAR, .other = LIAR, .period = 1, .board = 1) == FIELD_DONE && as_kept());
}

void check_field_numbers(void) {
    begin();
    check_tables();
    put_table();
    check_lengths();
    check_sizes();
    begin();
    check_refused();
    check_close(1);
    check_open();
    check_close(2);
    check_clash();
    check_fetch();
    check_board(0, 0);
    check_board(1, 1 << 3 | 1 << 9);
    CHECK(CALL(.op = FIELD_OP_BACK) == FIELD_PERIOD && as_kept());
    check_down();
    check_full();
}
