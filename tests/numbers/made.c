/* Tables, entries and steps, made by the names of include/board.h alone. */
#include "made.h"

uint8_t table[ROOM], state[ROOM], expected[ROOM];
size_t table_length;

void check(int holds, const char *fact, const char *file, int line) {
    if (!holds) {
        fprintf(stderr, "%s:%d: %s\n", file, line, fact);
        exit(EXIT_FAILURE);
    }
}

void put_number(uint8_t *at, size_t number, int bytes) {
    for (int i = bytes - 1; i >= 0; i--, number /= 256) {
        at[i] = (uint8_t)(number % 256);
    }
}

/* Where the header begins: behind what tells the season. And how many weights stand behind it. */
static uint8_t *header = table;
static int weights;

static void put_fields(int peers, int threshold, int honest, int periods, int items) {
    header[BOARD_TABLE_PEERS_AT] = (uint8_t)peers;
    header[BOARD_TABLE_THRESHOLD_AT] = (uint8_t)threshold;
    put_number(header + BOARD_TABLE_HONEST_AT, (size_t)honest, 2);
    header[BOARD_TABLE_PERIODS_AT] = (uint8_t)periods;
    header[BOARD_TABLE_ITEMS_AT] = (uint8_t)items;
    table_length = (size_t)(pair_of(items) - table);
}

void put_header(int peers, int threshold, int honest, int periods, int items) {
    memset(table, 0, sizeof table);
    header = table;
    weights = 0;
    put_fields(peers, threshold, honest, periods, items);
}

/* A table of a season that its first bytes tell. */
static void put_season(int season, int weighed) {
    memset(table, 0, sizeof table);
    table[BOARD_SEASON_AT] = (uint8_t)season;
    header = table + BOARD_SEASON_LENGTH;
    weights = weighed;
}

void put_new_header(int peers, int threshold, int honest, int periods, int items) {
    put_season(BOARD_SEASON_SECOND, 0);
    put_fields(peers, threshold, honest, periods, items);
}

void put_weighted_header(int peers, int weight, int threshold, int honest, int periods, int items) {
    put_season(BOARD_SEASON_THIRD, peers);
    put_fields(peers, threshold, honest, periods, items);
    for (int k = 1; k <= peers; k++) {
        put_weight(k, weight);
    }
}

void put_weight(int k, int weight) {
    header[BOARD_TABLE_WEIGHTS_AT + k - 1] = (uint8_t)weight;
}

uint8_t *pair_of(int k) {
    return header + BOARD_TABLE_PAIRS_AT + weights + BOARD_PAIR_LENGTH * k;
}

void put_item(int k, int ballot, int kind, int more) {
    uint8_t *item = table + table_length;
    size_t size = (size_t)(BOARD_ITEM_PREFERENCES_AT + more);
    put_number(pair_of(k) + BOARD_PAIR_OFFSET_AT, table_length, 2);
    put_number(pair_of(k) + BOARD_PAIR_SIZE_AT, size, 2);
    put_number(item + BOARD_ITEM_BALLOT_AT, (size_t)ballot, 4);
    item[BOARD_ITEM_KIND_AT] = (uint8_t)kind;
    for (int i = 0; i < more; i++) {
        item[BOARD_ITEM_PREFERENCES_AT + i] = (uint8_t)(200 + k);
    }
    table_length += size;
}

void put_table(void) {
    put_header(PEERS, THRESHOLD, (1 << PEERS) - 1 - (1 << (LIAR - 1)), PERIODS, ITEMS);
    for (int k = 0; k < ITEMS; k++) {
        if (k < 2 || k % 2 == 0) {
            put_item(k, k == 1 ? 1000 : 1000 + k, BOARD_ITEM_VOTE, 1 + k);
        } else {
            put_item(k, 1000 + k, k % 4 == 1 ? BOARD_ITEM_AUDIT : BOARD_ITEM_CANCELLATION, 0);
        }
    }
}

void put_entry(uint8_t *of, int number, int kind, int signer, int period, uint64_t board) {
    uint8_t *entry = of + BOARD_STATE_BAG_AT + BOARD_ENTRY_LENGTH * number;
    entry[BOARD_ENTRY_KIND_AT] = (uint8_t)kind;
    entry[BOARD_ENTRY_SIGNER_AT] = (uint8_t)signer;
    entry[BOARD_ENTRY_PERIOD_AT] = (uint8_t)period;
    for (int i = 0; i < 8; i++) {
        entry[BOARD_ENTRY_BOARD_AT + i] = (uint8_t)(board >> 8 * i);
    }
    of[BOARD_STATE_COUNT_AT] = (uint8_t)((number + 1) % 256);
    of[BOARD_STATE_COUNT_AT + 1] = (uint8_t)((number + 1) / 256);
}

void put_step(uint8_t *bytes, struct step s) {
    memset(bytes, 0, 2 * BOARD_STEP_LENGTH);
    bytes[BOARD_STEP_OP_AT] = (uint8_t)s.op;
    bytes[BOARD_STEP_PEER_AT] |= (uint8_t)s.peer;
    bytes[BOARD_STEP_OTHER_AT] |= (uint8_t)s.other;
    bytes[BOARD_STEP_PERIOD_AT] |= (uint8_t)s.period;
    bytes[BOARD_STEP_ITEM_AT] |= (uint8_t)s.item;
    bytes[BOARD_STEP_ENTRY_AT] |= (uint8_t)s.entry;
    for (int i = 0; i < 8; i++) {
        bytes[BOARD_STEP_BOARD_AT + i] |= (uint8_t)(s.board >> (56 - 8 * i));
    }
}

uint8_t answer_of(struct step s) {
    uint8_t bytes[2 * BOARD_STEP_LENGTH];
    put_step(bytes, s);
    return board_step(table, table_length, state, BOARD_STATE_LENGTH, bytes, BOARD_STEP_LENGTH);
}

int as_expected(void) {
    return memcmp(state, expected, ROOM) == 0;
}

/* A fresh state, in a buffer with other bytes in it and behind it. */
void start(void) {
    memset(state, 7, ROOM);
    CHECK(board_fresh(table, table_length, state, BOARD_STATE_LENGTH) == BOARD_DONE);
    memset(expected, 7, ROOM);
    memset(expected, 0, BOARD_STATE_LENGTH);
    CHECK(as_expected());
}
