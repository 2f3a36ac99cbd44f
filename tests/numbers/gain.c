/* Holds the count of what steps can add to the bag to the words of
 * include/board.h: files of steps that are made here, beside the count that those
 * words give. */
#include "made.h"

static uint8_t file[ROOM];
static size_t file_length;

/* Another step, of these fields. */
#define ADD(...) add((struct step){__VA_ARGS__})
static void add(struct step s) {
    put_step(file + file_length, s);
    file_length += BOARD_STEP_LENGTH;
}

static size_t gain(void) {
    return board_gain(file, file_length);
}

/* Each op by itself: five add something; with every other byte 255, which is no form, as well. */
static void check_ops(void) {
    for (int op = 0; op < 256; op++) {
        int enters = op == BOARD_OP_HASH || op == BOARD_OP_BACK || op == BOARD_OP_PUBLISH || op == BOARD_OP_FALSE_HASH
                  || op == BOARD_OP_FALSE_BACKING;
        file_length = 0;
        CHECK(gain() == 0);
        ADD(.op = op);
        CHECK(gain() == (enters ? 1 : 0));
        memset(file + BOARD_STEP_OP_AT + 1, 255, BOARD_STEP_LENGTH - 1);
        CHECK(gain() == (enters ? 1 : 0));
    }
}

/* Hashes, publishes and false hashes count as often as they come, also the same one again; every length of the file. */
static void check_again(void) {
    file_length = 0;
    for (int i = 0; i < 3; i++) {
        ADD(.op = BOARD_OP_HASH, .peer = 1, .period = 0);
        ADD(.op = BOARD_OP_CLEAR, .period = 0);
        ADD(.op = BOARD_OP_PUBLISH, .entry = 0);
        ADD(.op = BOARD_OP_FALSE_HASH, .peer = 2, .period = 1, .board = 5);
    }
    CHECK(gain() == 9);
    static const size_t counts[] = {0, 1, 1, 2, 3, 4, 4, 5, 6, 7, 7, 8, 9};
    size_t whole = file_length;
    for (file_length = 0; file_length <= whole; file_length++) {
        CHECK(gain() == counts[file_length / BOARD_STEP_LENGTH]);
    }
}

/* The first eight backs of each value of the peer's byte, whatever stands in the other bytes. */
static void check_backs(void) {
    file_length = 0;
    for (size_t i = 1; i <= 12; i++) {
        for (size_t peer = 0; peer < 256; peer++) {
            ADD(.op = BOARD_OP_BACK, .peer = (int)peer, .item = (int)i, .board = i);
            size_t least = i < BOARD_PERIODS_MOST ? i : BOARD_PERIODS_MOST;
            size_t before = i - 1 < BOARD_PERIODS_MOST ? i - 1 : BOARD_PERIODS_MOST;
            CHECK(gain() == least * (peer + 1) + before * (255 - peer));
        }
    }
    CHECK(gain() == 2048);
}

/* False backings that differ in one byte, be it whichever, are different; none that came before counts again. */
static void check_false_backings(void) {
    file_length = 0;
    ADD(.op = BOARD_OP_FALSE_BACKING);
    for (size_t at = 1; at < BOARD_STEP_LENGTH; at++) {
        for (int value = 1; value < 256; value += 127) {
            ADD(.op = BOARD_OP_FALSE_BACKING);
            file[file_length - BOARD_STEP_LENGTH + at] = (uint8_t)value;
        }
    }
    size_t once = file_length;
    CHECK(gain() == 37); /* 1, and three values of twelve bytes */
    for (size_t from = 0; from < once; from += BOARD_STEP_LENGTH) {
        memcpy(file + file_length, file + from, BOARD_STEP_LENGTH);
        file_length += BOARD_STEP_LENGTH;
        CHECK(gain() == 37);
    }
    ADD(.op = BOARD_OP_FALSE_HASH); /* the same bytes under another op */
    CHECK(gain() == 38);
}

/* A file with the count 256 fills the bag from a fresh state, and none of its steps answers 13; with one more the last
 * does. */
static void check_room(void) {
    start();
    file_length = 0;
    for (int item = 0; item < ITEMS; item++) {
        ADD(.op = BOARD_OP_POST, .item = item);
    }
    for (uint64_t board = 0; board <= BOARD_ENTRIES_MOST; board++) {
        ADD(.op = BOARD_OP_FALSE_HASH, .peer = LIAR, .period = 1, .board = board);
    }
    size_t last = file_length - BOARD_STEP_LENGTH;
    CHECK(board_gain(file, last) == BOARD_ENTRIES_MOST);
    CHECK(gain() == BOARD_ENTRIES_MOST + 1);
    for (size_t from = 0; from <= last; from += BOARD_STEP_LENGTH) {
        uint8_t answer =
            board_step(table, table_length, state, BOARD_STATE_LENGTH, file + from, BOARD_STEP_LENGTH);
        CHECK(answer == (from < last ? BOARD_DONE : BOARD_FULL));
    }
}

void check_gain_numbers(void) {
    put_table();
    check_ops();
    check_again();
    check_backs();
    check_false_backings();
    check_room();
}
