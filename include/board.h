/* The peered ballot board: the proved engine, for C99 and C++.
 *
 *   docs/TABLE.md    a table's bytes
 *   docs/STEPS.md    a step's bytes, and what each step does
 *   docs/ANSWERS.md  the numbers that are answered, and when
 *   docs/STATE.md    a state's bytes
 *   docs/SHEET.md    a sheet's bytes
 *   docs/PROMISES.md what is proved of these functions, and what is trusted
 *
 * Slices: a pointer and a length. Table, state, step, steps, input and sheet may
 *   be any bytes of any length. What is written, be it state, out or sheet, or a
 *   number by its pointer, overlaps nothing else that is lent.
 * Null: no pointer is ever null, also where its length is 0.
 * Alignment: none is asked of bytes; a size_t stands as C puts it.
 * Threads: there are no globals and no call keeps a pointer, so calls on
 *   distinct buffers may run in parallel; a buffer that is written belongs to
 *   one call at a time.
 * Linking: nothing is allocated, and of the C library only memcpy and memset
 *   are called.
 * Refusals: a refused call alters nothing that is lent, no byte and no number;
 *   only board_rehearse and board_shrink then write their line `refused N` to
 *   out.
 */
#ifndef BOARD_H
#define BOARD_H

#include <stddef.h>
#include <stdint.h>

#ifdef __cplusplus
extern "C" {
#endif

/* Rises when a function, a number or a layout of this file changes.
 * 2: a report has the line `totals` before its last one.
 * 3: sheets: the answer 16, a layout and four functions.
 * 4: tables of season 2, whose audits name their place.
 * 5: the answer 17: a peer gives its share for an item in one period only.
 * 6: shrinking: the answer 18 and two functions.
 * 7: tables of season 3, whose peers have weights.
 * 8: clearing the bag: the step 19, which was refused with 5, and a function. */
#define BOARD_VERSION 8

/* The answers, by their words. A number that is not here is a refusal too. */
enum board_answer {
    BOARD_DONE = 0,
    BOARD_HEADER = 1,
    BOARD_PAIRS = 2,
    BOARD_ITEM = 3,
    BOARD_TWIN = 4,
    BOARD_FORM = 5,
    BOARD_NAME = 6,
    BOARD_ROLE = 7,
    BOARD_DOWN = 8,
    BOARD_PERIOD = 9,
    BOARD_UNKNOWN = 10,
    BOARD_CLASH = 11,
    BOARD_SHORT = 12,
    BOARD_FULL = 13,
    BOARD_STATE = 14,
    BOARD_INPUT = 15,
    BOARD_SHEET = 16,
    BOARD_GIVEN = 17,
    BOARD_CLEAN = 18
};

/* The steps, by their words; beside each the fields that it uses. Clear removes
 * from the bag the hashes of a period that every honest peer has backed. */
enum board_op {
    BOARD_OP_POST = 1,             /* item */
    BOARD_OP_HAND = 2,             /* peer, item */
    BOARD_OP_SIGN = 3,             /* peer, item */
    BOARD_OP_TAKE = 4,             /* peer, other, period, item */
    BOARD_OP_SHARE = 5,            /* peer, item */
    BOARD_OP_RECEIPT = 6,          /* period, item */
    BOARD_OP_CLOSE = 7,            /* peer */
    BOARD_OP_FETCH = 8,            /* peer, other, period */
    BOARD_OP_HASH = 9,             /* peer, period */
    BOARD_OP_HEAR = 10,            /* peer, entry */
    BOARD_OP_BACK = 11,            /* peer */
    BOARD_OP_PUBLISH = 12,         /* entry */
    BOARD_OP_FALSE_SIGNATURE = 13, /* peer, period, item */
    BOARD_OP_FALSE_SHARE = 14,     /* peer, period, item */
    BOARD_OP_FALSE_HASH = 15,      /* peer, period, board */
    BOARD_OP_FALSE_BACKING = 16,   /* peer, period, board */
    BOARD_OP_DOWN = 17,            /* peer */
    BOARD_OP_UP = 18,              /* peer */
    BOARD_OP_CLEAR = 19            /* period */
};

/* The most that a table can have, and the most entries of a bag. Peers count
 * from 1; periods, items and entries from 0. What a peer can weigh in season 3;
 * in every other table each peer weighs 1. */
#define BOARD_PEERS_MOST 16
#define BOARD_WEIGHT_LEAST 1
#define BOARD_WEIGHT_MOST 4
#define BOARD_PERIODS_MOST 8
#define BOARD_ITEMS_MOST 64
#define BOARD_ENTRIES_MOST 256

/* A step: at which byte each field stands. Fields that the op does not use
 * are 0. */
#define BOARD_STEP_LENGTH 13
#define BOARD_STEP_OP_AT 0
#define BOARD_STEP_PEER_AT 1
#define BOARD_STEP_OTHER_AT 2
#define BOARD_STEP_PERIOD_AT 3
#define BOARD_STEP_ITEM_AT 4
#define BOARD_STEP_ENTRY_AT 4 /* an entry number travels in the item's byte */
#define BOARD_STEP_BOARD_AT 5 /* 8 bytes, high first: the bit worth 2^i is item i */

/* A table: the header's fields, then a pair for each item, then the items.
 * Numbers of several bytes have their high byte first. A table of season 2 or 3
 * has the bytes 0 and 2, or 0 and 3, before its header; every place below is then
 * BOARD_SEASON_LENGTH more. No other table starts with 0.
 * In season 3 a weight for each peer, a byte each, stands between header and
 * pairs, which begin as many bytes later as there are peers. The threshold is
 * then compared with what the peers weigh; in every other table with their
 * number. */
#define BOARD_SEASON_AT 1
#define BOARD_SEASON_SECOND 2
#define BOARD_SEASON_THIRD 3
#define BOARD_SEASON_LENGTH 2
#define BOARD_TABLE_PEERS_AT 0
#define BOARD_TABLE_THRESHOLD_AT 1
#define BOARD_TABLE_HONEST_AT 2 /* 2 bytes: the bit worth 2^(k - 1) is peer k */
#define BOARD_TABLE_PERIODS_AT 4
#define BOARD_TABLE_ITEMS_AT 5
#define BOARD_TABLE_WEIGHTS_AT 6 /* season 3: the weight of peer k is k - 1 bytes later */
#define BOARD_TABLE_PAIRS_AT 6
#define BOARD_TABLE_MOST 2648   /* no table is longer */

/* A sheet, which is one board: its period, the number of its items, then a pair
 * for each item, then the items, all as in a table. */
#define BOARD_SHEET_PERIOD_AT 0
#define BOARD_SHEET_COUNT_AT 1
#define BOARD_SHEET_PAIRS_AT 2
#define BOARD_SHEET_MOST 2626   /* no sheet is longer */

/* A pair: where its item stands, from the start of the table or the sheet. */
#define BOARD_PAIR_LENGTH 4
#define BOARD_PAIR_OFFSET_AT 0 /* 2 bytes */
#define BOARD_PAIR_SIZE_AT 2   /* 2 bytes */

/* An item: 4 bytes of ballot number, the kind, and then of a vote its
 * preferences, of an audit of season 2 or 3 its place. */
#define BOARD_ITEM_BALLOT_AT 0
#define BOARD_ITEM_KIND_AT 4
#define BOARD_ITEM_PREFERENCES_AT 5
#define BOARD_ITEM_PLACE_AT 5
#define BOARD_PREFERENCES_MOST 32

enum board_item_kind {
    BOARD_ITEM_VOTE = 1,
    BOARD_ITEM_AUDIT = 2,
    BOARD_ITEM_CANCELLATION = 3
};

/* A state: at which byte each part begins. A set is a row of bits, in which bit
 * a is bit a % 8 of byte a / 8; beside each set is the bit of peer j or k,
 * period p, item i, entry e. */
#define BOARD_STATE_LENGTH 22906
#define BOARD_STATE_POSTED_AT 0       /* i */
#define BOARD_STATE_SIGNED_AT 8       /* (64 * p + i) * 16 + k - 1 */
#define BOARD_STATE_SHARED_AT 1032    /* (64 * p + i) * 16 + k - 1 */
#define BOARD_STATE_RECEIPTED_AT 2056 /* 64 * p + i */
#define BOARD_STATE_HELD_AT 2120      /* (8 * (j - 1) + p) * 64 + i */
#define BOARD_STATE_DATABASES_AT 3144 /* ((8 * (j - 1) + p) * 64 + i) * 16 + k - 1 */
#define BOARD_STATE_HEARD_AT 19528    /* 256 * (j - 1) + e */
#define BOARD_STATE_OPEN_AT 20040     /* p, the open period of peer j: byte j - 1 */
#define BOARD_STATE_NEXT_AT 20056     /* c, its next period to back: byte j - 1 */
#define BOARD_STATE_DOWN_AT 20072     /* 1 if peer j is down, or 0: byte j - 1 */
#define BOARD_STATE_COUNT_AT 20088    /* the bag's entries: 2 bytes, low first */
#define BOARD_STATE_BAG_AT 20090      /* entry e begins BOARD_ENTRY_LENGTH * e later */

/* An entry of the bag. The entries stand in the order in which they came; after a
 * clear those that stay are numbered afresh, and what peers heard with them. */
#define BOARD_ENTRY_LENGTH 11
#define BOARD_ENTRY_KIND_AT 0
#define BOARD_ENTRY_SIGNER_AT 1 /* 0 for a board */
#define BOARD_ENTRY_PERIOD_AT 2
#define BOARD_ENTRY_BOARD_AT 3  /* 8 bytes, low first: the bit worth 2^i is item i */

enum board_entry_kind {
    BOARD_ENTRY_HASH = 1,
    BOARD_ENTRY_BACKING = 2,
    BOARD_ENTRY_BOARD = 3
};

/* A rehearsal: the most bytes of input that are judged, and the lengths of
 * outputs that have room for every report, and for every list of the steps that
 * are left. */
#define BOARD_INPUT_MOST 65536
#define BOARD_REPORT_MOST 222000
#define BOARD_SHRINK_MOST 25205

/* Judges a table: 0, or 1 to 4. */
uint8_t board_check_table(const uint8_t *table, size_t table_length);

/* The length of a state buffer, in bytes: BOARD_STATE_LENGTH. */
size_t board_state_length(void);

/* Makes the state fresh, whatever its bytes were: 0, or 1 to 4 for the table,
 * or 14 for the state's length. */
uint8_t board_fresh(const uint8_t *table, size_t table_length,
                    uint8_t *state, size_t state_length);

/* Takes a step: 0, or the first refusal that applies, of the table (1 to 4), of
 * the state (14), of the step's form (5), of the step (6 to 13; of a share also
 * 17, judged before 12). */
uint8_t board_step(const uint8_t *table, size_t table_length,
                   uint8_t *state, size_t state_length,
                   const uint8_t *step, size_t step_length);

/* The length of an output that has room for every report, in bytes:
 * BOARD_REPORT_MOST. */
size_t board_report_most(void);

/* Rehearses the input, a table and then steps, from a fresh state: the report's
 * length in bytes, of which as many as fit are written to out.
 * The state then is the one that the steps led to, whatever its bytes were. An
 * input that is refused (15, or 1 to 4), or a state of another length than
 * BOARD_STATE_LENGTH (14, judged after these), has the report `refused N`, one
 * line, and leaves the state as it was. Any other report has a line for each
 * step, with what board_step answers to it, and ends with the lines
 * `totals A B C`, the different items posted, the receipts, and the items of all
 * boards added up, and `end`. */
size_t board_rehearse(const uint8_t *input, size_t input_length,
                      uint8_t *state, size_t state_length,
                      uint8_t *out, size_t out_length);

/* The length of an output that has room for every list of steps that are left, in
 * bytes: BOARD_SHRINK_MOST. */
size_t board_shrink_most(void);

/* Shrinks the rehearsal of the input, a table and then steps of which the last is
 * refused: the length in bytes of a text, of which as many as fit are written to
 * out. The text is the numbers of the steps that are left, counted from 1 in the
 * input's order, one a line.
 * Going from the last step but one to the first, each step is dropped without
 * which the last answer stays the same number, and again until a pass drops none;
 * each trial runs the steps that are still there, their bytes as they are, from a
 * fresh state. So the last step is left, and no single other one can be left out
 * without changing its answer.
 * An input that is refused (15, or 1 to 4), or that is clean (18: it has no steps,
 * or the last one answers 0), has the text `refused N`, one line. State and marks
 * are the function's own, some 30,000 bytes on the stack. */
size_t board_shrink(const uint8_t *input, size_t input_length,
                    uint8_t *out, size_t out_length);

/* Counts how many entries the steps, one behind the other as in a rehearsal but
 * without a table, can add to the bag: the steps 9, 12 and 15, the different ones
 * among the steps 16, and the steps 11, at most 8 for each value of the peer's
 * byte. Each is told by its op's byte alone, whatever its other bytes are; the
 * bytes behind the last whole step count for nothing.
 * The bag never gains more. So where the count is at most BOARD_ENTRIES_MOST no
 * step answers 13 if they are run from a fresh state.
 * The time grows with the number of steps; with more than 8,192 of them, each
 * further block of so many goes once through all steps before it. */
size_t board_gain(const uint8_t *steps, size_t steps_length);

/* The length of a buffer that has room for every sheet, in bytes:
 * BOARD_SHEET_MOST. */
size_t board_sheet_most(void);

/* Writes the sheet of a period's board to the start of the buffer `sheet`, and
 * its length to *length: 0, or the first refusal that applies, of the table (1 to
 * 4), of the state (14), of the period (6 if the table does not have it, 10 if it
 * has no board), of the buffer (16 if the sheet is longer). Where a state has two
 * boards of a period, the first in the bag is the period's.
 * The buffer's bytes after the sheet keep their values; a refused call leaves the
 * whole buffer and *length as they were. */
uint8_t board_write_sheet(const uint8_t *table, size_t table_length,
                          const uint8_t *state, size_t state_length,
                          uint8_t period,
                          uint8_t *sheet, size_t sheet_length,
                          size_t *length);

/* Judges a sheet, which is all of the bytes: 0, or 16. */
uint8_t board_check_sheet(const uint8_t *sheet, size_t sheet_length);

/* Gives where an item of a sheet stands in it, its offset and its length; items
 * count from 0, in the sheet's order: 0, or 16 for bytes that are no sheet, or 6
 * for an item number of the count or above. */
uint8_t board_sheet_item(const uint8_t *sheet, size_t sheet_length,
                         uint8_t item,
                         size_t *offset, size_t *length);

#ifdef __cplusplus
}
#endif

#endif
