/* Boxes beside the engine: reads a rehearsal from standard input and runs it by
 * board_step; each honest peer also has a box, which is fed what the rehearsal
 * passes to that peer, and nothing else. After each step the box must have answered
 * as the engine, what it sent must be outside, and its state must say what the
 * engine's says of the peer. A box is left alone once a step of its peer is answered
 * 13 by either: the bag's room is not the box's.
 *
 * It prints a line for each peer, as `peer 1: messages 9, steps 7, refused 0, sent
 * 6`. At the first difference it says so and exits with 1; also if the input is no
 * rehearsal or cannot be read, or if memory is out.
 *
 *     tools/build board field
 *     cc -Iinclude examples/box.c target/staticlib/libfield.a target/staticlib/libboard.a -o box
 *     ./box < cases/good-period.bin
 */
#include "board.h"
#include "field.h"

#include <stdio.h>
#include <stdlib.h>
#include <string.h>

enum { GUARD = 238 }; /* stands in `sent` before a step: a refused one leaves it */

/* One peer's box, and what it was given and gave. */
struct box {
    uint8_t state[FIELD_STATE_LENGTH], sent[FIELD_SENT_LENGTH];
    unsigned messages, steps, refused, sendings;
    size_t full; /* the step that was answered 13, or 0 */
};

/* The engine, before the step at hand and after it, and the boxes: that of peer j is number j - 1. */
struct hall {
    const uint8_t *table, *header;
    size_t table_length;
    uint8_t before[BOARD_STATE_LENGTH], after[BOARD_STATE_LENGTH];
    struct box boxes[BOARD_PEERS_MOST];
};

static int is_message(unsigned op) {
    return op == FIELD_OP_HAND || op == FIELD_OP_TAKE || op == FIELD_OP_FETCH || op == FIELD_OP_HEAR;
}

static int is_sending(unsigned op) {
    return op == FIELD_OP_SIGN || op == FIELD_OP_SHARE || op == FIELD_OP_HASH || op == FIELD_OP_BACK;
}

static int has_bit(const uint8_t *set, size_t bit) {
    return set[bit / 8] >> bit % 8 & 1;
}

/* Whether peer k, period p and item i are among the signatures, or among the shares. */
static int has_mark(const uint8_t *set, unsigned k, unsigned p, unsigned i) {
    return k >= 1 && k <= BOARD_PEERS_MOST && p < BOARD_PERIODS_MOST && i < BOARD_ITEMS_MOST
        && has_bit(set, (BOARD_ITEMS_MOST * p + i) * BOARD_PEERS_MOST + k - 1);
}

static int is_honest(const struct hall *hall, unsigned j) {
    const uint8_t *set = hall->header + BOARD_TABLE_HONEST_AT; /* high byte first */
    return j >= 1 && j <= BOARD_PEERS_MOST && (set[0] * 256 + set[1]) >> (j - 1) & 1;
}

static unsigned entry_count(const uint8_t *state) {
    return state[BOARD_STATE_COUNT_AT] + 256u * state[BOARD_STATE_COUNT_AT + 1];
}

static const uint8_t *entry_at(const uint8_t *state, size_t number) {
    return state + BOARD_STATE_BAG_AT + BOARD_ENTRY_LENGTH * number;
}

/* Peer j's signer sets of a period, in the engine's state. */
static const uint8_t *sets_of(const uint8_t *state, size_t j, size_t period) {
    size_t row = BOARD_ITEMS_MOST * FIELD_SET_LENGTH;
    return state + BOARD_STATE_DATABASES_AT + (BOARD_PERIODS_MOST * (j - 1) + period) * row;
}

/* A fetch carries the other's signer sets, where the other is honest and up and has closed the period. */
static size_t passed_fetch(const struct hall *hall, uint8_t *message) {
    unsigned other = message[FIELD_MESSAGE_OTHER_AT], period = message[FIELD_MESSAGE_PERIOD_AT];
    if (!is_honest(hall, other) || hall->before[BOARD_STATE_DOWN_AT + other - 1]
        || period >= hall->before[BOARD_STATE_OPEN_AT + other - 1]) {
        return 0;
    }
    const uint8_t *sets = sets_of(hall->before, other, period);
    for (size_t i = 0; i < BOARD_ITEMS_MOST; i++) { /* low byte first there, high byte first here */
        uint8_t *set = message + FIELD_MESSAGE_SETS_AT + FIELD_SET_LENGTH * i;
        set[0] = sets[FIELD_SET_LENGTH * i + 1];
        set[1] = sets[FIELD_SET_LENGTH * i];
    }
    return FIELD_FETCH_LENGTH;
}

/* A hear carries the hash that its entry number names, if that is one. */
static size_t passed_hear(const struct hall *hall, uint8_t *message) {
    unsigned number = message[BOARD_STEP_ENTRY_AT];
    const uint8_t *entry = entry_at(hall->before, number);
    if (number >= entry_count(hall->before) || entry[BOARD_ENTRY_KIND_AT] != BOARD_ENTRY_HASH) {
        return 0;
    }
    message[BOARD_STEP_ENTRY_AT] = 0;
    message[FIELD_MESSAGE_OTHER_AT] = entry[BOARD_ENTRY_SIGNER_AT];
    message[FIELD_MESSAGE_PERIOD_AT] = entry[BOARD_ENTRY_PERIOD_AT];
    for (int i = 0; i < 8; i++) {
        message[FIELD_MESSAGE_BOARD_AT + i] = entry[BOARD_ENTRY_BOARD_AT + 7 - i];
    }
    return FIELD_MESSAGE_LENGTH;
}

/* What a step that is formed passes to its peer, by the state before it: written to `message`, whose length is the
 * result, or 0 if none passes. */
static size_t passed(const struct hall *hall, const uint8_t *step, uint8_t *message) {
    unsigned op = step[BOARD_STEP_OP_AT], item = step[BOARD_STEP_ITEM_AT];
    int passes = is_sending(op) || op == BOARD_OP_CLOSE || op == BOARD_OP_DOWN || op == BOARD_OP_UP;
    memcpy(message, step, BOARD_STEP_LENGTH);
    if (op == BOARD_OP_FETCH) {
        return passed_fetch(hall, message);
    } else if (op == BOARD_OP_HEAR) {
        return passed_hear(hall, message);
    } else if (op == BOARD_OP_HAND) {
        passes = item < BOARD_ITEMS_MOST && has_bit(hall->before + BOARD_STATE_POSTED_AT, item);
    } else if (op == BOARD_OP_TAKE) {
        passes = has_mark(hall->before + BOARD_STATE_SIGNED_AT, step[BOARD_STEP_OTHER_AT], step[BOARD_STEP_PERIOD_AT],
                          item);
    }
    return passes ? FIELD_MESSAGE_LENGTH : 0; /* what is false, or nobody's, passes to nobody */
}

/* Feeds the box of peer j; its answer. */
static uint8_t feed(const struct hall *hall, struct box *box, unsigned j, const uint8_t *message, size_t length) {
    memset(box->sent, GUARD, sizeof box->sent);
    if (is_message(message[FIELD_MESSAGE_OP_AT])) {
        box->messages++;
        return field_message(hall->table, hall->table_length, (uint8_t)j, box->state, FIELD_STATE_LENGTH,
                             message, length);
    }
    box->steps++;
    return field_step(hall->table, hall->table_length, (uint8_t)j, box->state, FIELD_STATE_LENGTH,
                      message, length, box->sent, FIELD_SENT_LENGTH);
}

/* Whether the entry that was sent is in the bag; if the bag has grown, as its last entry. */
static int is_entered(const struct hall *hall, const uint8_t *sent) {
    unsigned count = entry_count(hall->after), grown = count > entry_count(hall->before);
    uint8_t entry[BOARD_ENTRY_LENGTH];
    entry[BOARD_ENTRY_KIND_AT] = sent[FIELD_MESSAGE_OP_AT] == FIELD_OP_HASH ? BOARD_ENTRY_HASH : BOARD_ENTRY_BACKING;
    entry[BOARD_ENTRY_SIGNER_AT] = sent[FIELD_MESSAGE_PEER_AT];
    entry[BOARD_ENTRY_PERIOD_AT] = sent[FIELD_MESSAGE_PERIOD_AT];
    for (int i = 0; i < 8; i++) { /* high byte first there, low byte first here */
        entry[BOARD_ENTRY_BOARD_AT + i] = sent[FIELD_MESSAGE_BOARD_AT + 7 - i];
    }
    for (unsigned number = grown ? count - 1 : 0; number < count; number++) {
        if (memcmp(entry_at(hall->after, number), entry, sizeof entry) == 0) {
            return 1;
        }
    }
    return 0;
}

/* Whether what the box sent with a step, which both have taken, is what its peer sent. */
static int is_delivered(const struct hall *hall, const uint8_t *step, const uint8_t *sent) {
    uint8_t expected[FIELD_SENT_LENGTH] = {0};
    unsigned j = step[BOARD_STEP_PEER_AT], op = step[BOARD_STEP_OP_AT], item = step[BOARD_STEP_ITEM_AT];
    unsigned open = hall->before[BOARD_STATE_OPEN_AT + j - 1];
    int outside = 1;
    if (is_sending(op)) {
        memcpy(expected, step, BOARD_STEP_LENGTH); /* op, peer, item; of a hash the period */
    }
    if (op == FIELD_OP_SIGN || op == FIELD_OP_SHARE) {
        size_t set_at = op == FIELD_OP_SIGN ? BOARD_STATE_SIGNED_AT : BOARD_STATE_SHARED_AT;
        expected[FIELD_MESSAGE_PERIOD_AT] = (uint8_t)open;
        outside = has_mark(hall->after + set_at, j, open, item);
    } else if (op == FIELD_OP_HASH || op == FIELD_OP_BACK) {
        if (op == FIELD_OP_BACK) {
            expected[FIELD_MESSAGE_PERIOD_AT] = hall->before[BOARD_STATE_NEXT_AT + j - 1];
        }
        memcpy(expected + FIELD_MESSAGE_BOARD_AT, sent + FIELD_MESSAGE_BOARD_AT, 8); /* the bag has it */
        outside = is_entered(hall, sent);
    }
    return outside && memcmp(sent, expected, sizeof expected) == 0;
}

/* Whether every byte of it is as it was. */
static int is_untouched(const uint8_t *sent) {
    return sent[0] == GUARD && memcmp(sent, sent + 1, FIELD_SENT_LENGTH - 1) == 0;
}

/* What the engine says of peer j, as a box has it, up to the heard hashes. */
static void put_part(const uint8_t *state, unsigned j, uint8_t *part) {
    memset(part, 0, FIELD_STATE_LENGTH);
    memcpy(part + FIELD_STATE_HELD_AT, state + BOARD_STATE_HELD_AT + FIELD_STATE_HELD_LENGTH * (j - 1),
           FIELD_STATE_HELD_LENGTH);
    memcpy(part + FIELD_STATE_DATABASE_AT, sets_of(state, j, 0), FIELD_STATE_DATABASE_LENGTH);
    for (unsigned cell = 0; cell < BOARD_PERIODS_MOST * BOARD_ITEMS_MOST; cell++) {
        int shared = has_mark(state + BOARD_STATE_SHARED_AT, j, cell / BOARD_ITEMS_MOST, cell % BOARD_ITEMS_MOST);
        part[FIELD_STATE_SHARED_AT + cell / 8] |= (uint8_t)(shared << cell % 8);
    }
    part[FIELD_STATE_OPEN_AT] = state[BOARD_STATE_OPEN_AT + j - 1];
    part[FIELD_STATE_NEXT_AT] = state[BOARD_STATE_NEXT_AT + j - 1];
    part[FIELD_STATE_DOWN_AT] = state[BOARD_STATE_DOWN_AT + j - 1];
}

/* Whether peer j has heard a hash in the engine; signer, period and board stand in a box as in an entry. */
static int has_heard(const uint8_t *state, unsigned j, const uint8_t *hash) {
    int heard = 0;
    for (unsigned e = 0; e < entry_count(state); e++) {
        heard |= has_bit(state + BOARD_STATE_HEARD_AT, BOARD_ENTRIES_MOST * (j - 1) + e)
              && memcmp(entry_at(state, e) + BOARD_ENTRY_SIGNER_AT, hash, FIELD_HASH_LENGTH) == 0;
    }
    return heard;
}

/* Whether the box has every hash that peer j has heard in the engine, and of the periods from c on no others. Those of
 * older periods may have been cleared in the engine; nobody tells the box. */
static int is_same_heard(const uint8_t *state, unsigned j, const uint8_t *box) {
    unsigned count = box[FIELD_STATE_COUNT_AT] + 256u * box[FIELD_STATE_COUNT_AT + 1], heard = 0, both = 0;
    int good = 1;
    for (unsigned e = 0; e < entry_count(state); e++) {
        heard += (unsigned)has_bit(state + BOARD_STATE_HEARD_AT, BOARD_ENTRIES_MOST * (j - 1) + e);
    }
    for (unsigned e = 0; e < count; e++) {
        const uint8_t *hash = box + FIELD_STATE_HEARD_AT + FIELD_HASH_LENGTH * e;
        int there = has_heard(state, j, hash);
        both += (unsigned)there;
        good = good && (there || hash[FIELD_HASH_PERIOD_AT] < box[FIELD_STATE_NEXT_AT]);
    }
    return good && both == heard;
}

/* Whether the box of peer j says what the engine says of the peer. */
static int is_same_part(const struct hall *hall, unsigned j) {
    uint8_t part[FIELD_STATE_LENGTH];
    const uint8_t *box = hall->boxes[j - 1].state;
    put_part(hall->after, j, part);
    return memcmp(part, box, FIELD_STATE_COUNT_AT) == 0 && is_same_heard(hall->after, j, box);
}

/* Carries a step that the engine has answered to its peer's box; whether both agree. */
static int is_carried(struct hall *hall, size_t number, const uint8_t *step, uint8_t answer) {
    uint8_t message[FIELD_FETCH_LENGTH];
    unsigned j = step[BOARD_STEP_PEER_AT];
    struct box *box = &hall->boxes[j - 1];
    size_t length = passed(hall, step, message);
    if (length == 0 || box->full) {
        return 1;
    }
    uint8_t own = feed(hall, box, j, message, length);
    box->refused += own != FIELD_DONE;
    if (answer == BOARD_FULL || own == FIELD_FULL) {
        box->full = number;
        return 1;
    }
    int sending = own == FIELD_DONE && !is_message(step[BOARD_STEP_OP_AT]);
    int good = own == answer && (sending ? is_delivered(hall, step, box->sent) : is_untouched(box->sent))
            && is_same_part(hall, j);
    box->sendings += good && sending && is_sending(step[BOARD_STEP_OP_AT]);
    if (!good) {
        printf("step %zu: the engine answers %d, the box of peer %u %d%s\n", number, answer, j, own,
               own == answer ? ", and what it sends or keeps differs" : "");
    }
    return good;
}

/* Runs the steps, one by one; whether engine and boxes agree. A step that is not formed passes to nobody. */
static int is_run(struct hall *hall, const uint8_t *steps, size_t length) {
    int good = 1;
    for (size_t at = 0, number = 1; good && at < length; at += BOARD_STEP_LENGTH, number++) {
        size_t size = length - at < BOARD_STEP_LENGTH ? length - at : BOARD_STEP_LENGTH;
        memcpy(hall->before, hall->after, BOARD_STATE_LENGTH);
        uint8_t answer = board_step(hall->table, hall->table_length, hall->after, BOARD_STATE_LENGTH, steps + at, size);
        if (answer != BOARD_FORM && is_honest(hall, steps[at + BOARD_STEP_PEER_AT])) {
            good = is_carried(hall, number, steps + at, answer);
        }
    }
    return good;
}

/* Prints a line for each peer; whether each box ends as the engine does. */
static int print_peers(const struct hall *hall) {
    int good = 1;
    for (unsigned j = 1; good && j <= hall->header[BOARD_TABLE_PEERS_AT]; j++) {
        const struct box *box = &hall->boxes[j - 1];
        if (!is_honest(hall, j)) {
            printf("peer %u: dishonest, no box\n", j);
            continue;
        }
        good = box->full || is_same_part(hall, j);
        printf("peer %u: messages %u, steps %u, refused %u, sent %u", j, box->messages, box->steps, box->refused,
               box->sendings);
        if (box->full) {
            printf(", full at step %zu", box->full);
        }
        printf("%s\n", good ? "" : ": its box ends with another state");
    }
    return good;
}

/* The length of the table at the input's start, which is the only one at which it is taken; or 0. */
static size_t table_end(const uint8_t *input, size_t length) {
    for (size_t end = BOARD_TABLE_PAIRS_AT; end <= length && end <= BOARD_TABLE_MOST; end++) {
        if (board_check_table(input, end) == BOARD_DONE) {
            return end;
        }
    }
    return 0;
}

int main(void) {
    uint8_t *input = malloc(BOARD_INPUT_MOST + 1);
    struct hall *hall = calloc(1, sizeof *hall); /* zeros: the engine and all boxes are fresh */
    size_t length = input == NULL ? 0 : fread(input, 1, BOARD_INPUT_MOST + 1, stdin);
    size_t end = input == NULL || ferror(stdin) || length > BOARD_INPUT_MOST ? 0 : table_end(input, length);
    int good = hall != NULL && end > 0;
    if (good) {
        hall->table = input;
        hall->table_length = end;
        hall->header = input + (input[0] == 0 ? BOARD_SEASON_LENGTH : 0);
        good = is_run(hall, input + end, length - end) && print_peers(hall);
    } else {
        printf("no rehearsal\n");
    }
    free(hall);
    free(input);
    return good ? EXIT_SUCCESS : EXIT_FAILURE;
}
