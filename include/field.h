/* The field peer: one honest peer's box, proved, for C99 and C++.
 *
 *   docs/FIELD.md    messages, steps, what is sent and the state, byte by byte;
 *                    the answers; what a box program does with them
 *   docs/TABLE.md    a table's bytes
 *   docs/PROMISES.md what is proved of these functions, and what is trusted
 *
 * Slices: a pointer and a length. Table, state, message and step may be any bytes
 *   of any length. No two of the slices of a call overlap.
 * Null: no pointer is ever null, also where its length is 0.
 * Alignment: none is asked.
 * Threads: there are no globals and no call keeps a pointer, so calls on
 *   distinct buffers may run in parallel; a buffer that is written belongs to
 *   one call at a time.
 * Linking: nothing is allocated, and of the C library only memcpy and memset
 *   are called. It can be used beside include/board.h in one program.
 * Refusals: a refused call alters nothing that is lent, neither state nor sent.
 * On disk: what a call has made of the state must be on disk before what it
 *   caused is sent, and an older copy is never gone on from. docs/FIELD.md says
 *   how.
 */
#ifndef FIELD_H
#define FIELD_H

#include <stddef.h>
#include <stdint.h>

#ifdef __cplusplus
extern "C" {
#endif

/* Rises when a function, a number or a layout of this file changes. */
#define FIELD_VERSION 1

/* The answers of the box, by the words of docs/ANSWERS.md, whose numbers they have.
 * A number that is not here is a refusal too. */
enum field_answer {
    FIELD_DONE = 0,     /* done, or it was done already */
    FIELD_HEADER = 1,   /* the table's header is cut short or out of range */
    FIELD_PAIRS = 2,    /* the table's pairs are not one behind the other */
    FIELD_ITEM = 3,     /* an item of the table is none */
    FIELD_TWIN = 4,     /* two items of the table are the same */
    FIELD_FORM = 5,     /* no message, or no step: length, op, or a field that is not used */
    FIELD_NAME = 6,     /* it names what the table does not have, or another peer */
    FIELD_ROLE = 7,     /* the table says that the peer is dishonest */
    FIELD_DOWN = 8,     /* the peer is down */
    FIELD_PERIOD = 9,   /* no period is open, the period is not closed or not yet open, or all are backed */
    FIELD_UNKNOWN = 10, /* sign: the item is not held in the open period */
    FIELD_CLASH = 11,   /* hand: an item is held that clashes */
    FIELD_SHORT = 12,   /* share, back: signers that weigh less than the threshold */
    FIELD_FULL = 13,    /* hear: a new hash, and FIELD_HEARD_MOST are there */
    FIELD_STATE = 14,   /* the state is none of this table, or sent has not FIELD_SENT_LENGTH bytes */
    FIELD_GIVEN = 17    /* share: a share was given for the item in an earlier period */
};

/* The ops, by the words of docs/STEPS.md, whose numbers they have; beside each the
 * fields that it uses. A message is what is brought to the peer, a step what the
 * peer does itself. */
enum field_op {
    FIELD_OP_HAND = 2,  /* message: peer, item */
    FIELD_OP_SIGN = 3,  /* step: peer, item */
    FIELD_OP_TAKE = 4,  /* message: peer, other (the signer), period, item */
    FIELD_OP_SHARE = 5, /* step: peer, item */
    FIELD_OP_CLOSE = 7, /* step: peer */
    FIELD_OP_FETCH = 8, /* message: peer, other, period, and the other's signer sets behind it */
    FIELD_OP_HASH = 9,  /* step: peer, period */
    FIELD_OP_HEAR = 10, /* message: peer, other (the hash's signer), period, board */
    FIELD_OP_BACK = 11, /* step: peer */
    FIELD_OP_DOWN = 17, /* step: peer */
    FIELD_OP_UP = 18    /* step: peer */
};

/* The most that there is room for. Peers count from 1; periods, items and heard
 * hashes from 0. */
#define FIELD_PEERS_MOST 16
#define FIELD_PERIODS_MOST 8
#define FIELD_ITEMS_MOST 64
#define FIELD_HEARD_MOST 256

/* A message, a step, and what is sent: at which byte each field stands. Fields that
 * the op does not use are 0. All have 13 bytes, but a fetch, behind which a signer
 * set stands for each of FIELD_ITEMS_MOST items. */
#define FIELD_MESSAGE_LENGTH 13
#define FIELD_FETCH_LENGTH 141
#define FIELD_STEP_LENGTH 13
#define FIELD_SENT_LENGTH 13
#define FIELD_MESSAGE_OP_AT 0
#define FIELD_MESSAGE_PEER_AT 1
#define FIELD_MESSAGE_OTHER_AT 2
#define FIELD_MESSAGE_PERIOD_AT 3
#define FIELD_MESSAGE_ITEM_AT 4
#define FIELD_MESSAGE_BOARD_AT 5 /* 8 bytes, high first: the bit worth 2^i is item i */
#define FIELD_MESSAGE_SETS_AT 13 /* the set of item i is FIELD_SET_LENGTH * i later */
#define FIELD_SET_LENGTH 2       /* high byte first: the bit worth 2^(k - 1) is signer k */

/* A state: at which byte each part begins, and how many bytes it has. A set is a
 * row of bits, in which bit a is bit a % 8 of byte a / 8; beside each set is the bit
 * of signer k, period p, item i. A state of zeros is fresh. */
#define FIELD_STATE_LENGTH 3717
#define FIELD_STATE_HELD_AT 0          /* 64 * p + i */
#define FIELD_STATE_HELD_LENGTH 64
#define FIELD_STATE_SHARED_AT 64       /* 64 * p + i */
#define FIELD_STATE_SHARED_LENGTH 64
#define FIELD_STATE_DATABASE_AT 128    /* (64 * p + i) * 16 + k - 1 */
#define FIELD_STATE_DATABASE_LENGTH 1024
#define FIELD_STATE_OPEN_AT 1152       /* p, its open period: 1 byte */
#define FIELD_STATE_NEXT_AT 1153       /* c, its next period to back: 1 byte */
#define FIELD_STATE_DOWN_AT 1154       /* 1 if it is down, or 0: 1 byte */
#define FIELD_STATE_COUNT_AT 1155      /* the heard hashes: 2 bytes, low first */
#define FIELD_STATE_HEARD_AT 1157      /* hash e begins FIELD_HASH_LENGTH * e later */
#define FIELD_STATE_HEARD_LENGTH 2560

/* A heard hash. They stand in the order in which they came. */
#define FIELD_HASH_LENGTH 10
#define FIELD_HASH_SIGNER_AT 0
#define FIELD_HASH_PERIOD_AT 1
#define FIELD_HASH_BOARD_AT 2 /* 8 bytes, low first: the bit worth 2^i is item i */

/* The length of a state, in bytes: FIELD_STATE_LENGTH. */
size_t field_state_length(void);

/* Brings the peer a message (hand, take, fetch, hear): 0, or the first refusal that
 * applies, of the table (1 to 4), of the state (14), of the message's form (5, also
 * for the ops of field_step), of the peer (6, 7), of the message (6, 8, 9; of a hand
 * also 11, of a hear 13). Nothing is sent. */
uint8_t field_message(const uint8_t *table, size_t table_length,
                      uint8_t peer,
                      uint8_t *state, size_t state_length,
                      const uint8_t *message, size_t message_length);

/* Takes a step of the peer (sign, share, close, hash, back, down, up): 0, or the
 * first refusal that applies, of the table (1 to 4), of the state or of sent's length
 * (14), of the step's form (5, also for the ops of field_message), of the peer (6,
 * 7), of the step (6, 8, 9; of a sign also 10, of a share 17 and then 12, of a back
 * 12).
 * With 0, sent has what the peer sends: op, peer, period, and of a sign and a share
 * the item, of a hash and a back the board; 13 bytes 0 where it sends nothing (close,
 * down, up). A repeat that is answered 0 sends again; a back is never a repeat. */
uint8_t field_step(const uint8_t *table, size_t table_length,
                   uint8_t peer,
                   uint8_t *state, size_t state_length,
                   const uint8_t *step, size_t step_length,
                   uint8_t *sent, size_t sent_length);

#ifdef __cplusplus
}
#endif

#endif
