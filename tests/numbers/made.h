/* What the parts of this test share: tables, entries and steps, made by the names
 * of include/board.h alone, the state, and the state that is expected. */
#ifndef MADE_H
#define MADE_H

#include "board.h"

#include <stdio.h>
#include <stdlib.h>
#include <string.h>

/* Ends the program with 1 if the fact does not hold. */
#define CHECK(fact) check((fact) != 0, #fact, __FILE__, __LINE__)
void check(int holds, const char *fact, const char *file, int line);

/* The table of most checks: nine peers, of which 4 is dishonest; three periods;
 * an even item is a vote on a ballot of its own, item 1 a vote that clashes with
 * item 0, each other odd one an audit or a cancellation. */
enum { PEERS = 9, THRESHOLD = 7, LIAR = 4, HONEST = 8, PERIODS = 3, ITEMS = 12, ROOM = 65536 };

extern uint8_t table[ROOM], state[ROOM], expected[ROOM];
extern size_t table_length;

void put_table(void);

/* A number of so many bytes, high byte first. */
void put_number(uint8_t *at, size_t number, int bytes);

/* A header without items behind it, of the old season, of the new, or of the one
 * with weights, where all are the same; the weight of peer k; and item k at the
 * table's end, with so many bytes behind its kind. */
void put_header(int peers, int threshold, int honest, int periods, int items);
void put_new_header(int peers, int threshold, int honest, int periods, int items);
void put_weighted_header(int peers, int weight, int threshold, int honest, int periods, int items);
void put_weight(int k, int weight);
void put_item(int k, int ballot, int kind, int more);

/* The pair of item k. */
uint8_t *pair_of(int k);

/* An entry of these fields, so numbered and the last, in the bag of a state. */
void put_entry(uint8_t *of, int number, int kind, int signer, int period, uint64_t board);

/* Makes the state fresh, and expects it so. */
void start(void);

/* Whether the state, and what stands behind it, is as expected. */
int as_expected(void);

struct step {
    int op, peer, other, period, item, entry;
    uint64_t board;
};

/* A step of these fields, and as many bytes 0 behind it, where a field would stand
 * if its place were altered. */
void put_step(uint8_t *bytes, struct step step);

/* The answer to a step of these fields, by their names; the others are 0. */
#define STEP(...) answer_of((struct step){__VA_ARGS__})
uint8_t answer_of(struct step step);

/* The parts. */
void check_table_numbers(void);
void check_state_numbers(void);
void check_sheet_numbers(void);
void check_shrink_numbers(void);
void check_gain_numbers(void);
void check_field_numbers(void);

#endif
