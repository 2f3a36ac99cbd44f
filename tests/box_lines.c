/* A field peer by lines of hexadecimal digits, as docs/FIELD.md has them: the table
 * first, then a call on each line; a line that begins with a blank goes on with the
 * one before it. It prints the answer to each call and, of a step that is taken, what
 * is sent; then each byte of the state that is not 0, as `byte 64 is 1`. The peer is
 * the one that the calls name. It exits with 1 if a line is no such digits, or if a
 * refused call altered something. */
#include "field.h"

#include <stdio.h>
#include <stdlib.h>
#include <string.h>

enum { ROOM = 4096, LINE = 512, GUARD = 238 };

static uint8_t table[ROOM], call[ROOM], state[FIELD_STATE_LENGTH];
static size_t table_length, call_length;

/* Adds the bytes of a line; whether it has nothing else. */
static int is_added(const char *line, uint8_t *bytes, size_t *length) {
    unsigned byte;
    int read;
    while (*length < ROOM && sscanf(line, " %2X%n", &byte, &read) == 1) {
        bytes[(*length)++] = (uint8_t)byte;
        line += read;
    }
    return line[strspn(line, " \n")] == 0;
}

static int is_message(uint8_t op) {
    return op == FIELD_OP_HAND || op == FIELD_OP_TAKE || op == FIELD_OP_FETCH || op == FIELD_OP_HEAR;
}

/* Calls, prints the answer and what is sent; whether a refused call altered nothing. */
static int is_called(void) {
    uint8_t sent[FIELD_SENT_LENGTH], none[FIELD_SENT_LENGTH], before[FIELD_STATE_LENGTH];
    uint8_t op = call[FIELD_MESSAGE_OP_AT], peer = call[FIELD_MESSAGE_PEER_AT];
    memset(sent, GUARD, sizeof sent);
    memset(none, GUARD, sizeof none);
    memcpy(before, state, sizeof state);
    uint8_t answer = is_message(op)
        ? field_message(table, table_length, peer, state, FIELD_STATE_LENGTH, call, call_length)
        : field_step(table, table_length, peer, state, FIELD_STATE_LENGTH, call, call_length, sent, FIELD_SENT_LENGTH);
    printf("%d", answer);
    for (int i = 0; answer == FIELD_DONE && !is_message(op) && i < FIELD_SENT_LENGTH; i++) {
        printf(" %02X", sent[i]);
    }
    printf("\n");
    return answer == FIELD_DONE
        || (memcmp(before, state, sizeof state) == 0 && memcmp(sent, none, sizeof sent) == 0);
}

/* Calls with what was read last, if that is not the table. */
static int is_ended(void) {
    int good = call_length == 0 || is_called();
    call_length = 0;
    return good;
}

int main(void) {
    char line[LINE];
    int good = 1, lines = 0;
    while (good && fgets(line, sizeof line, stdin) != NULL) {
        if (line[0] != ' ') {
            good = is_ended();
            lines++;
        }
        good = good && (lines <= 1 ? is_added(line, table, &table_length) : is_added(line, call, &call_length));
    }
    good = good && is_ended();
    for (int i = 0; good && i < FIELD_STATE_LENGTH; i++) {
        if (state[i] != 0) {
            printf("byte %d is %d\n", i, state[i]);
        }
    }
    return good ? EXIT_SUCCESS : EXIT_FAILURE;
}
