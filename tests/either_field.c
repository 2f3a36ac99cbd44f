/* The header twice and first, as C99 and as C++, and beside the engine's: every
 * function that it declares is there, and refuses what is empty. */
#include "field.h"
#include "field.h"

#include "board.h"

int main(void) {
    uint8_t table = 0, state = 0, message = 0, step = 0, sent = 0;
    int good = field_state_length() == FIELD_STATE_LENGTH
            && field_message(&table, 0, 1, &state, 0, &message, 0) == FIELD_HEADER
            && field_step(&table, 0, 1, &state, 0, &step, 0, &sent, 0) == FIELD_HEADER
            && board_check_table(&table, 0) == BOARD_HEADER;
    return good ? 0 : 1;
}
