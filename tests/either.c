/* The header twice and alone, as C99 and as C++: every function that it declares is there, and refuses what is empty,
 * or counts nothing there. */
#include "board.h"
#include "board.h"

int main(void) {
    uint8_t table = 0, state = 0, step = 0, out = 0, sheet = 0;
    size_t offset = 0, length = 0;
    int good = board_check_table(&table, 0) == BOARD_HEADER
            && board_state_length() == BOARD_STATE_LENGTH
            && board_fresh(&table, 0, &state, 0) == BOARD_HEADER
            && board_step(&table, 0, &state, 0, &step, 0) == BOARD_HEADER
            && board_report_most() == BOARD_REPORT_MOST
            && board_rehearse(&table, 0, &state, 0, &out, 0) > 0
            && board_shrink_most() == BOARD_SHRINK_MOST
            && board_shrink(&table, 0, &out, 0) > 0
            && board_gain(&step, 0) == 0
            && board_sheet_most() == BOARD_SHEET_MOST
            && board_write_sheet(&table, 0, &state, 0, 0, &sheet, 0, &length) == BOARD_HEADER
            && board_check_sheet(&sheet, 0) == BOARD_SHEET
            && board_sheet_item(&sheet, 0, 0, &offset, &length) == BOARD_SHEET;
    return good ? 0 : 1;
}
