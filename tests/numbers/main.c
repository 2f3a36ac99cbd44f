/* Holds every number of include/board.h to the engine, and every number of
 * include/field.h to the field peer, but their versions. It exits with 1 at the first
 * that does not fit. */
#include "made.h"

int main(void) {
    check_table_numbers();
    check_state_numbers();
    check_sheet_numbers();
    check_shrink_numbers();
    check_gain_numbers();
    check_field_numbers();
    printf("tests/numbers: every number of include/board.h is the engine's, of include/field.h the field peer's\n");
    return EXIT_SUCCESS;
}
