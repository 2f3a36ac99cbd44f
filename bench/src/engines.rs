//! The engines by name: the two that are compared, and one that does nothing.

use engine::{Engine, PLAIN, PROVED};

/// Its counts are those of the driver alone.
const NONE: Engine = Engine {
    name: "none",
    check_table: |_| 0,
    fresh: |_, _| 0,
    step: |_, _, _| 0,
    rehearse: |_, _, _| 0,
    shrink: |_, _| 0,
    gain: |_| 0,
    write_sheet: |_, _, _, _, _| 0,
    check_sheet: |_| 0,
    sheet_item: |_, _, _, _| 0,
};

pub fn by_name(name: &str) -> Option<Engine> {
    [PLAIN, PROVED, NONE].into_iter().find(|engine| engine.name == name)
}
