//! What several tests of `explain` need.

use scribe::explain::{explain_text, Which};

/// Explains steps on a table: what is told of the table, and of each step. The steps
/// stand behind the table, one a line.
pub fn check_on((table, told_table): (&str, &str), steps: &[(&str, &str)]) {
    let lines: String = steps.iter().map(|(step, _)| format!("{step}\n")).collect();
    let explanation = explain_text(&format!("{table}{lines}"), Which::All).unwrap();
    let told: Vec<&str> = explanation.lines().collect();
    assert_eq!(told[0], told_table);
    let first = table.lines().count() + 1;
    for (k, (step, expected)) in steps.iter().enumerate() {
        assert_eq!(told[1 + 2 * k], format!("line {}, step {}: {step}", first + k, 1 + k));
        assert_eq!(told[2 + 2 * k], format!("    {expected}"), "{step}");
    }
    assert_eq!(told.len(), 2 + 2 * steps.len());
}
