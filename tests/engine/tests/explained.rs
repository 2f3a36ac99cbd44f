//! Every random rehearsal of the run, explained: the answers told are those of
//! the proved program's report, and each of them has its reason.

use engine::layout::LENGTH;
use engine::{board_rehearse, board_report_most};
use inputs::answers::Answers;
use inputs::kinds::{rehearsal, round};
use inputs::random::run_seed;
use inputs::rehearsed::Rehearsed;
use scribe::explain::{explain_bytes, is_text, Which};
use scribe::reasons::NO_REASON;
use std::collections::BTreeMap;

/// As many rounds as `rehearsals` has.
const ROUNDS: usize = 10;

/// The proved program's report.
fn report(input: &[u8]) -> String {
    let (mut state, mut out) = (vec![0; LENGTH], vec![0; board_report_most()]);
    let length = board_rehearse(input, &mut state, &mut out);
    String::from_utf8(out[..length].to_vec()).expect("a report in ASCII")
}

/// The answers of a report, each after its step's number; or the line of its
/// refusal.
fn reported(report: &str) -> Vec<&str> {
    let is_answer = |line: &&str| line.starts_with(|c: char| c.is_ascii_digit());
    match report.strip_prefix("refused ") {
        Some(number) => vec![number.trim_end()],
        None => {
            report.lines().filter(is_answer).map(|line| line.split_once(' ').unwrap().1).collect()
        }
    }
}

/// The answers of an explanation, each with its reason.
fn told(explanation: &str) -> Vec<(&str, &str)> {
    let lines = explanation.lines().filter_map(|line| line.strip_prefix("    "));
    let parts = lines.map(|line| line.trim_start_matches("refused ").split_once(": "));
    parts.map(|parts| parts.expect("an answer and its reason")).collect()
}

/// The first step that is told without a reason, with its answer.
fn without_reason(explanation: &str) -> Option<(&str, &str)> {
    let lines = explanation.lines().zip(explanation.lines().skip(1));
    lines.into_iter().find(|(_, told)| told.ends_with(NO_REASON))
}

/// The number of an answer that is told with its word.
fn number(answer: &str) -> &str {
    answer.split_once(' ').expect("a number and its word").0
}

#[test]
fn answers_of_the_proved_program_and_a_reason_for_each() {
    let (seed, mut answers, mut refused) = (run_seed(), Answers::default(), BTreeMap::new());
    for number_in_run in 0..ROUNDS * round() {
        let (kind, input) = rehearsal(seed, number_in_run);
        let place = format!("seed {seed}, number {number_in_run}, {}", kind.name);
        let explanation = explain_bytes(&input, Which::All);
        let (told, report) = (told(&explanation), report(&input));
        let numbers: Vec<&str> = told.iter().map(|(answer, _)| number(answer)).collect();
        assert_eq!(numbers, reported(&report), "{place}");
        assert_eq!(without_reason(&explanation), None, "{place}");
        let rehearsed = Rehearsed::new(&input);
        answers.count_all(&rehearsed);
        match rehearsed.outcome {
            Ok(_) => assert!(!is_text(&input), "{place}: bytes taken for text"),
            Err(number) => *refused.entry(number).or_insert(0) += 1,
        }
    }
    println!("refused inputs {refused:?}\n{answers}");
    assert_eq!(answers.wrong(), [""; 0], "seed {seed}: an answer without its reason");
    assert_eq!(refused.keys().copied().collect::<Vec<u8>>(), [1, 2, 3, 4, 15], "seed {seed}");
}
