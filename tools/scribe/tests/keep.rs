//! The steps that are left of a rehearsal that was cut down, as text; and numbers
//! that are not those of its steps.

use inputs::kinds::{rehearsal, round};
use inputs::random::{run_seed, Random};
use reference::report::run;
use reference::shrink::{shrink, steps_left};
use reference::table::read_front;
use scribe::keep::Lines;
use scribe::{bytes, text};
use std::fs;
use std::path::Path;

/// Five steps, of which the last is refused by 11. Comments, blanks and ends of
/// lines stand as people write them.
const CLASH: &str = "\
# Two votes on one ballot.

peers 1 threshold 1 honest 1 periods 1 # alone
vote 7 01   # item 0
# the other one
 vote 7 02
# Now the steps.
post 0
post 1\t
  hand 1 0  # accepted
sign 1 0\r
hand 1 1 # 11: clashes
";

/// The kept lines of a rehearsal, from its text and from its bytes.
fn kept(written: &str, numbers: &str) -> [Result<String, String>; 2] {
    let input = bytes(written).unwrap();
    let lines = [Lines::of_text(written), Lines::of_bytes(&input)];
    lines.map(|lines| lines.unwrap().keep(numbers))
}

/// Both as written, and without comments.
#[test]
fn lines_as_they_stand() {
    let [from_text, from_bytes] = kept(CLASH, "1\n2\n3\n5\n").map(Result::unwrap);
    let expected = "\
peers 1 threshold 1 honest 1 periods 1 # alone
vote 7 01   # item 0
 vote 7 02
post 0  # step 1
post 1  # step 2
  hand 1 0  # accepted  # step 3
hand 1 1 # 11: clashes  # step 5
";
    assert_eq!(from_text, expected);
    let expected = "\
peers 1 threshold 1 honest 1 periods 1
vote 7 01
vote 7 02
post 0  # step 1
post 1  # step 2
hand 1 0  # step 3
hand 1 1  # step 5
";
    assert_eq!(from_bytes, expected);
}

/// Season and weights stand among the table's lines; bytes that are no step are one.
#[test]
fn the_season_and_a_short_tail() {
    for (season, weights) in [("season 2", ""), ("season 3", "weights 4\n")] {
        let header = "peers 1 threshold 3 honest 1 periods 1\n";
        let table = format!("{season}\n{header}{weights}audit 7 place 5\n");
        let expected = format!("{table}raw 05 00  # step 2\n");
        let kept = kept(&format!("{table}post 0\nraw 05 00\n"), "2\n");
        assert_eq!(kept, [(); 2].map(|()| Ok(expected.clone())));
    }
}

/// The bytes of an input's table and of the steps with these numbers.
fn chosen(input: &[u8], numbers: &[usize]) -> Vec<u8> {
    let (table, steps) = input.split_at(read_front(input).expect("a table").1);
    let steps: Vec<&[u8]> = steps.chunks(13).collect();
    let chosen: Vec<&[u8]> = numbers.iter().map(|k| steps[k - 1]).collect();
    [table, &chosen.concat()].concat()
}

/// The last answer of a rehearsal.
fn last_answer(input: &[u8]) -> Option<u8> {
    run(input).expect("a table").answers.last().copied()
}

/// What is left of the cases has the bytes of these steps, and ends with the same
/// answer.
#[test]
fn cases_cut_down() {
    let folder = Path::new(env!("CARGO_MANIFEST_DIR")).join("../../cases");
    let mut shrunk = 0;
    for file in fs::read_dir(folder).expect("the folder of cases") {
        let path = file.expect("a file").path();
        if path.extension().is_none_or(|end| end != "txt") {
            continue;
        }
        let written = fs::read_to_string(&path).expect("a case");
        let input = bytes(&written).unwrap();
        let Ok(left) = steps_left(&input) else { continue };
        for kept in kept(&written, &String::from_utf8(shrink(&input)).unwrap()) {
            let again = bytes(&kept.unwrap()).unwrap();
            assert_eq!(again, chosen(&input, &left.numbers), "{}", path.display());
            assert_eq!(last_answer(&again), last_answer(&input), "{}", path.display());
        }
        shrunk += 1;
    }
    assert!(shrunk > 8, "{shrunk} cases");
}

/// The example of README.md is what is stored with its case.
#[test]
fn the_example_of_the_readme() {
    let folder = Path::new(env!("CARGO_MANIFEST_DIR"));
    let read = |path: &str| fs::read_to_string(folder.join(path)).expect("a text");
    let stored = read("../../cases/shrunk/support-call.txt");
    let indented: String = stored.lines().map(|line| format!("    {line}\n")).collect();
    assert!(read("README.md").contains(&format!("\n\n{indented}\n")));
}

/// Whichever steps are kept, with the last among them.
#[test]
fn any_steps_of_random_rehearsals() {
    let (seed, mut count) = (run_seed(), 0);
    for number in 0..round() {
        let input = rehearsal(seed, number).1;
        let steps = run(&input).map_or(0, |run| run.answers.len());
        if steps == 0 {
            continue;
        }
        let mut random = Random::new(seed, number);
        let mut numbers = random.some_of(30, 1..steps);
        numbers.push(steps);
        let numbered: String = numbers.iter().map(|number| format!("{number}\n")).collect();
        let [from_text, from_bytes] = kept(&text(&input).unwrap(), &numbered);
        assert_eq!(from_text, from_bytes, "seed {seed}, number {number}");
        let again = bytes(&from_bytes.unwrap()).unwrap();
        assert_eq!(again, chosen(&input, &numbers), "seed {seed}, number {number}");
        count += 1;
    }
    assert!(count > round() / 2, "{count} rehearsals");
}

#[test]
fn numbers_that_do_not_fit() {
    let another = "but the rehearsal has 5 steps, and the last one is always left";
    for (numbers, expected) in [
        ("0\n5\n", "line 1: expected a step number (1 to 5), found '0'"),
        ("1\n6\n", "line 2: expected a step number (1 to 5), found '6'"),
        ("1\n\n99999999999\n", "line 3: expected a step number (1 to 5), found '99999999999'"),
        ("1\n-2\n", "line 2: expected a step number (1 to 5), found '-2'"),
        ("post 0\n", "line 1: expected a step number (1 to 5), found 'post'"),
        ("1 2\n", "line 1: expected the end of the line, found '2'"),
        ("2\n2\n5\n", "line 2: expected a number above 2, found '2'"),
        ("3\n1\n5\n", "line 2: expected a number above 3, found '1'"),
        ("1\n2\n", &format!("it ends with step 2, {another}")),
        ("", "it has no step number"),
        ("\n# none\n", "it has no step number"),
        (
            "refused 18\n",
            "it says \"refused 18\": the last step is not refused, or there are no steps",
        ),
        (
            "refused 2\n",
            "it says \"refused 2\": the rehearsal is refused, and scribe explain says why",
        ),
    ] {
        assert_eq!(kept(CLASH, numbers), [(); 2].map(|()| Err(expected.to_string())), "{numbers}");
    }
}

#[test]
fn a_rehearsal_without_steps() {
    let table = "peers 1 threshold 1 honest 1 periods 1\n";
    let expected = "line 1: expected no number, since the rehearsal has no steps, found '1'";
    assert_eq!(kept(table, "1\n"), [(); 2].map(|()| Err(expected.to_string())));
    let clean = String::from_utf8(shrink(&bytes(table).unwrap())).unwrap();
    let expected = "it says \"refused 18\": the last step is not refused, or there are no steps";
    assert_eq!(kept(table, &clean), [(); 2].map(|()| Err(expected.to_string())));
}

#[test]
fn rehearsals_without_lines() {
    let wrong = Lines::of_text("peers 1\n").err();
    assert_eq!(wrong.as_deref(), Some("line 1: expected 'threshold', found the end of the line"));
    let wrong = Lines::of_bytes(&[1, 1]).err();
    let expected = "no text for this table: 2 bytes, but a table has at least 6";
    assert_eq!(wrong.as_deref(), Some(expected));
}
