//! The stored lines hold what they promise: B1 to B12 and the edges as 01 writes them, what was worked by hand, every word,
//! every refusal of every word, faults of a line; and they stay few.

use super::coverage::{all_refusals, refusals_of, REFUSALS};
use crate::calls::answer;
use crate::cases::protocol::WORKED;
use crate::cases::{choices, lookup, stored};

/// The bench list with its d, and its table, as they stand in a line.
const LIST: &str = "2 20 7 7 100 100 7 7 200 299 8 8 0 999 7 7 0 999 0 9 0 999";
const TABLE: &str = "39 5 2 3 0 1 2 3 4 0 3 4 5 0 0 0 3 4 0 0 0 0 0 1 2 2 3 3 4 4 2 1 2 2 3 3 4 4 5 5";

/// The answers to the stored lines that begin with this text.
fn answers_to(start: &str) -> Vec<String> {
    stored().lines.iter().filter(|line| line.starts_with(start.as_bytes())).map(|line| answer(line)).collect()
}

/// The number of bytes of lines, their ends counted.
fn bytes<T: AsRef<[u8]>>(lines: impl Iterator<Item = T>) -> usize {
    lines.map(|line| line.as_ref().len() + 1).sum()
}

#[test]
fn b1_to_b12_are_stored() {
    let look = |header: &str| format!("lookup {} {} {} 0 0 0 0 0 0", LIST, TABLE, header);
    for (start, said) in [
        (format!("build {} 39 ", LIST), format!("ok 3 table {}", &TABLE[3..])),
        (look("7 250"), String::from("ok 1 2 edge")),
        (look("7 100"), String::from("ok 0 3 edge")),
        (look("7 150"), String::from("ok 3 5 edge")),
        (look("8 5"), String::from("ok 2 3 edge")),
        (look("9 5"), String::from("ok 4 5 edge")),
        (look("10 0"), String::from("ok none 4 plain")),
        (look("7 1000"), String::from("ok none 6 plain")),
        (String::from("build 1 0 4 "), String::from("ok 0 table 0 1 0 0")),
        (String::from("lookup 1 0 4 0 1 0 0 7 7 7 7 7 7 7 7"), String::from("ok none 0 plain")),
        (String::from("r2p 16 23 5 2 "), String::from("ok 1 run 16 2")),
        (String::from("r2p 1 30 5 16 "), String::from("ok 8 run 1 5 2 4 4 3 8 2 16 2 24 3 28 4 30 5")),
        (String::from("r2p 0 4294967295 32 2 "), String::from("ok 1 run 0 0")),
        (String::from("p2r 0 0 32"), String::from("ok 0 4294967295")),
    ] {
        assert!(answers_to(&start).contains(&said), "{}", start);
    }
}

#[test]
fn the_edges_that_01_names_are_stored() {
    for (start, said) in [
        ("check 1 2048 ", "ok 1024"),
        ("check 1 2050 ", "refused 3 0 0"),
        ("check 0 ", "refused 1 0 0"),
        ("check 1 4 ", "ok 2"),
        ("check 8 32 ", "ok 2"),
        ("check 9 ", "refused 1 0 0"),
        // a table one number short and one too long, of one rule on one field
        ("build 1 2 0 1 8 ", "refused 5 0 0 table "),
        ("build 1 2 0 1 10 ", "refused 5 0 0 table "),
        // twins
        ("build 1 4 7 7 7 7 ", "ok 2 table "),
        // low equal to high, 0 and 4294967295 at either end
        ("lookup 1 8 4294967295 4294967295 0 0 1 4294967294 0 4294967295 ", "ok 1 "),
        ("scan 1 8 4294967295 4294967295 0 0 1 4294967294 0 4294967295 4294967295 ", "ok 0"),
        // a run of odd length, and room that is one pair short
        ("r2p 1 30 5 17 ", "ok 8 run 1 5 "),
        ("r2p 1 30 5 14 ", "refused 12 8 0 run "),
    ] {
        assert!(answers_to(start).iter().any(|answer| answer.starts_with(said)), "{}", start);
    }
}

#[test]
fn the_lines_that_were_worked_by_hand_are_stored() {
    let lines = stored().lines;
    for (line, said) in WORKED.iter().chain(&choices::WORKED).chain(&lookup::WORKED) {
        assert!(lines.contains(&line.as_bytes().to_vec()), "{}", line);
        assert_eq!(answer(line.as_bytes()), *said, "{}", line);
    }
}

#[test]
fn every_word_with_a_d_has_dates() {
    for (call, _) in REFUSALS {
        let dated = |line: &&Vec<u8>| line.starts_with(format!("{} ", call).as_bytes()) && answer(line) != "bad";
        let with_flags = stored().lines.iter().filter(dated).filter(|line| line.contains(&b':')).count();
        assert_eq!(with_flags > 0, !["p2r", "r2p"].contains(&call), "{}", call);
    }
}

#[test]
fn every_word_has_good_answers_and_faults() {
    for (call, _) in REFUSALS {
        let answers = answers_to(&format!("{} ", call));
        assert!(answers.iter().any(|answer| answer.starts_with("ok ")), "{}", call);
        assert!(answers.iter().filter(|answer| *answer == "bad").count() >= 3, "{}", call);
    }
    for (call, said) in [
        ("scan", "ok none"),
        ("lookup", "ok none"),
        ("audit", "ok yes"),
        ("audit", "ok no"),
        ("independent", "ok yes"),
        ("independent", "ok no"),
    ] {
        assert!(answers_to(call).iter().any(|answer| answer.starts_with(said)), "{}: {}", call, said);
    }
    assert!(answers_to("help").contains(&String::from("bad")));
}

#[test]
fn every_refusal_of_every_word_is_stored_and_no_other() {
    assert_eq!(refusals_of(&stored().lines), all_refusals());
}

#[test]
fn stored_lines_are_few() {
    let lines = stored().lines;
    assert!((250..=800).contains(&lines.len()), "{} lines", lines.len());
    let (input, output) = (bytes(lines.iter()), bytes(lines.iter().map(|line| answer(line))));
    assert!(input < 220_000 && output < 220_000, "{} and {} bytes", input, output);
}
