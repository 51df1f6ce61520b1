//! The cases are worth running: every refusal of every call comes up, no edge is faulty by mistake, sizes stay small.

use std::collections::BTreeSet;

use crate::calls::answer;
use crate::cases::lines::Lines;
use crate::cases::{drawn, edges, stored};
use crate::table::{least_at, run_from_at, table_length};

const KINDS: [&str; 7] = ["ranges", "prefixes", "lists", "sorting", "choices", "lookup", "protocol"];

/// 01, Refusal numbers, and 02, W4: the checks of each call.
pub const REFUSALS: [(&str, &[u32]); 12] = [
    ("check", &[1, 2, 3, 4]),
    ("scan", &[1, 2, 3, 4]),
    ("independent", &[1, 2, 3, 4]),
    ("build", &[1, 2, 3, 4, 5]),
    ("choose", &[1, 2, 3, 4, 15]),
    ("layout", &[1, 2, 3, 4, 5, 15, 16, 17, 18]),
    ("audit", &[1, 2, 3, 4, 5]),
    ("lookup", &[1, 2, 3, 5, 6]),
    ("report", &[1, 2, 3, 5, 6, 7]),
    ("side", &[]),
    ("p2r", &[9, 10]),
    ("r2p", &[9, 11, 12]),
];

/// Word i of a text.
fn word(text: &str, i: usize) -> String {
    String::from(text.split(' ').nth(i).unwrap_or(""))
}

/// The calls and the refusal numbers among these lines.
pub fn refusals_of(lines: &[Vec<u8>]) -> BTreeSet<(String, u32)> {
    let mut refusals = BTreeSet::new();
    for line in lines {
        let said = answer(line);
        if word(&said, 0) == "refused" {
            refusals.insert((word(&String::from_utf8_lossy(line), 0), word(&said, 1).parse().unwrap()));
        }
    }
    refusals
}

/// Every call with each of its refusals.
pub fn all_refusals() -> BTreeSet<(String, u32)> {
    REFUSALS.iter().flat_map(|(call, numbers)| numbers.iter().map(move |n| (String::from(*call), *n))).collect()
}

#[test]
fn edges_bring_up_every_refusal_and_no_other() {
    let lines: Vec<Vec<u8>> = KINDS.iter().flat_map(|kind| edges(kind).unwrap().lines).collect();
    assert_eq!(refusals_of(&lines), all_refusals());
}

#[test]
fn drawn_cases_bring_up_every_refusal_of_their_layer() {
    for (kind, calls) in [
        ("prefixes", vec!["p2r", "r2p"]),
        ("lists", vec!["check", "scan", "independent"]),
        ("sorting", vec!["build", "audit", "report"]),
        ("choices", vec!["choose", "layout"]),
        ("lookup", vec!["lookup"]),
    ] {
        let of_the_layer = |all: BTreeSet<(String, u32)>| -> BTreeSet<(String, u32)> {
            all.into_iter().filter(|(call, _)| calls.contains(&call.as_str())).collect()
        };
        let said = of_the_layer(refusals_of(&drawn(kind, 8, 20000).unwrap().lines));
        assert_eq!(said, of_the_layer(all_refusals()));
    }
}

#[test]
fn edges_and_drawn_cases_bring_up_every_outcome_of_the_range_test() {
    for lines in [edges("ranges").unwrap(), drawn("ranges", 12, 2000).unwrap(), stored()] {
        let of_side = lines.lines.iter().filter(|line| line.starts_with(b"side ")).map(|line| answer(line));
        let said: BTreeSet<String> = of_side.filter(|said| said != "bad").collect();
        assert_eq!(
            said,
            ["above", "below", "between", "both", "high", "low"].map(|word| format!("ok {}", word)).into()
        );
    }
}

#[test]
fn lookups_come_to_edges_and_between_them() {
    for lines in [edges("lookup").unwrap(), drawn("lookup", 13, 4000).unwrap(), stored()] {
        let said: Vec<String> = lines.lines.iter().map(|line| answer(line)).collect();
        let ends_in = |word: &str| said.iter().filter(|said| said.ends_with(word) && !said.contains("none")).count();
        assert!(ends_in(" edge") >= 5 && ends_in(" plain") >= 5);
        assert!(said.iter().all(|said| !said.contains("none") || !said.ends_with("edge")));
    }
}

#[test]
fn audits_of_choices_are_yes_and_no_and_lookups_hit_and_miss() {
    for lines in [edges("choices").unwrap(), drawn("choices", 20, 8000).unwrap(), stored()] {
        let said = |word: &str| {
            let of_word = lines.lines.iter().filter(|line| line.starts_with(word.as_bytes()));
            of_word.map(|line| answer(line)).collect::<Vec<String>>()
        };
        let (audits, lookups) = (said("audit "), said("lookup "));
        assert!(audits.iter().filter(|said| *said == "ok yes").count() >= 20);
        assert!(audits.iter().filter(|said| *said == "ok no").count() >= 20);
        assert!(lookups.iter().any(|said| said.starts_with("ok none ")));
        assert!(lookups.iter().any(|said| said.ends_with(" plain") && !said.starts_with("ok none ")));
    }
}

/// The line of a lookup with all of its table's smallest rule numbers 0, so that no partition is skipped; or none where its
/// parts are not of their lengths.
fn without_skips(line: &[u8]) -> Option<String> {
    let line = String::from_utf8(line.to_vec()).ok()?;
    let mut words: Vec<&str> = line.split(' ').collect();
    let number = |i: usize| words.get(i)?.split(':').next()?.parse::<usize>().ok();
    let (d, numbers) = (number(1)?, number(2)?);
    let (n, table) = (numbers / (2 * d.clamp(1, 8)), 4 + numbers);
    if d > 8 || number(table - 1)? != table_length(n, d) {
        return None;
    }
    words.get_mut(table + least_at(n)..table + run_from_at(n))?.fill("0");
    Some(words.join(" "))
}

/// How many of these lookups skip tests, how many a partition that is damaged, and how many a better rule.
fn skips_of(lines: &Lines) -> [usize; 3] {
    let lookups = lines.lines.iter().filter(|line| line.starts_with(b"lookup "));
    let both = |line: &Vec<u8>| Some((answer(line), answer(without_skips(line)?.as_bytes())));
    let [mut tests, mut damage, mut rules] = [0; 3];
    for (said, all) in lookups.filter_map(both).filter(|(said, all)| word(said, 0) == "ok" && said != all) {
        if word(&all, 0) == "refused" {
            damage += 1;
        } else if word(&all, 1) != word(&said, 1) {
            rules += 1;
        } else {
            tests += 1;
        }
    }
    [tests, damage, rules]
}

#[test]
fn lookups_skip_partitions_and_damage_and_better_rules() {
    for (name, lines) in
        [("edges", edges("lookup").unwrap()), ("drawn", drawn("lookup", 26, 8000).unwrap()), ("stored", stored())]
    {
        let [tests, damage, rules] = skips_of(&lines);
        assert!(tests >= 20 && damage >= 4 && rules >= 1, "{}: {}, {}, {}", name, tests, damage, rules);
    }
}

#[test]
fn only_the_protocol_has_faulty_lines() {
    for kind in KINDS {
        let faulty = edges(kind).unwrap().lines.iter().filter(|line| answer(line) == "bad").count();
        assert_eq!(faulty > 0, kind == "protocol", "{}: {} faulty", kind, faulty);
    }
    for kind in ["ranges", "prefixes", "lists", "sorting", "choices", "lookup", "random", "large"] {
        assert!(drawn(kind, 9, 60).unwrap().lines.iter().all(|line| answer(line) != "bad"));
    }
}

#[test]
fn edges_of_a_kind_have_at_most_1400000_bytes() {
    for kind in KINDS {
        let bytes: usize = edges(kind).unwrap().lines.iter().map(|line| line.len() + 1).sum();
        assert!(bytes <= 1_400_000, "{}: {} bytes", kind, bytes);
    }
}

#[test]
fn a_seed_draws_the_same_lines_again() {
    assert_eq!(drawn("random", 10, 500).unwrap().lines, drawn("random", 10, 500).unwrap().lines);
    assert_ne!(drawn("random", 10, 500).unwrap().lines, drawn("random", 11, 500).unwrap().lines);
}
