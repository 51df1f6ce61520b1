//! 02, W8: fields that are dates. A range of dates is a range without them that ends a day earlier, so every answer is
//! held to one without dates; then the flags, of a list and in the calls protocol.

use std::collections::BTreeSet;

use crate::calls::answer;
use crate::cases::characters::{dated_list, drawn_header, drawn_shape, spoiled_list};
use crate::cases::lines::Lines;
use crate::cases::protocol::{replaced, GOOD, NO_SHAPE, SHAPES, WORKED};
use crate::cases::shapes::{all_headers, all_lists, as_dates, built, dated, ALL, TOP};
use crate::cases::{drawn, edges};
use crate::lists::{fits, rules_of, Header, Shape};
use crate::lookup::{lookup, Looked};
use crate::ranges::{holds, side_of, spot_of, Range, Side, Spot};
use crate::refusal::refuse;
use crate::seed::Seed;
use crate::sorting::{standing, Standing};

/// The answers to every call on a list, its table and a header; the report is one on partition 0, and what is laid out has
/// a partition for each rule.
fn answers(shape: Shape, list: &[u32], table: &[u16], header: &Header) -> Vec<String> {
    let mut out = Lines::default();
    out.check(shape, list);
    out.scan(shape, list, header);
    out.independent(shape, list);
    out.build(shape, list, &vec![9; table.len()]);
    let own: Vec<u16> = (0..table[0]).collect();
    out.choose(shape, list, &own);
    out.layout(shape, list, &own, &vec![9; table.len()]);
    out.layout(shape, list, &vec![0; own.len()], &vec![9; table.len()]);
    out.audit(shape, list, table);
    out.lookup(shape, list, table, header);
    out.report(shape, list, table, 0);
    out.lines.iter().map(|line| answer(line)).collect()
}

#[test]
fn lines_that_were_worked_by_hand() {
    for (line, said) in WORKED {
        assert_eq!(answer(line.as_bytes()), said, "{}", line);
    }
}

#[test]
fn a_due_day_is_no_valid_day() {
    let date = |low: u32, high: u32, number: u32| spot_of(Range { low, high, date: true }, number);
    let spots: Vec<Spot> = (4..=10).map(|number| date(5, 9, number)).collect();
    assert_eq!(spots, [Spot::Below, Spot::Low, Spot::Between, Spot::Between, Spot::High, Spot::Above, Spot::Above]);
    assert_eq!([4, 5, 6].map(|number| date(5, 6, number)), [Spot::Below, Spot::Both, Spot::Above]);
    assert_eq!([TOP - 1, TOP].map(|number| date(0, TOP, number)), [Spot::High, Spot::Above]);
    // no day at all: below its low, else above, and nothing is subtracted from high
    assert_eq!([4, 5, 6].map(|number| date(5, 5, number)), [Spot::Below, Spot::Above, Spot::Above]);
    assert_eq!([0, 6, 7, 8].map(|number| date(7, 0, number)), [Spot::Below, Spot::Below, Spot::Above, Spot::Above]);
    assert_eq!(date(0, 0, 0), Spot::Above);
}

#[test]
fn the_top_lies_in_no_range_of_dates() {
    let mut seed = Seed::new(15);
    for _ in 0..1000 {
        let range = Range { low: seed.any(), high: seed.pick(&[TOP, TOP - 1, 7]), date: true };
        assert!(!holds(range, TOP) && side_of(range, TOP) != Side::Inside);
    }
}

#[test]
fn dates_that_touch_do_not_clash() {
    let stand = |shape: Shape, list: &[u32]| {
        let rules = rules_of(shape, list).unwrap();
        standing(&rules[0], &rules[1])
    };
    assert_eq!(stand(dated(1, 1), &[1, 5, 5, 9]), Standing::Before);
    assert_eq!(stand(dated(1, 1), &[5, 9, 1, 5]), Standing::After);
    assert_eq!(stand(dated(1, 1), &[1, 6, 5, 9]), Standing::Clash);
    assert_eq!(stand(dated(1, ALL - 1), &[1, 5, 5, 9]), Standing::Clash);
    assert_eq!(stand(dated(2, 2), &[7, 7, 1, 5, 7, 7, 5, 9]), Standing::Before);
    assert_eq!(stand(dated(2, 1), &[7, 8, 1, 5, 7, 8, 5, 9]), Standing::Clash);
}

/// The same rules without dates: where a field is a date, its high goes one down. The list has no date of no day.
fn without_dates(shape: Shape, list: &[u32]) -> Vec<u32> {
    let d = shape.d as usize;
    let end = |(i, number): (usize, &u32)| number - (i % 2 == 1 && shape.is_date(i / 2 % d)) as u32;
    list.iter().enumerate().map(end).collect()
}

#[test]
fn dates_answer_as_ranges_that_end_a_day_earlier() {
    let mut seed = Seed::new(16);
    for _ in 0..3000 {
        let (shape, list) = dated_list(&mut seed);
        let (plain, other) = (Shape::from(shape.d), without_dates(shape, &list));
        let (table, header) = (built(shape, &list), drawn_header(&mut seed, shape, &list));
        assert_eq!(answers(shape, &list, &table, &header), answers(plain, &other, &table, &header));
    }
}

#[test]
fn small_lists_of_dates_answer_as_ranges_that_end_a_day_earlier() {
    for (i, list) in all_lists(4, 1).iter().enumerate() {
        let shape = dated(2, 1 + i as u32 % 3);
        let other = as_dates(shape, list);
        for header in all_headers(2, 2) {
            let table = built(shape, &other);
            assert_eq!(answers(shape, &other, &table, &header), answers(Shape::from(2), list, &table, &header));
        }
    }
}

#[test]
fn flags_past_d_alter_nothing() {
    let mut seed = Seed::new(17);
    for _ in 0..2000 {
        let (mut shape, mut list) = dated_list(&mut seed);
        let table = built(shape, &list);
        if seed.once_in(4) {
            spoiled_list(&mut seed, &mut shape, &mut list);
        }
        let header = drawn_header(&mut seed, shape, &list);
        let mut other = shape;
        for f in shape.d.min(8) as usize..8 {
            other.dates[f] = !shape.dates[f];
        }
        assert_eq!(answers(shape, &list, &table, &header), answers(other, &list, &table, &header));
    }
}

#[test]
fn a_rule_returned_fits_under_the_flags_of_the_lookup() {
    let mut seed = Seed::new(18);
    let mut said = [0; 3];
    for _ in 0..5000 {
        let (shape, list) = dated_list(&mut seed);
        let other = drawn_shape(&mut seed, shape.d);
        let header = drawn_header(&mut seed, other, &list);
        match lookup(other, &list, &built(shape, &list), &header) {
            Ok(Looked { rule: Some(rule), .. }) => {
                assert!(fits(&rules_of(other, &list).unwrap()[rule], &header));
                said[0] += 1;
            }
            Ok(_) => said[1] += 1,
            Err(refusal) => {
                assert_eq!(refusal, refuse(6));
                said[2] += 1;
            }
        }
    }
    assert!(said[0] > 1000 && said[1] > 1000, "{:?}", said);
}

#[test]
fn d_with_flags_is_read_and_no_other_form() {
    for line in GOOD {
        let takes_flags = !line.starts_with("p2r ") && !line.starts_with("r2p ");
        for word in SHAPES {
            assert_eq!(answer(replaced(line, 1, word).as_bytes()) != "bad", takes_flags, "{} in {}", word, line);
        }
        for word in NO_SHAPE {
            assert_eq!(answer(replaced(line, 1, word).as_bytes()), "bad", "{} in {}", word, line);
        }
    }
    // the first flag is that of field 0, and the flag of FIELD is taken whatever D is
    for (line, said) in [
        ("check 2:10000000 4 7 7 7 8", "refused 4 0 0"),
        ("check 2:01000000 4 7 8 7 7", "refused 4 0 1"),
        ("check 2:00111111 4 7 7 7 7", "ok 1"),
        ("check 2:00000000 4 7 7 7 7", "ok 1"),
        ("check 9:11111111 0", "refused 1 0 0"),
        ("side 1:01000000 1 5 9 9", "ok above"),
        ("side 1:01000000 0 5 9 9", "ok high"),
        ("side 0:00000001 7 5 9 8", "ok high"),
        ("side 4294967295:11111111 8 5 9 9", "ok high"),
        ("side 8:11111111 4294967295 5 9 9", "ok high"),
    ] {
        assert_eq!(answer(line.as_bytes()), said, "{}", line);
    }
}

/// The first two words of these lines, without their d: the call, and its flags, if it has any.
fn calls_and_flags(lines: &Lines) -> Vec<(String, String)> {
    let flags = |line: &Vec<u8>| {
        let line = String::from_utf8_lossy(line).into_owned();
        let mut words = line.split(' ');
        let (call, shape) = (words.next().unwrap_or(""), words.next().unwrap_or(""));
        (String::from(call), String::from(shape.split(':').nth(1).unwrap_or("")))
    };
    lines.lines.iter().map(flags).collect()
}

#[test]
fn every_call_comes_with_dates_and_without() {
    for (kind, calls) in [
        ("ranges", vec!["side"]),
        ("lists", vec!["check", "scan", "independent"]),
        ("sorting", vec!["build", "audit", "report"]),
        ("choices", vec!["choose", "layout", "audit", "lookup"]),
        ("lookup", vec!["lookup"]),
        ("random", vec!["check", "scan", "independent", "build", "choose", "layout", "audit", "report", "lookup"]),
    ] {
        let said = calls_and_flags(&drawn(kind, 19, 8000).unwrap());
        for call in calls {
            let flags = said.iter().filter(|(word, _)| word == call).map(|(_, flags)| flags.as_str());
            let (set, all) = (flags.clone().filter(|flags| flags.contains('1')).count(), flags.clone().count());
            assert!(all / 3 < set && set < all - all / 10, "{}: {} of {} {} with dates", kind, set, all, call);
            let some: BTreeSet<&str> = flags.collect();
            assert!(some.len() > 50 && ["", "00000000", "11111111"].iter().all(|flags| some.contains(flags)));
        }
    }
    for kind in ["ranges", "lists", "sorting", "choices", "lookup"] {
        assert!(calls_and_flags(&edges(kind).unwrap()).iter().filter(|(_, flags)| flags.contains('1')).count() > 100);
    }
    assert!(calls_and_flags(&edges("prefixes").unwrap()).iter().all(|(_, flags)| flags.is_empty()));
}
