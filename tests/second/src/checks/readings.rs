//! One check for each reading of 01 that was chosen, by its number in docs/DECISIONS.md; then the calls protocol.

use crate::calls::answer;
use crate::cases::lookup::WIDE_RUN;
use crate::cases::shapes::{built, dated, stairs, twins, BENCH, TOP};
use crate::lists::{independence, rules_of, Shape};
use crate::lookup::{lookup, Looked};
use crate::prefixes::range_to_prefixes;
use crate::program::printed;
use crate::ranges::{side_of, spot_of, Range, Side, Spot};
use crate::refusal::{refuse, refuse_at};
use crate::sorting::{standing, Standing};
use crate::table::{audit, least_at, report};

fn stand(d: u32, two_rules: &[u32]) -> Standing {
    let rules = rules_of(Shape::from(d), two_rules).unwrap();
    standing(&rules[0], &rules[1])
}

#[test]
fn reading_1_first_unequal_field_decides() {
    assert_eq!(stand(1, &[0, 9, 7, 7]), Standing::Clash);
    assert_eq!(stand(1, &[0, 6, 7, 7]), Standing::Before);
    assert_eq!(stand(1, &[7, 7, 0, 6]), Standing::After);
    assert_eq!(stand(1, &[7, 7, 7, 7]), Standing::Clash);
    assert_eq!(stand(2, &[7, 7, 1, 2, 7, 7, 3, 4]), Standing::Before);
    // a clash in field 0 ends the comparison, though field 1 would order them
    assert_eq!(stand(2, &[0, 9, 1, 2, 7, 7, 3, 4]), Standing::Clash);
    // and an order in field 0 ends it, though they clash in field 1
    assert_eq!(stand(2, &[0, 6, 1, 2, 7, 7, 1, 2]), Standing::Before);
}

#[test]
fn reading_2_below_is_tried_before_above() {
    let turned = Range { low: 5, high: 3, date: false };
    let sides: Vec<Side> = [3, 4, 5, 6].iter().map(|number| side_of(turned, *number)).collect();
    assert_eq!(sides, [Side::Below, Side::Below, Side::Above, Side::Above]);
    let spots: Vec<Spot> = [3, 4, 5, 6].iter().map(|number| spot_of(turned, *number)).collect();
    assert_eq!(spots, [Spot::Below, Spot::Below, Spot::Above, Spot::Above]);
}

#[test]
fn reading_3_no_partition_for_some_rules_is_6() {
    let (one, mut table) = (Shape::from(1), built(1, &stairs(2, 1)));
    table[2] = 0;
    assert_eq!(lookup(one, &stairs(2, 1), &table, &[0; 8]), Err(refuse(6)));
    assert_eq!(report(one, &stairs(2, 1), &table, 0), Err(refuse(6)));
    table[2] = 3;
    assert_eq!(lookup(one, &stairs(2, 1), &table, &[0; 8]), Err(refuse(6)));
    assert_eq!(lookup(one, &[], &[0, 1, 1, 0], &[0; 8]), Err(refuse(6)));
}

#[test]
fn reading_4_a_failed_confirmation_is_6_and_an_audit_never() {
    let (two, header) = (Shape::from(2), [1, 0, 0, 0, 0, 0, 0, 0]);
    assert_eq!(
        lookup(two, &[0, 1, 0, 0, 1, 1, 5, 5], &WIDE_RUN, &header),
        Ok(Looked { rule: Some(0), tests: 3, edge: true })
    );
    assert_eq!(lookup(two, &[0, 0, 0, 0, 1, 1, 5, 5], &WIDE_RUN, &header), Err(refuse(6)));
    // a date that is due there is 6 too
    assert_eq!(lookup(dated(2, 1), &[0, 1, 0, 0, 1, 2, 5, 5], &WIDE_RUN, &header), Err(refuse(6)));
    let mut wrong = built(2, &BENCH);
    wrong[0] = 4;
    assert_eq!(audit(two, &BENCH, &wrong), Ok(false));
}

#[test]
fn reading_5_no_rules_is_7_for_every_partition() {
    let one = Shape::from(1);
    for p in [0, 1, TOP] {
        assert_eq!(report(one, &[], &[0, 1, 0, 0], p), Err(refuse(7)));
    }
    // the opening's 6 before 7, and 7 before the partition's 6
    let mut table = built(1, &twins(2, 1));
    table[0] = 9;
    assert_eq!(report(one, &twins(2, 1), &table, 9), Err(refuse(6)));
    let mut table = built(1, &twins(2, 1));
    table[least_at(2)] = 9;
    assert_eq!(report(one, &twins(2, 1), &table, 2), Err(refuse(7)));
    assert_eq!(report(one, &twins(2, 1), &table, 0), Err(refuse(6)));
    assert_eq!(report(one, &twins(2, 1), &table, 1), Ok((1, 1)));
}

#[test]
fn reading_6_room_is_counted_before_the_first_write() {
    let mut run = [9; 15];
    assert_eq!(range_to_prefixes(1, 30, 5, &mut run), Err(refuse_at(12, 8, 0)));
    assert_eq!(run, [9; 15]);
    let mut run = [9; 5];
    assert_eq!(range_to_prefixes(0, 2, 2, &mut run), Ok(2));
    assert_eq!(run, [0, 1, 2, 2, 9]);
}

#[test]
fn reading_7_lines_of_the_program() {
    let prints = |rules: &str, headers: &str| printed(rules.as_bytes(), headers.as_bytes());
    // rules: line 1
    assert_eq!(prints("", "7\r\n"), "refused,1\r\n");
    assert_eq!(prints("\r\n", ""), "refused,8\r\n");
    assert_eq!(prints("7", ""), "refused,8\r\n");
    assert_eq!(prints(&vec!["1"; 17].join(","), ""), "refused,8\r\n");
    assert_eq!(prints(&vec!["1"; 18].join(","), ""), "refused,1\r\n");
    assert_eq!(prints(&vec!["01"; 18].join(","), ""), "refused,8\r\n");
    // line ends
    assert_eq!(prints("7,7\n", ""), "refused,8\r\n");
    assert_eq!(prints("7,7\r", ""), "refused,8\r\n");
    assert_eq!(prints("7,7\r\n\r\n", ""), "refused,8\r\n");
    assert_eq!(prints("7,7", ""), "rule,tests\r\n");
    // later lines: 8 in line order, 3 at line 1,025, and then 4
    assert_eq!(prints("8,7\r\n7", ""), "refused,8\r\n");
    assert_eq!(prints("8,7\r\n7,7", ""), "refused,4\r\n");
    assert_eq!(prints(&("8,7\r\n".repeat(1024) + "\r"), ""), "refused,3\r\n");
    assert_eq!(prints(&("8,7\r\n".repeat(1024)), ""), "refused,4\r\n");
    assert_eq!(prints(&("7,7\r\n".repeat(1023) + "x\r\nx"), ""), "refused,8\r\n");
    // headers
    assert_eq!(prints("7,7", "7\r\n7,7\r\n\r\n8"), "rule,tests\r\n0,1\r\nrefused,8\r\nrefused,8\r\nnone,1\r\n");
}

#[test]
fn reading_8_a_last_rule_that_catches_all_counts() {
    assert_eq!(independence(Shape::from(1), &[0, 1, 4, 5, 0, TOP]), Ok(Some((0, 2))));
}

#[test]
fn lines_of_the_calls_protocol() {
    let says = |line: &str| answer(line.as_bytes());
    assert_eq!(says("check 1 2 7 7"), "ok 1");
    assert_eq!(says("check 2 4 1 1 8 7"), "refused 4 0 1");
    assert_eq!(says("scan 1 2 7 7 7 0 0 0 0 0 0 0"), "ok 0");
    assert_eq!(says("scan 1 2 7 7 8 0 0 0 0 0 0 0"), "ok none");
    assert_eq!(says("build 1 2 7 7 9 9 9 9 9 9 9 9 9 9"), "ok 1 table 1 1 1 0 0 1 0 0 1");
    assert_eq!(says("build 1 2 7 7 3 9 9 9"), "refused 5 0 0 table 9 9 9");
    assert_eq!(says("build 1 2 7 7 0"), "refused 5 0 0 table");
    assert_eq!(says("choose 1 4 7 7 7 7 2 9 9"), "ok 2 run 0 1");
    assert_eq!(says("choose 1 4 7 7 7 7 0"), "refused 15 0 0 run");
    assert_eq!(says("choose 1 2 8 7 2 9 9"), "refused 4 0 0 run 9 9");
    assert_eq!(says("layout 1 2 7 7 1 0 9 9 9 9 9 9 9 9 9 9"), "ok 1 table 1 1 1 0 0 1 0 0 1");
    assert_eq!(says("layout 1 2 7 7 1 1 9 9 9 9 9 9 9 9 9 9"), "refused 16 0 0 table 9 9 9 9 9 9 9 9 9");
    assert_eq!(says("layout 1 2 7 7 1 1 0"), "refused 5 0 0 table");
    assert_eq!(says("lookup 1 2 7 7 9 1 1 1 0 0 1 0 0 1 7 0 0 0 0 0 0 0"), "ok 0 1 edge");
    assert_eq!(says("lookup 1 2 7 7 9 1 1 1 0 0 1 0 0 1 8 0 0 0 0 0 0 0"), "ok none 1 plain");
    assert_eq!(says("audit 1 2 7 7 9 1 1 1 0 0 1 0 0 1"), "ok yes");
    assert_eq!(says("audit 1 2 7 7 9 1 1 1 0 0 1 0 0 2"), "ok no");
    assert_eq!(says("report 1 2 7 7 9 1 1 1 0 0 1 0 0 1 0"), "ok 1 0");
    assert_eq!(says("independent 1 4 0 1 2 3"), "ok yes");
    assert_eq!(says("independent 1 4 0 2 2 3"), "ok no 0 1");
    for (number, said) in [("5", "ok 0 1 plain"), ("9", "ok 0 1 edge"), ("10", "ok none 1 plain")] {
        assert_eq!(says(&format!("lookup 1 2 0 9 9 1 1 1 0 0 1 0 0 1 {} 0 0 0 0 0 0 0", number)), said);
    }
    for (numbers, said) in [
        ("5 9 4", "ok below"),
        ("5 9 5", "ok low"),
        ("5 9 6", "ok between"),
        ("5 9 9", "ok high"),
        ("5 5 5", "ok both"),
        ("5 9 10", "ok above"),
        ("5 3 4", "ok below"),
        ("5 3 5", "ok above"),
    ] {
        assert_eq!(says(&format!("side 1 0 {}", numbers)), said);
    }
    for bad in ["side 1 0 5 9", "side 1 0 5 9 4 4", "side 1 0 5 9 4294967296", "side 1 0 5 9 x"] {
        assert_eq!(says(bad), "bad");
    }
    assert_eq!(says("p2r 16 2 5"), "ok 16 23");
    assert_eq!(says("r2p 16 23 5 3 9 9 9"), "ok 1 run 16 2 9");
    assert_eq!(says("r2p 16 23 5 1 9"), "refused 12 1 0 run 9");
    for bad in [
        "",
        " ",
        "check",
        "check 1",
        "check 1 2 7",
        "check 1 2 7 7 7",
        "check  1 2 7 7",
        "check 1 2 7 7 ",
        "check 1 2 7 07",
    ] {
        assert_eq!(says(bad), "bad");
    }
    for bad in
        ["Check 1 0", "check 1 0\r", " check 1 0", "check 1 16501", "p2r 0 0 4294967296", "audit 1 0 4 0 1 0 65536"]
    {
        assert_eq!(says(bad), "bad");
    }
    for bad in [
        "choose 1 2 7 7",
        "choose 1 2 7 7 1",
        "choose 1 2 7 7 1 0 0",
        "choose 1 2 7 7 1 65536",
        "choose 1 2 7 7 1101",
        "layout 1 2 7 7 1 0",
        "layout 1 2 7 7 1 0 1",
        "layout 1 2 7 7 1 65536 0",
        "layout 1 2 7 7 1 0 1 65536",
        "lay_out 1 0 0 0",
    ] {
        assert_eq!(says(bad), "bad");
    }
    // a run of 1,100 numbers is held, and of 1,101 is not; a run of r2p has 200 at most, as before; a table has 19,500
    let zeros = |length: usize| format!("{}{}", length, " 0".repeat(length));
    assert!(says(&format!("build 1 0 {}", zeros(19500))).starts_with("refused 5 0 0 table 0 0"));
    assert_eq!(says(&format!("build 1 0 {}", zeros(19501))), "bad");
    assert!(says(&format!("choose 1 0 {}", zeros(1100))).starts_with("refused 15 0 0 run 0 0"));
    assert_eq!(says(&format!("choose 1 0 {}", zeros(1101))), "bad");
    assert_eq!(says(&format!("layout 1 0 {} 1 7", zeros(1100))), "refused 5 0 0 table 7");
    assert_eq!(says(&format!("layout 1 0 {} 1 7", zeros(1101))), "bad");
    assert_eq!(says(&format!("r2p 0 0 5 {}", zeros(201))), "bad");
}
