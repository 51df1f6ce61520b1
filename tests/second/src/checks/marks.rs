//! 01, A small bench list, as 02, W5 has it: B1 to B12, and what the program prints.

use crate::cases::shapes::{built, header_of, BENCH, TOP};
use crate::lists::Shape;
use crate::lookup::{lookup, Looked};
use crate::prefixes::{prefix_to_range, range_to_prefixes};
use crate::program::printed;
use crate::table::build;

/// Looks a header of the bench list up in its table: the rule, the tests, and whether it is at an edge.
fn looked(model: u32, serial: u32) -> (Option<usize>, usize, bool) {
    let looked = lookup(Shape::from(2), &BENCH, &built(2, &BENCH), &header_of(&[model, serial], 0)).unwrap();
    (looked.rule, looked.tests, looked.edge)
}

#[test]
fn b1() {
    let mut table = [9; 39];
    assert_eq!(build(Shape::from(2), &BENCH, &mut table), Ok(3));
    let parts: [&[u16]; 6] = [
        &[5, 2, 3],
        &[0, 1, 2, 3, 4],
        &[0, 3, 4, 5, 0, 0],
        &[0, 3, 4, 0, 0],
        &[0, 0, 0, 1, 2, 2, 3, 3, 4, 4],
        &[2, 1, 2, 2, 3, 3, 4, 4, 5, 5],
    ];
    assert_eq!(table.to_vec(), parts.concat());
}

#[test]
fn b2() {
    assert_eq!(looked(7, 250), (Some(1), 2, true));
}

#[test]
fn b3() {
    assert_eq!(looked(7, 100), (Some(0), 3, true));
}

#[test]
fn b4() {
    assert_eq!(looked(7, 150), (Some(3), 5, true));
}

#[test]
fn b5() {
    assert_eq!(looked(8, 5), (Some(2), 3, true));
}

#[test]
fn b6() {
    assert_eq!(looked(9, 5), (Some(4), 5, true));
}

#[test]
fn b7() {
    assert_eq!(looked(10, 0), (None, 4, false));
}

#[test]
fn b8() {
    assert_eq!(looked(7, 1000), (None, 6, false));
}

#[test]
fn b9() {
    let mut table = [9; 4];
    assert_eq!(build(Shape::from(1), &[], &mut table), Ok(0));
    assert_eq!(table, [0, 1, 0, 0]);
    for number in [0, 1, 7, TOP] {
        assert_eq!(lookup(Shape::from(1), &[], &table, &[number; 8]), Ok(Looked { rule: None, tests: 0, edge: false }));
    }
}

/// The pairs of a range, by the call.
fn pairs(low: u32, high: u32, width: u32) -> Vec<(u32, u32)> {
    let mut run = [0; 200];
    let count = range_to_prefixes(low, high, width, &mut run).unwrap();
    run.chunks(2).take(count).map(|pair| (pair[0], pair[1])).collect()
}

#[test]
fn b10() {
    assert_eq!(pairs(16, 23, 5), [(16, 2)]);
}

#[test]
fn b11() {
    assert_eq!(pairs(1, 30, 5), [(1, 5), (2, 4), (4, 3), (8, 2), (16, 2), (24, 3), (28, 4), (30, 5)]);
}

#[test]
fn b12() {
    assert_eq!(pairs(0, TOP, 32), [(0, 0)]);
    assert_eq!(prefix_to_range(0, 0, 32), Ok((0, TOP)));
}

#[test]
fn the_program_prints_the_bench_answers() {
    let rules = "7,7,100,100\r\n7,7,200,299\r\n8,8,0,999\r\n7,7,0,999\r\n0,9,0,999\r\n";
    assert_eq!(printed(rules.as_bytes(), b"7,250\r\n10,0\r\n"), "rule,tests\r\n1,2\r\nnone,4\r\n");
}
