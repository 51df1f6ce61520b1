//! 01, The walk: the lookup of a header in a table, as the paper's loop; 02, W2: whether the winner is at an edge; 02, W5:
//! which partitions are skipped.

use crate::lists::{fits, Header, Rule, Shape};
use crate::ranges::{high_end, side_of, Side};
use crate::refusal::{refuse, Refusal};
use crate::table::{open, Table};

/// What one partition answers: the candidate, or none for a miss, and the tests made.
pub struct Walked {
    pub candidate: Option<usize>,
    pub tests: usize,
}

/// Walks a partition from place s to before place e, or answers 6.
pub fn walk(rules: &[Rule], table: &Table, header: &Header, s: usize, e: usize) -> Result<Walked, Refusal> {
    let (n, d) = (table.n, table.d);
    let (mut start, mut end, mut field, mut tests) = (s, e, 0, 0);
    while start < end && field < d {
        let mid = start + (end - start) / 2;
        let rule = table.order(mid);
        if rule >= n {
            return Err(refuse(6));
        }
        let (from, to) = (table.run_from(mid, field), table.run_to(mid, field));
        if !(start <= from && from <= mid && mid < to && to <= end) {
            return Err(refuse(6));
        }
        tests += 1;
        match side_of(rules[rule][field], header[field]) {
            Side::Below => end = from,
            Side::Above => start = to,
            Side::Inside => {
                start = from;
                end = to;
                field += 1;
            }
        }
    }
    if start >= end {
        return Ok(Walked { candidate: None, tests });
    }
    if end - start != 1 {
        return Err(refuse(6));
    }
    let rule = table.order(start);
    // Reading 4: a failed confirming comparison is 6 and no miss. It is not counted.
    if rule >= n || !fits(&rules[rule], header) {
        return Err(refuse(6));
    }
    Ok(Walked { candidate: Some(rule), tests })
}

/// What a lookup answers: the winner, or none, the tests made, and whether the winner is at an edge.
#[derive(Clone, Copy, Debug, PartialEq, Eq)]
pub struct Looked {
    pub rule: Option<usize>,
    pub tests: usize,
    pub edge: bool,
}

/// Of a rule that fits: some field's number is at the low or the high end. The numbers past d are not read.
fn at_edge(rule: &Rule, header: &Header) -> bool {
    rule.iter().zip(header).any(|(range, number)| range.low == *number || high_end(*range) == *number)
}

/// A partition is skipped where its stored number is greater than the best candidate so far, so where some candidate is
/// smaller: an equal number does not skip, and before the first candidate none does.
fn is_skipped(least: usize, candidates: &[usize]) -> bool {
    candidates.iter().any(|candidate| *candidate < least)
}

/// Answers the smallest candidate, or none, and the sum of the tests; or 1, 2, 3, 5, 6. The partitions come in order, and
/// one that is skipped is tested for nothing, its starts neither; a later one may still be visited. A candidate that lost
/// has no say in the edge, and where there is none there is no edge. The flags may be others than the build's.
pub fn lookup(shape: Shape, list: &[u32], table: &[u16], header: &Header) -> Result<Looked, Refusal> {
    let (rules, table) = open(shape, list, table)?;
    let mut candidates = Vec::new();
    let mut tests = 0;
    for k in 0..table.b() {
        if is_skipped(table.least(k), &candidates) {
            continue;
        }
        let (s, e) = table.partition(k)?;
        let walked = walk(&rules, &table, header, s, e)?;
        tests += walked.tests;
        candidates.extend(walked.candidate);
    }
    let rule = candidates.iter().min().copied();
    let edge = rule.map_or(false, |winner| at_edge(&rules[winner], header));
    Ok(Looked { rule, tests, edge })
}
