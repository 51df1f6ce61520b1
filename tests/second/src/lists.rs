//! 01, Lists and headers: rules, the check of a list, the plain scan, and order independence; 02, W8: which fields are
//! dates.

use crate::ranges::{holds, is_void, Range};
use crate::refusal::{refuse, refuse_at, Refusal};

/// What a list's numbers mean: d fields a rule, and eight flags that say which fields are dates. Flags past d alter
/// nothing.
#[derive(Clone, Copy, Debug, PartialEq, Eq)]
pub struct Shape {
    pub d: u32,
    pub dates: [bool; 8],
}

impl Shape {
    /// Whether field f is a date: none is from field 8 on.
    pub fn is_date(&self, f: usize) -> bool {
        f < 8 && self.dates[f]
    }
}

/// d fields, none of them a date.
impl From<u32> for Shape {
    fn from(d: u32) -> Shape {
        Shape { d, dates: [false; 8] }
    }
}

/// One range for each of the d fields.
pub type Rule = Vec<Range>;

/// Eight numbers, of which the first d are read.
pub type Header = [u32; 8];

/// The rule of these 2d numbers.
fn rule_of(shape: Shape, numbers: &[u32]) -> Rule {
    let range = |(f, ends): (usize, &[u32])| Range { low: ends[0], high: ends[1], date: shape.is_date(f) };
    numbers.chunks(2).enumerate().map(range).collect()
}

/// Cuts a list into its rules, or answers 1, 2, 3.
pub fn rules_of(shape: Shape, list: &[u32]) -> Result<Vec<Rule>, Refusal> {
    let d = shape.d;
    if d < 1 || d > 8 {
        return Err(refuse(1));
    }
    let per_rule = 2 * d as usize;
    if list.len() % per_rule != 0 {
        return Err(refuse(2));
    }
    if list.len() / per_rule > 1024 {
        return Err(refuse(3));
    }
    Ok(list.chunks(per_rule).map(|numbers| rule_of(shape, numbers)).collect())
}

/// Cuts a list into its rules, or answers 1, 2, 3, 4.
pub fn checked_rules_of(shape: Shape, list: &[u32]) -> Result<Vec<Rule>, Refusal> {
    let rules = rules_of(shape, list)?;
    for (i, rule) in rules.iter().enumerate() {
        for (f, range) in rule.iter().enumerate() {
            if is_void(*range) {
                return Err(refuse_at(4, i, f));
            }
        }
    }
    Ok(rules)
}

/// Answers the number of rules.
pub fn check(shape: Shape, list: &[u32]) -> Result<usize, Refusal> {
    Ok(checked_rules_of(shape, list)?.len())
}

/// A rule fits a header when in all d fields its range holds the header's number.
pub fn fits(rule: &Rule, header: &Header) -> bool {
    rule.iter().zip(header).all(|(range, number)| holds(*range, *number))
}

/// Answers the smallest rule number that fits, or none.
pub fn scan(shape: Shape, list: &[u32], header: &Header) -> Result<Option<usize>, Refusal> {
    let rules = checked_rules_of(shape, list)?;
    Ok(rules.iter().position(|rule| fits(rule, header)))
}

/// What two ranges of one field have in common, which is such a range too.
fn common(x: &Range, y: &Range) -> Range {
    Range { low: x.low.max(y.low), high: x.high.min(y.high), date: x.date }
}

/// Some header fits both rules: in every field some number lies in both ranges.
fn meet(a: &Rule, b: &Rule) -> bool {
    a.iter().zip(b).all(|(x, y)| !is_void(common(x, y)))
}

/// Answers the pair (i, j) with smallest i, then smallest j, that some header fits; none where there is no such pair.
/// Reading 8: every pair is taken, also one with a last rule that catches all.
pub fn independence(shape: Shape, list: &[u32]) -> Result<Option<(usize, usize)>, Refusal> {
    let rules = checked_rules_of(shape, list)?;
    for i in 0..rules.len() {
        for j in i + 1..rules.len() {
            if meet(&rules[i], &rules[j]) {
                return Ok(Some((i, j)));
            }
        }
    }
    Ok(None)
}
