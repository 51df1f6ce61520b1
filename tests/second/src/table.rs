//! 01, The working table: what is laid out in it, the build, the audit, what a table's opening needs, and the report; 02,
//! W4: the table of a choice that is brought; 02, W5: each partition's smallest rule number, stored behind the starts.

use crate::choices::{brought, choose, members_of, partitions_of};
use crate::lists::{check, checked_rules_of, rules_of, Rule, Shape};
use crate::refusal::{refuse, Refusal};
use crate::sorting::ascending;

/// Where the order begins, behind n, d and b.
pub const ORDER_AT: usize = 3;

/// Where the n + 1 starts of a table of n rules begin.
pub fn starts_at(n: usize) -> usize {
    ORDER_AT + n
}

/// Where the n smallest rule numbers begin, one for each partition and zeros past b.
pub fn least_at(n: usize) -> usize {
    starts_at(n) + n + 1
}

/// Where run-from begins, d numbers a place.
pub fn run_from_at(n: usize) -> usize {
    least_at(n) + n
}

/// Where run-to begins, of a table of n rules on d fields.
pub fn run_to_at(n: usize, d: usize) -> usize {
    run_from_at(n) + n * d
}

/// How many numbers a table of n rules on d fields has.
pub fn table_length(n: usize, d: usize) -> usize {
    4 + 3 * n + 2 * n * d
}

/// The table of these rules on d fields, in the partitions of the run.
pub fn table_of(rules: &[Rule], run: &[u16], d: usize) -> Vec<u16> {
    let (n, b) = (rules.len(), partitions_of(run));
    let partitions: Vec<Vec<usize>> = (0..b).map(|k| ascending(rules, &members_of(run, k))).collect();
    let order: Vec<usize> = partitions.concat();
    let mut starts = vec![0];
    for members in &partitions {
        starts.push(starts[starts.len() - 1] + members.len());
    }
    let mut run_from = Vec::new();
    let mut run_to = Vec::new();
    for k in 0..b {
        for p in starts[k]..starts[k + 1] {
            for f in 0..d {
                // the places of this partition whose rules have the same ranges in fields 0 to f
                let alike = |q: &usize| rules[order[*q]][..=f] == rules[order[p]][..=f];
                let places: Vec<usize> = (starts[k]..starts[k + 1]).filter(alike).collect();
                let (first, last) = (places[0], places[places.len() - 1]);
                assert_eq!(places.len(), last + 1 - first, "a run of places is a stretch");
                run_from.push(first);
                run_to.push(last + 1);
            }
        }
    }
    starts.resize(n + 1, 0);
    // past b a partition has no rule, and its number is 0
    let least: Vec<usize> = (0..n).map(|k| members_of(run, k).into_iter().min().unwrap_or(0)).collect();
    let parts = [vec![n, d, b], order, starts, least, run_from, run_to];
    let table: Vec<u16> = parts.concat().iter().map(|x| *x as u16).collect();
    assert_eq!(table.len(), table_length(n, d));
    table
}

/// Cuts a list into its rules, for a table of their length, or answers 1, 2, 3, 4, 5.
fn rules_for(shape: Shape, list: &[u32], table: &[u16]) -> Result<Vec<Rule>, Refusal> {
    let rules = checked_rules_of(shape, list)?;
    if table.len() != table_length(rules.len(), shape.d as usize) {
        return Err(refuse(5));
    }
    Ok(rules)
}

/// Writes the table of the list and the run and answers the number of partitions, or 1, 2, 3, 4, 5, 15, 16, 17, 18.
pub fn lay_out(shape: Shape, list: &[u32], run: &[u16], table: &mut [u16]) -> Result<usize, Refusal> {
    let (rules, d) = (rules_for(shape, list, table)?, shape.d as usize);
    let b = brought(&rules, run)?;
    table.copy_from_slice(&table_of(&rules, run, d));
    Ok(b)
}

/// Chooses by first fit and lays the choice out, and answers the number of partitions, or 1, 2, 3, 4, 5.
pub fn build(shape: Shape, list: &[u32], table: &mut [u16]) -> Result<usize, Refusal> {
    let mut run = vec![0; check(shape, list)?];
    choose(shape, list, &mut run)?;
    lay_out(shape, list, &run, table)
}

/// The run read off a table: the number of a rule is how many of the b partitions end at or before its place. There is
/// none where b > n, or where a rule has no place.
pub fn run_off(table: &Table) -> Option<Vec<u16>> {
    if table.b() > table.n {
        return None;
    }
    let mut run = Vec::new();
    for i in 0..table.n {
        let place = (0..table.n).find(|place| table.order(*place) == i)?;
        let ended = (0..table.b()).filter(|k| table.start(k + 1) <= place);
        run.push(ended.count() as u16);
    }
    Some(run)
}

/// Answers whether some run makes the laying out write this table, or 1, 2, 3, 4, 5. Where there is such a run it is the
/// one read off the table, so that one is laid out, and every number compared.
/// Reading 4: a wrong n or d in the table is a plain no.
pub fn audit(shape: Shape, list: &[u32], table: &[u16]) -> Result<bool, Refusal> {
    let (n, d) = (rules_for(shape, list, table)?.len(), shape.d as usize);
    let mut laid = vec![0; table.len()];
    match run_off(&Table { n, d, numbers: table }) {
        None => Ok(false),
        Some(run) => Ok(lay_out(shape, list, &run, &mut laid).is_ok() && laid == table),
    }
}

/// A lent table of the right length, read part by part.
pub struct Table<'a> {
    pub n: usize,
    pub d: usize,
    numbers: &'a [u16],
}

impl Table<'_> {
    /// The number of partitions.
    pub fn b(&self) -> usize {
        self.numbers[2] as usize
    }

    /// The rule number at a place.
    pub fn order(&self, place: usize) -> usize {
        assert!(place < self.n);
        self.numbers[ORDER_AT + place] as usize
    }

    /// The first place of partition k; k is at most n.
    pub fn start(&self, k: usize) -> usize {
        assert!(k <= self.n);
        self.numbers[starts_at(self.n) + k] as usize
    }

    /// The smallest rule number of partition k, as it is stored; k is less than n.
    pub fn least(&self, k: usize) -> usize {
        assert!(k < self.n);
        self.numbers[least_at(self.n) + k] as usize
    }

    pub fn run_from(&self, place: usize, field: usize) -> usize {
        assert!(place < self.n && field < self.d);
        self.numbers[run_from_at(self.n) + place * self.d + field] as usize
    }

    pub fn run_to(&self, place: usize, field: usize) -> usize {
        assert!(place < self.n && field < self.d);
        self.numbers[run_to_at(self.n, self.d) + place * self.d + field] as usize
    }

    /// The places of partition k, from a first to before a next, or 6.
    pub fn partition(&self, k: usize) -> Result<(usize, usize), Refusal> {
        let (start, next) = (self.start(k), self.start(k + 1));
        if start >= next || next > self.n {
            return Err(refuse(6));
        }
        Ok((start, next))
    }
}

/// Takes the list's rules and the table, or answers 1, 2, 3, 5, and 6 for the opening.
/// Reading 3: b ≤ n is tested before start b is read, so with n > 0 a b of 0 is 6.
pub fn open<'a>(shape: Shape, list: &[u32], table: &'a [u16]) -> Result<(Vec<Rule>, Table<'a>), Refusal> {
    let rules = rules_of(shape, list)?;
    let (n, d) = (rules.len(), shape.d as usize);
    if table.len() != table_length(n, d) {
        return Err(refuse(5));
    }
    let numbers = table;
    let table = Table { n, d, numbers };
    if numbers[0] as usize != n || numbers[1] as usize != d {
        return Err(refuse(6));
    }
    if table.b() > n || table.start(0) != 0 || table.start(table.b()) != n {
        return Err(refuse(6));
    }
    Ok((rules, table))
}

/// Answers a partition's size and its stored smallest rule number, or 1, 2, 3, 5, 6 for the opening, 7, 6 for the
/// partition: its starts, or a stored number of n or more. No place is read, and no range, so the flags alter nothing.
/// Reading 5: with n = 0 and a fine opening every partition number is 7.
pub fn report(shape: Shape, list: &[u32], table: &[u16], k: u32) -> Result<(usize, usize), Refusal> {
    let (_, table) = open(shape, list, table)?;
    let k = k as usize;
    if k >= table.b() {
        return Err(refuse(7));
    }
    let (start, next) = table.partition(k)?;
    let smallest = table.least(k);
    if smallest >= table.n {
        return Err(refuse(6));
    }
    Ok((next - start, smallest))
}
