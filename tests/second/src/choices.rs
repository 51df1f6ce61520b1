//! 02, W4: a choice of partitions is a run with one number for each rule, the number of its partition. First fit is one;
//! others are brought.

use crate::lists::{checked_rules_of, Rule, Shape};
use crate::refusal::{refuse, Refusal};
use crate::sorting::{first_fit, standing, Standing};

/// How many partitions a run has: one more than its largest number; none where it is empty.
pub fn partitions_of(run: &[u16]) -> usize {
    run.iter().map(|k| *k as usize + 1).max().unwrap_or(0)
}

/// The rules of partition k, in rule order.
pub fn members_of(run: &[u16], k: usize) -> Vec<usize> {
    (0..run.len()).filter(|i| run[*i] as usize == k).collect()
}

/// Two of these rules clash.
fn clash_among(rules: &[Rule], members: &[usize]) -> bool {
    let clashes = |i: usize, j: usize| i < j && standing(&rules[i], &rules[j]) == Standing::Clash;
    members.iter().any(|i| members.iter().any(|j| clashes(*i, *j)))
}

/// Writes each rule's first-fit partition number and answers the number of partitions, or 1, 2, 3, 4, 15.
pub fn choose(shape: Shape, list: &[u32], run: &mut [u16]) -> Result<usize, Refusal> {
    let rules = checked_rules_of(shape, list)?;
    if run.len() != rules.len() {
        return Err(refuse(15));
    }
    run.copy_from_slice(&first_fit(&rules));
    Ok(partitions_of(run))
}

/// Answers how many partitions a run makes of these rules, or 15, 16, 17, 18, each tested over all rules before the next.
pub fn brought(rules: &[Rule], run: &[u16]) -> Result<usize, Refusal> {
    let (n, b) = (rules.len(), partitions_of(run));
    if run.len() != n {
        return Err(refuse(15));
    }
    if run.iter().any(|k| *k as usize >= n) {
        return Err(refuse(16));
    }
    if (0..b).any(|k| members_of(run, k).is_empty()) {
        return Err(refuse(17));
    }
    if (0..b).any(|k| clash_among(rules, &members_of(run, k))) {
        return Err(refuse(18));
    }
    Ok(b)
}
