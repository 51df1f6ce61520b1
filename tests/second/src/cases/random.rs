//! Drawn cases of every call on one list: build it, or choose, bring another choice and lay that out; then look up, scan,
//! audit and report, as a user would.

use super::characters::{dated_list, drawn_header, drawn_shape, list_for};
use super::choices::{choose, lay};
use super::lines::Lines;
use super::shapes::{built, laid, unwritten};
use super::tables::{damage, drawn_choice};
use crate::lists::Shape;
use crate::seed::Seed;

/// All calls on a list; the scan of a header side by side with its lookups, in the built table and in the brought one.
fn all_calls(seed: &mut Seed, out: &mut Lines, shape: Shape, list: &[u32], headers: usize) {
    let n = list.len() / (2 * shape.d as usize);
    let run = drawn_choice(seed, shape, list);
    let (table, brought) = (built(shape, list), laid(shape, list, &run));
    out.check(shape, list);
    out.independent(shape, list);
    out.build(shape, list, &unwritten(n, shape.d));
    choose(out, shape, list);
    lay(out, shape, list, &run);
    out.audit(shape, list, &table);
    out.audit(shape, list, &brought);
    out.report(shape, list, &table, seed.between(0, table[2] as u32));
    for _ in 0..headers {
        let header = drawn_header(seed, shape, list);
        out.scan(shape, list, &header);
        out.lookup(shape, list, &table, &header);
        out.lookup(shape, list, &brought, &header);
    }
    let mut damaged = if seed.once_in(2) { table } else { brought };
    damage(seed, &mut damaged, n);
    out.audit(shape, list, &damaged);
    out.report(shape, list, &damaged, seed.between(0, damaged[2] as u32));
    out.lookup(shape, list, &damaged, &drawn_header(seed, shape, list));
}

/// Lists of up to a hundred rules.
pub fn drawn(seed: &mut Seed, out: &mut Lines) {
    let (shape, list) = dated_list(seed);
    all_calls(seed, out, shape, &list, 6);
}

/// Lists of many rules, up to 1,024.
pub fn drawn_large(seed: &mut Seed, out: &mut Lines) {
    let d = seed.between(1, 8);
    let n = seed.pick(&[255, 256, 257, 512, 1000, 1023, 1024, 1024]);
    let shape = drawn_shape(seed, d);
    let list = list_for(seed, n, shape);
    all_calls(seed, out, shape, &list, 3);
}
