//! The cases that the proved `calls` is held to, by kind: edges that are always the same, and drawn ones; and the few
//! that are stored.

pub mod characters;
pub mod choices;
pub mod lines;
mod lists;
pub mod lookup;
mod prefixes;
pub mod protocol;
mod random;
mod ranges;
pub mod shapes;
mod sorting;
mod stored;
pub mod tables;

use crate::seed::Seed;
use lines::Lines;

/// The edges of a kind, or none where the kind has none.
pub fn edges(kind: &str) -> Option<Lines> {
    let mut out = Lines::default();
    match kind {
        "ranges" => ranges::edges(&mut out),
        "prefixes" => prefixes::edges(&mut out),
        "lists" => lists::edges(&mut out),
        "sorting" => sorting::edges(&mut out),
        "choices" => choices::edges(&mut out),
        "lookup" => lookup::edges(&mut out),
        "protocol" => protocol::edges(&mut out),
        _ => return None,
    }
    Some(out)
}

/// The lines that are stored with the crate `calls`.
pub fn stored() -> Lines {
    let mut out = Lines::default();
    stored::lines(&mut out);
    out
}

/// Exactly `count` drawn lines of a kind, or none where there is no such kind.
pub fn drawn(kind: &str, seed: u64, count: usize) -> Option<Lines> {
    let draw: fn(&mut Seed, &mut Lines) = match kind {
        "ranges" => ranges::drawn,
        "prefixes" => prefixes::drawn,
        "lists" => lists::drawn,
        "sorting" => sorting::drawn,
        "choices" => choices::drawn,
        "lookup" => lookup::drawn,
        "protocol" => protocol::drawn,
        "random" => random::drawn,
        "large" => random::drawn_large,
        _ => return None,
    };
    let mut out = Lines::default();
    let mut seed = Seed::new(seed);
    while out.lines.len() < count {
        out.zeros = seed.once_in(4);
        draw(&mut seed, &mut out);
    }
    out.lines.truncate(count);
    Some(out)
}
