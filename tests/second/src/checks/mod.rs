//! The second program's own checks: it is held to 01 by hand-worked cases and by properties, and to no other program.

mod choices;
mod coverage;
mod dates;
mod least;
mod marks;
mod properties;
mod readings;
mod stored;
