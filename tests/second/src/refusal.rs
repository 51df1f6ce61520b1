//! 01, Refusal numbers: a refusal is a number and a place of two numbers.

#[derive(Clone, Copy, Debug, PartialEq, Eq)]
pub struct Refusal {
    pub number: u32,
    pub first: usize,
    pub second: usize,
}

/// Makes the refusal of this number with place 0.
pub fn refuse(number: u32) -> Refusal {
    Refusal { number, first: 0, second: 0 }
}

/// Makes the refusal of this number at a place of two numbers, as 4 and 12 have one.
pub fn refuse_at(number: u32, first: usize, second: usize) -> Refusal {
    Refusal { number, first, second }
}
