//! 01, Lists and headers: a range of one field, and the range test; 02, W2: the same test with the ends told apart; 02,
//! W8: ranges of dates, of which the due day is no valid one.

/// The numbers low to high, both counted; none where low > high. Of a date field the numbers from low to before high;
/// none where low ≥ high.
#[derive(Clone, Copy, Debug, PartialEq, Eq)]
pub struct Range {
    pub low: u32,
    pub high: u32,
    pub date: bool,
}

/// A range holds a number when low ≤ number ≤ high; of dates when low ≤ number < high.
pub fn holds(range: Range, number: u32) -> bool {
    if range.date {
        return range.low <= number && number < range.high;
    }
    range.low <= number && number <= range.high
}

/// A range that a check refuses: low > high; of dates low equal to high too.
pub fn is_void(range: Range) -> bool {
    range.low > range.high || range.date && range.low == range.high
}

#[derive(Clone, Copy, Debug, PartialEq, Eq)]
pub enum Side {
    Below,
    Above,
    Inside,
}

/// Tests a number, in 01's order: below, above, inside. On its due day a date is above.
/// Reading 2: the same order where low > high, so of 5-3 the number 4 is below and 5 is above.
pub fn side_of(range: Range, number: u32) -> Side {
    if number < range.low {
        return Side::Below;
    }
    if number > range.high || range.date && number == range.high {
        return Side::Above;
    }
    Side::Inside
}

#[derive(Clone, Copy, Debug, PartialEq, Eq)]
pub enum Spot {
    Below,
    Low,
    Between,
    High,
    Both,
    Above,
}

/// The high end of a range that holds a number: high; of dates high - 1, and such a high is not 0.
pub fn high_end(range: Range) -> u32 {
    if range.date {
        return range.high - 1;
    }
    range.high
}

/// Tests a number against both ends: below, above, at both ends, at the low one, at the high one, strictly between.
/// Reading 2 holds here too.
pub fn spot_of(range: Range, number: u32) -> Spot {
    if range.low > number {
        Spot::Below
    } else if range.high < number || range.date && range.high == number {
        Spot::Above
    } else if range.low == number && number == high_end(range) {
        Spot::Both
    } else if range.low == number {
        Spot::Low
    } else if high_end(range) == number {
        Spot::High
    } else {
        Spot::Between
    }
}
