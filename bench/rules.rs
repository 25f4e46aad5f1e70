//! The rules that the twins test, by their numbers and names, and where a cell's neighbours lie.

/// The rules in their order.
#[allow(dead_code)]
#[derive(Clone, Copy, PartialEq, Eq, Debug)]
pub enum Rule {
    VoidCell = 1,
    Missing,
    BadCode,
    BelowGround,
    OpenRaised,
    NoSpill,
    SpillHeight,
    SpillRank,
    NotLeast,
    Slope,
    OutletCode,
    FlatStep,
    Accumulation,
    Label,
    SharedLabel,
}

/// One more than the rows down and the columns right to the neighbours, in the order of their codes.
pub const STEPS: [(usize, usize); 8] = [
    (1, 2),
    (2, 2),
    (2, 1),
    (2, 0),
    (1, 0),
    (0, 0),
    (0, 1),
    (0, 2),
];
