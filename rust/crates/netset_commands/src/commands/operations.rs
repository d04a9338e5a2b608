//! What is made of lists.

use cidr_lists::sets::{Form, Step};

/// What is made of the addresses of lists.
#[derive(Clone, Copy, PartialEq)]
pub enum Operation {
    /// The addresses of all lists.
    Merge,
    /// Those of the first list that no other has.
    Minus,
    /// Those that each list has.
    And,
    /// Those of each family that no list has.
    Not,
    /// The addresses of all lists, as ranges.
    Ranges,
    /// The number of the addresses of all lists.
    Count,
}

/// Whether it has the addresses that are not there after all steps.
#[inline]
pub fn turns(operation: Operation) -> bool {
    operation == Operation::Not
}

/// How it writes the addresses.
#[inline]
pub fn form_of(operation: Operation) -> Form {
    match operation {
        Operation::Ranges => Form::Ranges,
        Operation::Count => Form::Counts,
        _ => Form::Networks,
    }
}

/// What each list after the first does.
#[inline]
pub fn step_of(operation: Operation) -> Step {
    match operation {
        Operation::Merge | Operation::Not | Operation::Ranges | Operation::Count => Step::Union,
        Operation::Minus => Step::Difference,
        Operation::And => Step::Intersection,
    }
}
