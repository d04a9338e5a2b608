//! What is written: answers, and errors.

pub mod answers;
pub mod compiled;
pub mod folder;
pub mod held;
pub mod printing;
pub mod ranges;
pub mod report;
pub mod rows;
pub mod sets;
pub mod terminal;
pub mod walks;
