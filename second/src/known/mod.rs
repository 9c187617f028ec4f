//! Tables and date texts whose answers are known from the paper, from a source
//! document or by hand, and not from any program.

pub mod crossword;
pub mod figures;
pub mod hard;
pub mod paper;
pub mod short_dates;
