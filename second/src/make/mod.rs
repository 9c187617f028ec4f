//! Makers of tables and sheets from random numbers.

pub mod bad_sheets;
pub mod bad_tables;
pub mod sheets;
pub mod slow;
pub mod tables;
