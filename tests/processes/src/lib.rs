//! The programs as processes: one run, and what it prints held against what
//! it should.

pub mod compare;
pub mod process;
