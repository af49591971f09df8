//! An independent schedule runner, written from document 01 alone.

pub mod call;
pub mod damage;
pub mod image;
pub mod machine;
pub mod random;
pub mod report;
pub mod schedules;
pub mod states;
pub mod text;
