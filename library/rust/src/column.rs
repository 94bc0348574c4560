//! The words of a row: which of its [`ROW`](crate::ROW) words each is.

pub const KIND: usize = 0;
pub const SIZE: usize = 1;
pub const TLOW: usize = 2;
pub const LOW: usize = 3;
pub const HIGH: usize = 4;
pub const DETAIL: usize = 5;
pub const LINE: usize = 6;
