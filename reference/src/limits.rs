//! The numbers of document 01's table.

pub const FLOWS: i64 = 32;
pub const MAX_WEIGHT: i64 = 16;
pub const MAX_SIZE: i64 = 256;
pub const QUEUE: i64 = 8;
pub const MAX_SURPLUS: i64 = 255;
pub const MAX_MARK: i64 = 255;
pub const MAX_ALLOWANCE: i64 = 4096;

pub const STORE: usize = 65_536;
pub const OUTGOING: usize = 256;

pub const REPLAY_INPUT: usize = 65_536;
