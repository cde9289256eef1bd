//! Document 01 and Papers 1 to 6 of document 02 read a second time, from the papers alone: the store, the call fields and the replay, and the
//! random lists that compare them with other programs. Nothing here is shared with the proved crates.

pub mod arbitrary;
pub mod boundary;
pub mod caps;
pub mod field;
pub mod generate;
pub mod holds;
pub mod lent;
pub mod loads;
pub mod logs;
pub mod look_ups;
pub mod many_reads;
pub mod options;
pub mod own_caps;
pub mod random;
pub mod replay;
pub mod runs;
pub mod store;
pub mod tally;
pub mod waits;
pub mod within_caps;
pub mod written_back;

#[cfg(feature = "plain")]
pub mod plain;
