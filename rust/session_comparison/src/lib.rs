//! Whole sessions at scale: Curlewstand's `session::Session` beside the
//! original, bit by bit, from a seed for as long as asked. A session on which
//! the two part is made as small as it can be and printed.

pub mod arguments;
#[cfg(source_at_hand)]
pub mod cohorts;
pub mod counts;
#[cfg(source_at_hand)]
pub mod difference;
#[cfg(source_at_hand)]
pub mod draws;
#[cfg(source_at_hand)]
pub mod expected;
#[cfg(source_at_hand)]
pub mod ours;
#[cfg(source_at_hand)]
pub mod pair;
#[cfg(source_at_hand)]
pub mod report;
#[cfg(source_at_hand)]
pub mod run;
#[cfg(source_at_hand)]
pub mod said;
#[cfg(source_at_hand)]
pub mod shown;
#[cfg(source_at_hand)]
pub mod shrink;
