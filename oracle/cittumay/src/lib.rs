//! The proved guide for Rust: the calls of the original under their names, each answering a
//! `Refusal` where one of document 01's questions says no. Nothing is allocated; the state is in the
//! struct, the breadcrumb and the line are lent.
#![no_std]
pub mod door;
mod guide;
mod homing;
mod rebuild;
mod thin;

pub use guide::{Event, Guide, Mode};
pub use homing::{Ahead, Homing};
pub use rebuild::Rebuild;
pub use thin::{Thinned, thin};

/// Words and numbers of a guide's state, words of a rebuild's, and numbers of a guide.
pub const WORDS: usize = 45;
pub const NUMBERS: usize = 110;
pub const REBUILD_WORDS: usize = 7;
pub const GUIDE: usize = 10;

/// Numbers of a crumb: east, north, along.
pub const STRIDE: usize = 3;

/// The number of the question that refused a call, which changed nothing.
#[derive(Clone, Copy, Debug, PartialEq, Eq)]
pub struct Refusal(pub u8);

/// What the door answers: 0 where the call was taken.
fn taken<T>(number: u8, value: T) -> Result<T, Refusal> {
    if number == 0 { Ok(value) } else { Err(Refusal(number)) }
}
