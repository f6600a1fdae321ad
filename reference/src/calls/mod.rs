//! The calls of 01, and of 02 the read and which hosts a set serves, each a method of the controller.

mod events;
mod read;
mod security_in;
mod security_out;
mod serves;
mod write;

pub use read::{ReadAs, ReadBlock};
pub use write::{Written, WrittenAs};
