//! The exported calls and the machine's record, declared once for Rust; hosts/aalbrett.h says what they do.
//!
//! Nothing is linked here: a program that makes the calls links libaalbrett.a.

mod calls;
mod lent;
mod record;

pub use calls::timing_translations;
pub use calls::{aalbrett_invpcid, aalbrett_start, aalbrett_step, aalbrett_walk};
pub use lent::{invpcid, start, step, walk};
pub use record::{Machine, Place, Settings};
