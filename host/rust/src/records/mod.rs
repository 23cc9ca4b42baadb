//! The records of the C boundary, field by field as in `host/include/jazmotip.h`, with their layout checked by the compiler.
//!
//! A flag is 0 or 1. A place that is not in use holds zeros. Read any field; an end whose fields break the rules is refused with 1
//! by every call.

mod ends;
mod layout;
mod messages;
mod payloads;
pub(crate) mod xgpon;

pub use ends::*;
pub use messages::*;
pub use payloads::*;
