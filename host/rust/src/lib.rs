//! The Jazmotip link engine for firmware in Rust: sealed SIEPON.4 envelopes (AES-128 in counter mode under the control mask),
//! both ends of a 25G/50G EPON line, the capture reader, also for a whole [`class`], payloads rearranged for the store ([`store`]),
//! and the OLT's key exchange of an XG-PON line ([`xgpon`]). The engine is `libjazmotip.a`, proved in Rattle; this crate declares it,
//! checks at build time that its records are laid out alike, and gives it a face with slices and `Result`. It needs no `std`, no heap
//! and no other crate.
//!
//! ```
//! use jazmotip::{Identity, Olt, Onu};
//! # fn main() -> Result<(), jazmotip::Refusal> {
//! let unit = Identity::new(0x020000000002, &[5]);
//! let mut olt = Olt::fresh(0x020000000001, 0x41)?;
//! let mut onu = Onu::fresh(unit, 0x020000000001, 0x41)?; // LocalTime: the OLT's clock plus the delay up, here 0
//! olt.register(unit, 0, 1000)?; // round trip 0, a new key each 1000 ticks
//! olt.capture(5)?;
//! let set = onu.clock_message(olt.clock_send(5)?)?;
//! olt.acknowledge(5, set)?;
//! let taken = onu.key_message(olt.offer(5, &[7; 16])?)?; // a real key comes from a random source
//! olt.acknowledge(5, taken)?;
//! olt.advance(1000)?;
//! onu.advance(1000)?;
//! let (payload, mut sealed, mut opened) = (*b"\0to unit5", [0; 9], [0; 9]); // one EQ: a control octet, eight data octets
//! let sent = olt.send(5, 0x00, &payload, &mut sealed)?;
//! let got = onu.receive(sent.header, &sealed, &mut opened)?;
//! assert_eq!((got.count, got.runs), (8, 1)); // octets deciphered, runs of the cipher
//! assert_eq!((sent.header.encenabled, sent.header.enckey, opened), (1, 1, payload));
//! # Ok(())
//! # }
//! ```
//!
//! Whatever is malformed, untimely, unknown or too long is refused with a code, and a refusal changes nothing. Messages,
//! acknowledgements and envelopes are plain values; carrying them over the line is the host's work, and so is telling every end how
//! many ticks have passed. An envelope is handed to its receiver at the tick at which it arrives, its delay after the send: at
//! another tick a sealed one is refused ([`EpamDiffers`](Refusal::EpamDiffers)) or, a multiple of 64 ticks off, opened to noise. An
//! end is `Copy` so that it can cross to C and be kept over a restart: never send twice from one copy, since that uses a counter
//! block twice.
//!
//! [`calls`] has every function of the C header with its record as it crosses; [`raw`] the declarations.

#![no_std]

pub mod calls;
pub mod capture;
pub mod class;
mod ends;
pub mod exercises;
pub mod raw;
pub mod recordings;
mod records;
mod refusal;
pub mod store;
pub mod xgpon;

pub use ends::{Sent, Work};
pub use records::*;
pub use refusal::Refusal;

/// Octets of an EQ: a control octet and eight data octets.
pub const EQ_OCTETS: usize = 9;
/// EQs of a payload, at most.
pub const MAX_EQS: usize = 4_194_303;
/// Units and groups of an OLT together, at most.
pub const UNITS: usize = 16;
/// LLIDs of a unit, at most; at least 1.
pub const LLIDS: usize = 4;
/// Members of a group, at most; at least 1.
pub const MEMBERS: usize = 8;
/// Groups that a unit joins, at most.
pub const JOINED: usize = 4;
/// Ticks of a second. A clock capture may be sent up to then.
pub const SECOND: u64 = 390_625_000;
/// Ticks of a round trip, at most.
pub const MAX_TRIP: u64 = 1_000_000;
/// Ticks by which a unit's LocalTime changes, at most, either way.
pub const MAX_TIME_CHANGE: u64 = 1_000_000;
/// Ticks that the changes of a unit's LocalTime add up to, at most, either way.
pub const MAX_CHANGES: i64 = 1 << 61;
/// Ticks of a key timer's interval, at most; at least 1.
pub const MAX_INTERVAL: u64 = 1 << 47;
/// Ticks that an end counts, at most.
pub const MAX_TICK: u64 = 1 << 62;
/// Clocks and MACs are below this.
pub const CLOCK_TURN: u64 = 1 << 48;
/// LocalTime is below this.
pub const LOCAL_TURN: u64 = 1 << 32;
/// Octets of the capture reader's settings.
pub const SETTINGS_OCTETS: usize = 41;
/// Octets of a capture block, at most.
pub const BLOCK_OCTETS: usize = 65_536;
/// Records of a capture block, at most.
pub const RECORDS: usize = 256;
/// Sets of a class, at most; at least 1.
pub const SETS: usize = 16;
/// Users of a class, at most.
pub const USERS: usize = 16;
/// Octets of the output that comparing two blocks needs, one for each entry.
pub const ENTRIES: usize = 512;
/// The room that a listing needs.
pub const LISTING_OCTETS: usize = 10_266;
