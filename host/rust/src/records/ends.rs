//! The two ends and what they are made of.

/// The key timer of a unit.
#[repr(C)]
#[derive(Clone, Copy, Debug, Default, PartialEq, Eq)]
pub struct Timer {
    /// 1 to [`MAX_INTERVAL`](crate::MAX_INTERVAL) ticks.
    pub interval: u64,
    /// Ticks since the last turn, below `interval`.
    pub count: u64,
    /// Up from a turn until the next switch.
    pub flag: u8,
}

/// Two keys: key number n is at index n mod 2.
#[repr(C)]
#[derive(Clone, Copy, Debug, Default, PartialEq, Eq)]
pub struct Slots {
    pub even: [u8; 16],
    pub odd: [u8; 16],
}

/// The first send under the key in use, by the end's own count: ticks at the OLT, at a unit [`travel`](Onu::tx_travel).
#[repr(C)]
#[derive(Clone, Copy, Debug, Default, PartialEq, Eq)]
pub struct FirstSend {
    pub noted: u8,
    pub at: u64,
}

/// The tick from which each channel is free.
#[repr(C)]
#[derive(Clone, Copy, Debug, Default, PartialEq, Eq)]
pub struct Channels {
    pub zero: u64,
    pub one: u64,
}

/// A unit's MAC, below 2^48, and its 1 to 4 LLIDs, any 16-bit codes.
#[repr(C)]
#[derive(Clone, Copy, Debug, Default, PartialEq, Eq)]
pub struct Identity {
    pub mac: u64,
    /// Places past `count` are ignored on the way in.
    pub llids: [u16; 4],
    pub count: u8,
}

/// What the OLT sends to a unit, or to a group, under.
#[repr(C)]
#[derive(Clone, Copy, Debug, Default, PartialEq, Eq)]
pub struct UnitKeys {
    pub timer: Timer,
    /// A; 0 before the first key.
    pub active: u32,
    /// O: A or A + 1.
    pub offered: u32,
    pub slots: Slots,
    pub first: FirstSend,
}

/// What the unit has shown.
#[repr(C)]
#[derive(Clone, Copy, Debug, Default, PartialEq, Eq)]
pub struct Confirmation {
    /// C: A or A - 1.
    pub confirmed: u32,
    /// Whether O was acknowledged.
    pub acknowledged: u8,
}

/// The OLT's side of a unit's clock.
#[repr(C)]
#[derive(Clone, Copy, Debug, Default, PartialEq, Eq)]
pub struct UnitClock {
    /// Round trip, ticks.
    pub trip: u64,
    pub captured: u8,
    /// The tick of the capture.
    pub tick: u64,
    pub sent: u8,
    pub acknowledged: u8,
}

/// The OLT's record of a unit.
#[repr(C)]
#[derive(Clone, Copy, Debug, Default, PartialEq, Eq)]
pub struct Unit {
    pub identity: Identity,
    pub keys: UnitKeys,
    pub confirmation: Confirmation,
    pub clock: UnitClock,
}

/// The members of a group: the places of their units, and a mark for each that acknowledged key O. A new offer clears the marks;
/// they hold nothing back.
#[repr(C)]
#[derive(Clone, Copy, Debug, Default, PartialEq, Eq)]
pub struct Members {
    pub places: [u8; 8],
    pub marks: [u8; 8],
    pub count: u8,
}

/// A group at the OLT: downstream envelopes for several units under one LLID and one key. It has no C and no clock of its own.
#[repr(C)]
#[derive(Clone, Copy, Debug, Default, PartialEq, Eq)]
pub struct Group {
    pub keys: UnitKeys,
    pub members: Members,
    pub llid: u16,
}

/// What all units and groups share at the OLT.
#[repr(C)]
#[derive(Clone, Copy, Debug, Default, PartialEq, Eq)]
pub struct Shared {
    pub mac: u64,
    /// Ticks since fresh.
    pub tick: u64,
    /// Cipher clock, below 2^48.
    pub clock: u64,
    pub channels: Channels,
}

/// The head end. Holds keys: wipe what you leave behind.
#[repr(C)]
#[derive(Clone, Copy, Debug, Default, PartialEq, Eq)]
pub struct Olt {
    pub shared: Shared,
    /// Units registered.
    pub count: u8,
    pub units: [Unit; 16],
    /// Groups registered.
    pub groupcount: u8,
    pub groups: [Group; 16],
}

/// A unit's keys, its own or those of a group.
#[repr(C)]
#[derive(Clone, Copy, Debug, Default, PartialEq, Eq)]
pub struct OnuKeys {
    /// a; 0 before the first key.
    pub active: u32,
    /// Whether key a + 1 is held.
    pub held: u8,
    pub slots: Slots,
}

/// A unit's own clocks.
#[repr(C)]
#[derive(Clone, Copy, Debug, Default, PartialEq, Eq)]
pub struct OnuClock {
    /// Whether a clock message was accepted.
    pub synced: u8,
    /// LocalTime, below 2^32, while unsynced; the Tx clock, whose low 32 bits are LocalTime, once synced.
    pub time: u64,
    /// The Rx clock; 0 while unsynced.
    pub rx: u64,
}

/// The [`travel`](Onu::tx_travel) of a unit's Tx clock.
#[repr(C)]
#[derive(Clone, Copy, Debug, Default, PartialEq, Eq)]
pub struct Travel {
    /// The sum of the signed changes of LocalTime.
    pub changes: i64,
    /// One past the last end of an enciphered send, which is its travel plus its EQs; 0 before the first.
    pub spent: u64,
    /// What `spent` was at the last change: enciphered sends wait until travel has come to it.
    pub bar: u64,
}

/// A group that a unit joined. The message of key n tells that key n - 1 is in use: a is then n - 1, held or not, and older keys
/// are forgotten.
#[repr(C)]
#[derive(Clone, Copy, Debug, Default, PartialEq, Eq)]
pub struct Joined {
    pub keys: OnuKeys,
    /// Whether key a is held.
    pub kept: u8,
    pub llid: u16,
}

/// The subscriber unit. Holds keys: wipe what you leave behind.
#[repr(C)]
#[derive(Clone, Copy, Debug, Default, PartialEq, Eq)]
pub struct Onu {
    pub identity: Identity,
    pub oltmac: u64,
    /// Ticks since fresh.
    pub tick: u64,
    pub clock: OnuClock,
    pub keys: OnuKeys,
    pub first: FirstSend,
    pub travel: Travel,
    pub channels: Channels,
    /// Groups joined.
    pub joinedcount: u8,
    pub joined: [Joined; 4],
}
