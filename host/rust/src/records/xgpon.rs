//! The records of the key exchange on an XG-PON line.

/// The OLT's key exchange with one ONU. It holds no keys, only their indices, 1 and 2.
#[repr(C)]
#[derive(Clone, Copy, Debug, Default, PartialEq, Eq)]
pub struct KeyExchange {
    /// 0 to 4, for KL0 to KL4.
    pub state: u8,
    /// The index of the key that was active before the exchange, 0 if there is none.
    pub oldkey: u8,
    /// The index of the key that the exchange brings, in KL4 of the active key; 0 in KL0.
    pub newkey: u8,
}

/// An [`Input`](crate::xgpon::Input) as it crosses.
#[repr(C)]
#[derive(Clone, Copy, Debug, Default, PartialEq, Eq)]
pub struct InputRecord {
    /// 1 to 9, in the order of [`Input`](crate::xgpon::Input).
    pub kind: u8,
    /// The key index that a report names; ignored with any other kind.
    pub index: u8,
}

/// A [`Message`](crate::xgpon::Message) as it crosses.
#[repr(C)]
#[derive(Clone, Copy, Debug, Default, PartialEq, Eq)]
pub struct KeyControl {
    /// 1 Generate, 2 Confirm, 0 none.
    pub kind: u8,
    pub index: u8,
}

/// A flag for each timer, 0 or 1.
#[repr(C)]
#[derive(Clone, Copy, Debug, Default, PartialEq, Eq)]
pub struct Timers {
    pub tk1: u8,
    pub tk2: u8,
    pub tk3: u8,
}

/// What a step answers.
#[repr(C)]
#[derive(Clone, Copy, Debug, Default, PartialEq, Eq)]
pub struct Answer {
    pub number: u8,
    pub exchange: KeyExchange,
    pub message: KeyControl,
    pub starts: Timers,
    pub stops: Timers,
}

/// The keys that are valid: the index of each, 0 where it is not.
#[repr(C)]
#[derive(Clone, Copy, Debug, Default, PartialEq, Eq)]
pub struct ValidKeys {
    pub number: u8,
    pub oldkey: u8,
    pub newkey: u8,
}

/// What the timers start from, in milliseconds.
#[repr(C)]
#[derive(Clone, Copy, Debug, Default, PartialEq, Eq)]
pub struct TimerStarts {
    pub tk1: u32,
    pub tk2: u32,
    pub tk3: u32,
}
