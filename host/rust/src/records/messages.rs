//! What goes over the line besides payloads, and what the calls of the ends answer.

use super::{Olt, Onu};

/// A clock message: the OLT's clock at the capture, and that clock plus the round trip.
#[repr(C)]
#[derive(Clone, Copy, Debug, Default, PartialEq, Eq)]
pub struct Stamps {
    pub rx: u64,
    pub tx: u64,
}

/// A key message.
#[repr(C)]
#[derive(Clone, Copy, Debug, Default, PartialEq, Eq)]
pub struct KeyMessage {
    pub llid: u16,
    pub number: u32,
    pub key: [u8; 16],
}

/// What a unit answers; to a group's key message, also who it is.
#[repr(C)]
#[derive(Clone, Copy, Debug, Default, PartialEq, Eq)]
pub struct Acknowledgement {
    /// 1 to a clock message, 2 to a key message, 0 none.
    pub kind: u8,
    /// 1 if `unit` names the unit, for a group; 0, with `unit` 0, for the unit's own.
    pub named: u8,
    /// An LLID of the unit's own; a unit names itself by its first.
    pub unit: u16,
    /// The key's number, 0 to a clock message.
    pub number: u32,
}

/// The members that a group's registration names, each by any LLID of its unit.
#[repr(C)]
#[derive(Clone, Copy, Debug, Default, PartialEq, Eq)]
pub struct Roster {
    /// Places past `count` are ignored.
    pub llids: [u16; 8],
    pub count: u8,
}

/// An envelope's header, start (ESH) or continuation (ECH).
#[repr(C)]
#[derive(Clone, Copy, Debug, Default, PartialEq, Eq)]
pub struct Header {
    /// Channel index: 00, 01 downstream, 80, 81 hex upstream.
    pub channel: u8,
    pub llid: u16,
    pub encenabled: u8,
    /// The key's number mod 2.
    pub enckey: u8,
    /// The low six bits of the sender's clock.
    pub epam: u8,
}

#[repr(C)]
#[derive(Clone, Copy, Debug, Default, PartialEq, Eq)]
pub struct OltAnswer {
    pub number: u8,
    pub olt: Olt,
}

#[repr(C)]
#[derive(Clone, Copy, Debug, Default, PartialEq, Eq)]
pub struct ClockSent {
    pub number: u8,
    pub olt: Olt,
    pub message: Stamps,
}

#[repr(C)]
#[derive(Clone, Copy, Debug, Default, PartialEq, Eq)]
pub struct KeySent {
    pub number: u8,
    pub olt: Olt,
    pub message: KeyMessage,
}

#[repr(C)]
#[derive(Clone, Copy, Debug, Default, PartialEq, Eq)]
pub struct OltSent {
    pub number: u8,
    pub olt: Olt,
    pub header: Header,
    /// Octets enciphered; 0 for a clear envelope and on refusal.
    pub count: u64,
    /// Runs of the cipher; 0 for a clear envelope and on refusal.
    pub runs: u64,
}

#[repr(C)]
#[derive(Clone, Copy, Debug, Default, PartialEq, Eq)]
pub struct OltReceived {
    pub number: u8,
    pub olt: Olt,
    /// Octets deciphered; 0 for a clear envelope and on refusal.
    pub count: u64,
    /// Runs of the cipher; 0 for a clear envelope and on refusal.
    pub runs: u64,
}

#[repr(C)]
#[derive(Clone, Copy, Debug, Default, PartialEq, Eq)]
pub struct OnuAnswer {
    pub number: u8,
    pub onu: Onu,
}

#[repr(C)]
#[derive(Clone, Copy, Debug, Default, PartialEq, Eq)]
pub struct OnuAcknowledged {
    pub number: u8,
    pub onu: Onu,
    pub acknowledgement: Acknowledgement,
}

#[repr(C)]
#[derive(Clone, Copy, Debug, Default, PartialEq, Eq)]
pub struct OnuSent {
    pub number: u8,
    pub onu: Onu,
    pub header: Header,
    /// Octets enciphered; 0 for a clear envelope and on refusal.
    pub count: u64,
    /// Runs of the cipher; 0 for a clear envelope and on refusal.
    pub runs: u64,
}

#[repr(C)]
#[derive(Clone, Copy, Debug, Default, PartialEq, Eq)]
pub struct OnuReceived {
    pub number: u8,
    pub onu: Onu,
    /// Octets deciphered; 0 for a clear envelope and on refusal.
    pub count: u64,
    /// Runs of the cipher; 0 for a clear envelope and on refusal.
    pub runs: u64,
}
