//! The refusals and their codes.

use core::fmt;

/// Why a call was refused. A refused call changes nothing: neither the end nor the output.
#[derive(Clone, Copy, Debug, PartialEq, Eq, Hash)]
pub enum Refusal {
    OutOfRange,
    UnknownLlid,
    RepeatedLlid,
    TableFull,
    ClockNotSet,
    OfferPending,
    SameKey,
    NothingOutstanding,
    NoKey,
    EpamDiffers,
    ClearEnvelope,
    ChannelTaken,
    KeyTooOld,
    BadLength,
    BadDirectory,
    CaptureTooOld,
    AtEnd,
    /// The first broken pair of a capture's directory, from 1: every pair before it is good.
    BrokenChain(u16),
    /// The same, where the pair's length does not suit the EQs of its record.
    UnsuitedLength(u16),
    GroupLlid,
    BadMember,
    RepeatedRecord,
    UnknownUser,
    NoRight,
    OtherKeyIndex,
    BadScript,
}

impl Refusal {
    /// The refusals that name no pair, in the order of their codes.
    const WITHOUT_PAIR: [Refusal; 24] = [
        Refusal::OutOfRange,
        Refusal::UnknownLlid,
        Refusal::RepeatedLlid,
        Refusal::TableFull,
        Refusal::ClockNotSet,
        Refusal::OfferPending,
        Refusal::SameKey,
        Refusal::NothingOutstanding,
        Refusal::NoKey,
        Refusal::EpamDiffers,
        Refusal::ClearEnvelope,
        Refusal::ChannelTaken,
        Refusal::KeyTooOld,
        Refusal::BadLength,
        Refusal::BadDirectory,
        Refusal::CaptureTooOld,
        Refusal::AtEnd,
        Refusal::GroupLlid,
        Refusal::BadMember,
        Refusal::RepeatedRecord,
        Refusal::UnknownUser,
        Refusal::NoRight,
        Refusal::OtherKeyIndex,
        Refusal::BadScript,
    ];

    /// The code that the engine returns for it, 1 to 26.
    pub fn number(self) -> u8 {
        match self {
            Refusal::OutOfRange => 1,
            Refusal::UnknownLlid => 2,
            Refusal::RepeatedLlid => 3,
            Refusal::TableFull => 4,
            Refusal::ClockNotSet => 5,
            Refusal::OfferPending => 6,
            Refusal::SameKey => 7,
            Refusal::NothingOutstanding => 8,
            Refusal::NoKey => 9,
            Refusal::EpamDiffers => 10,
            Refusal::ClearEnvelope => 11,
            Refusal::ChannelTaken => 12,
            Refusal::KeyTooOld => 13,
            Refusal::BadLength => 14,
            Refusal::BadDirectory => 15,
            Refusal::CaptureTooOld => 16,
            Refusal::AtEnd => 17,
            Refusal::BrokenChain(_) => 18,
            Refusal::UnsuitedLength(_) => 19,
            Refusal::GroupLlid => 20,
            Refusal::BadMember => 21,
            Refusal::RepeatedRecord => 22,
            Refusal::UnknownUser => 23,
            Refusal::NoRight => 24,
            Refusal::OtherKeyIndex => 25,
            Refusal::BadScript => 26,
        }
    }

    /// The pair of a capture's directory that it names.
    pub fn pair(self) -> Option<u16> {
        match self {
            Refusal::BrokenChain(pair) | Refusal::UnsuitedLength(pair) => Some(pair),
            _ => None,
        }
    }

    /// The engine's code as a result: 0 is acceptance.
    pub(crate) fn verdict(number: u8) -> Result<(), Refusal> {
        Refusal::block_verdict(number, 0)
    }

    /// The same for a call on a capture block, which answers with the broken pair too.
    pub(crate) fn block_verdict(number: u8, pair: u16) -> Result<(), Refusal> {
        match number {
            0 => Ok(()),
            18 => Err(Refusal::BrokenChain(pair)),
            19 => Err(Refusal::UnsuitedLength(pair)),
            n => Err(*Refusal::WITHOUT_PAIR.iter().find(|refusal| refusal.number() == n).expect("a number of the table")),
        }
    }
}

impl fmt::Display for Refusal {
    fn fmt(&self, f: &mut fmt::Formatter<'_>) -> fmt::Result {
        let cause = match self {
            Refusal::OutOfRange => "a value outside its range",
            Refusal::UnknownLlid => "LLID not registered",
            Refusal::RepeatedLlid => "LLID already registered or joined, or twice in one call",
            Refusal::TableFull => "seventeenth unit or group, or a unit's fifth group",
            Refusal::ClockNotSet => "clock not set or not acknowledged",
            Refusal::OfferPending => "an offer is under way, or the last key is not confirmed",
            Refusal::SameKey => "the offered key is the active one",
            Refusal::NothingOutstanding => "nothing outstanding that it fits",
            Refusal::NoKey => "no key for that index",
            Refusal::EpamDiffers => "EPAM differs",
            Refusal::ClearEnvelope => "clear envelope after the first confirmed or active key",
            Refusal::ChannelTaken => "channel still taken",
            Refusal::KeyTooOld => "key 2^48 ticks old, at a unit of travel",
            Refusal::BadLength => "bad length of payload, output or settings",
            Refusal::BadDirectory => "capture directory bad",
            Refusal::CaptureTooOld => "clock capture older than a second",
            Refusal::AtEnd => "tick, key number or sum of changes at its end",
            Refusal::BrokenChain(_) => "pair off the chain of offsets",
            Refusal::UnsuitedLength(_) => "length does not suit the record's EQs",
            Refusal::GroupLlid => "a unit sends, or the OLT receives, on a group's LLID",
            Refusal::BadMember => "a ninth, repeated or unregistered member",
            Refusal::RepeatedRecord => "two records of one block agree in channel index, LLID and clock",
            Refusal::UnknownUser => "the user's number is 0 or above their count",
            Refusal::NoRight => "a key loaded without the right to, or for an LLID outside the settings",
            Refusal::OtherKeyIndex => "a report names a key index other than the awaited one",
            Refusal::BadScript => "more than 64 steps, or a step that is unknown or not whole",
        };
        write!(f, "refused {}", self.number())?;
        if let Some(pair) = self.pair() {
            write!(f, " {pair}")?;
        }
        write!(f, ": {cause}")
    }
}

impl core::error::Error for Refusal {}
