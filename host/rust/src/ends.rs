//! Both ends of the line with `Result`: an accepted call moves the end on in place, a refused one leaves it as it was.

use crate::calls;
use crate::records::*;
use crate::refusal::Refusal;

/// An envelope that a send handed over; its octets are in the output.
#[derive(Clone, Copy, Debug, PartialEq, Eq)]
pub struct Sent {
    pub header: Header,
    /// Octets enciphered, 0 for a clear envelope.
    pub count: u64,
    /// Runs of the cipher: the blocks of two EQs, or a last one of one, with an octet to encipher; 0 for a clear envelope.
    pub runs: u64,
}

/// What sealing or opening a payload took.
#[derive(Clone, Copy, Debug, PartialEq, Eq)]
pub struct Work {
    /// Octets enciphered or deciphered, 0 for a clear envelope.
    pub count: u64,
    /// Runs of the cipher, as many to open an envelope as it took to seal it; 0 for a clear one.
    pub runs: u64,
}

impl Identity {
    /// A unit's MAC and its LLIDs. More than four LLIDs keep their count, which the engine refuses as out of range.
    pub fn new(mac: u64, llids: &[u16]) -> Identity {
        let mut places = [0; 4];
        places.iter_mut().zip(llids).for_each(|(place, llid)| *place = *llid);
        Identity { mac, llids: places, count: u8::try_from(llids.len()).unwrap_or(u8::MAX) }
    }
}

impl Roster {
    /// The members of a group, each by any LLID of its unit. More than eight keep their count, which the engine refuses by 21.
    pub fn new(llids: &[u16]) -> Roster {
        let mut places = [0; 8];
        places.iter_mut().zip(llids).for_each(|(place, llid)| *place = *llid);
        Roster { llids: places, count: u8::try_from(llids.len()).unwrap_or(u8::MAX) }
    }
}

impl Olt {
    /// A head end with no units and no groups: its MAC and first clock, both below 2^48.
    pub fn fresh(mac: u64, clock: u64) -> Result<Olt, Refusal> {
        let answer = calls::olt_fresh(mac, clock);
        Refusal::verdict(answer.number).map(|()| answer.olt)
    }

    /// Registers a unit: who it is, its round trip (delay up plus delay down, up to 1,000,000 ticks) and the interval of its key
    /// timer.
    pub fn register(&mut self, identity: Identity, trip: u64, interval: u64) -> Result<(), Refusal> {
        let answer = calls::olt_register(*self, identity, trip, interval);
        *self = answer.olt;
        Refusal::verdict(answer.number)
    }

    /// Registers a group: its LLID, the interval of its key timer, and its 1 to 8 members, which stay.
    pub fn register_group(&mut self, llid: u16, interval: u64, members: &[u16]) -> Result<(), Refusal> {
        let answer = calls::olt_register_group(*self, llid, interval, Roster::new(members));
        *self = answer.olt;
        Refusal::verdict(answer.number)
    }

    /// Moves ticks, clock and timers on by `n`.
    pub fn advance(&mut self, n: u64) -> Result<(), Refusal> {
        Refusal::verdict(calls::olt_advance(self, n))
    }

    /// Captures the clock for a unit, named by any of its LLIDs.
    pub fn capture(&mut self, llid: u16) -> Result<(), Refusal> {
        let answer = calls::olt_capture(*self, llid);
        *self = answer.olt;
        Refusal::verdict(answer.number)
    }

    /// Gives a unit a new round trip, where its path changed, at the tick of [`Onu::new_time`]: enciphered sends to it are refused
    /// until a new clock message is acknowledged.
    pub fn measure(&mut self, llid: u16, trip: u64) -> Result<(), Refusal> {
        let answer = calls::olt_measure(*self, llid, trip);
        *self = answer.olt;
        Refusal::verdict(answer.number)
    }

    /// Hands over the clock message of the capture, any number of times within a second.
    pub fn clock_send(&mut self, llid: u16) -> Result<Stamps, Refusal> {
        let answer = calls::olt_clock_send(*self, llid);
        *self = answer.olt;
        Refusal::verdict(answer.number).map(|()| answer.message)
    }

    /// Offers a new key, from a good random source, and hands over its message. A group's needs the clock of every member
    /// acknowledged, and may follow the switch at once.
    pub fn offer(&mut self, llid: u16, key: &[u8; 16]) -> Result<KeyMessage, Refusal> {
        let answer = calls::olt_offer(*self, llid, key);
        *self = answer.olt;
        Refusal::verdict(answer.number).map(|()| answer.message)
    }

    /// Hands over the key message of the outstanding offer again.
    pub fn retry(&mut self, llid: u16) -> Result<KeyMessage, Refusal> {
        let answer = calls::olt_retry(*self, llid);
        *self = answer.olt;
        Refusal::verdict(answer.number).map(|()| answer.message)
    }

    /// Takes in a unit's acknowledgement, under an LLID of its own or, for a group's key, under the group's.
    pub fn acknowledge(&mut self, llid: u16, acknowledgement: Acknowledgement) -> Result<(), Refusal> {
        let answer = calls::olt_acknowledge(*self, llid, acknowledgement);
        *self = answer.olt;
        Refusal::verdict(answer.number)
    }

    /// Seals a payload for a unit or a group into `output`, of the same length. Index 00 or 01 hex. With the timer's flag up and
    /// the offer acknowledged this is the envelope that switches keys; a group's switches acknowledged or not.
    pub fn send(&mut self, llid: u16, channel: u8, payload: &[u8], output: &mut [u8]) -> Result<Sent, Refusal> {
        let answer = calls::olt_send(*self, llid, channel, payload, output);
        *self = answer.olt;
        Refusal::verdict(answer.number).map(|()| Sent { header: answer.header, count: answer.count, runs: answer.runs })
    }

    /// Opens an envelope from a unit into `output`, of the same length, at the tick at which it arrives; gives what that took.
    pub fn receive(&mut self, header: Header, octets: &[u8], output: &mut [u8]) -> Result<Work, Refusal> {
        let answer = calls::olt_receive(*self, header, octets, output);
        *self = answer.olt;
        Refusal::verdict(answer.number).map(|()| Work { count: answer.count, runs: answer.runs })
    }
}

impl Onu {
    /// A unit that is not synced yet: who it is, the OLT's MAC and LocalTime, the low 32 bits of the OLT's clock plus the delay up.
    pub fn fresh(identity: Identity, oltmac: u64, time: u64) -> Result<Onu, Refusal> {
        let answer = calls::onu_fresh(identity, oltmac, time);
        Refusal::verdict(answer.number).map(|()| answer.onu)
    }

    /// Joins a group by its LLID. What is promised to a member counts from here.
    pub fn join(&mut self, llid: u16) -> Result<(), Refusal> {
        let answer = calls::onu_join(*self, llid);
        *self = answer.onu;
        Refusal::verdict(answer.number)
    }

    /// Moves ticks and clocks on by `n`.
    pub fn advance(&mut self, n: u64) -> Result<(), Refusal> {
        Refusal::verdict(calls::onu_advance(self, n))
    }

    /// Gives the unit its new LocalTime, where its path changed, at the tick of [`Olt::measure`]: the low 32 bits of the OLT's
    /// clock plus the new delay up. It is unsynced until the next clock message, and seals again once its Tx clock has travelled
    /// past the end of each envelope that it sealed before.
    pub fn new_time(&mut self, time: u64) -> Result<(), Refusal> {
        let answer = calls::onu_new_time(*self, time);
        *self = answer.onu;
        Refusal::verdict(answer.number)
    }

    /// The travel of the Tx clock: ticks and changes of LocalTime, from 2^61 below zero, as `first` and `travel` count it.
    pub fn tx_travel(&self) -> u64 {
        self.tick.wrapping_add_signed(self.travel.changes).wrapping_add_signed(crate::MAX_CHANGES)
    }

    /// Sets the clocks by a clock message and hands over the acknowledgement.
    pub fn clock_message(&mut self, message: Stamps) -> Result<Acknowledgement, Refusal> {
        let answer = calls::onu_clock_message(*self, message);
        *self = answer.onu;
        Refusal::verdict(answer.number).map(|()| answer.acknowledgement)
    }

    /// Takes a key message, its own or of a group that it joined, and hands over the acknowledgement. Of a group any key number
    /// above those that it holds is taken.
    pub fn key_message(&mut self, message: KeyMessage) -> Result<Acknowledgement, Refusal> {
        let answer = calls::onu_key_message(*self, message);
        *self = answer.onu;
        Refusal::verdict(answer.number).map(|()| answer.acknowledgement)
    }

    /// Seals a payload for the head end into `output`, of the same length. Index 80 or 81 hex.
    pub fn send(&mut self, llid: u16, channel: u8, payload: &[u8], output: &mut [u8]) -> Result<Sent, Refusal> {
        let answer = calls::onu_send(*self, llid, channel, payload, output);
        *self = answer.onu;
        Refusal::verdict(answer.number).map(|()| Sent { header: answer.header, count: answer.count, runs: answer.runs })
    }

    /// Opens an envelope from the head end, for the unit or for a group that it joined, into `output`, of the same length, at the
    /// tick at which it arrives; gives what that took. An envelope under the next key makes that key the active one.
    pub fn receive(&mut self, header: Header, octets: &[u8], output: &mut [u8]) -> Result<Work, Refusal> {
        let answer = calls::onu_receive(*self, header, octets, output);
        *self = answer.onu;
        Refusal::verdict(answer.number).map(|()| Work { count: answer.count, runs: answer.runs })
    }
}

/// For a host that keeps clocks and keys itself.
impl RoundKeys {
    pub fn expand(key: &[u8; 16]) -> RoundKeys {
        calls::expand_key(key)
    }

    /// Seals `input` into `output`, of the same length, or opens it: the two are one act. Gives what that took.
    pub fn seal(&self, nonce: Nonce, input: &[u8], output: &mut [u8]) -> Result<Work, Refusal> {
        let answer = calls::seal_expanded(1, *self, nonce, input, output);
        Refusal::verdict(answer.number).map(|()| Work { count: answer.count, runs: answer.runs })
    }

    /// The same with the payload as input and output.
    pub fn seal_in_place(&self, nonce: Nonce, payload: &mut [u8]) -> Result<Work, Refusal> {
        let answer = calls::seal_expanded_in_place(1, *self, nonce, payload);
        Refusal::verdict(answer.number).map(|()| Work { count: answer.count, runs: answer.runs })
    }
}
