//! The OLT's key exchange on an XG-PON line (ITU-T G.987.3, 15.5.3.2), with `Result`. The host carries the PLOAM messages and keeps
//! the three timers: it hands in each report, each expiry and each decision to begin, sends the message of the answer, and starts
//! and stops the timers that it names; starting one that runs sets it anew.
//!
//! ```
//! use jazmotip::xgpon::{Input, KeyExchange, Keys, Message};
//! # fn main() -> Result<(), jazmotip::Refusal> {
//! let mut exchange = KeyExchange::fresh();
//! let asked = exchange.step(Input::Begin)?;
//! assert_eq!(asked.message, Some(Message::Generate(1))); // and TK1 and TK2 start
//! exchange.step(Input::NewKey(1))?; // the ONU has reported its key
//! assert_eq!(exchange.sent_under()?, Keys { oldkey: None, newkey: Some(1) });
//! exchange.step(Input::BeginToSend)?; // Confirm is sent
//! exchange.step(Input::ExistingKey(1))?;
//! assert_eq!(exchange.received_under()?, Keys { oldkey: None, newkey: Some(1) });
//! # Ok(())
//! # }
//! ```

use crate::calls;
use crate::refusal::Refusal;

pub use crate::records::xgpon::*;

/// What TK1 starts from, in milliseconds.
pub const TK1_START_MS: u32 = 100;
/// What TK2 starts from, in milliseconds.
pub const TK2_START_MS: u32 = 10;
/// What TK3 starts from, in milliseconds.
pub const TK3_START_MS: u32 = 10;

/// What the OLT is handed.
#[derive(Clone, Copy, Debug, PartialEq, Eq)]
pub enum Input {
    /// Key_Report(NewKey), with the key index that it names.
    NewKey(u8),
    /// Key_Report(ExistingKey), with the key index that it names.
    ExistingKey(u8),
    Tk1Expires,
    Tk2Expires,
    Tk3Expires,
    /// Begin key exchange.
    Begin,
    /// Begin to send with the new key.
    BeginToSend,
    Rekey,
    KeyCheck,
}

impl From<Input> for InputRecord {
    fn from(input: Input) -> InputRecord {
        let (kind, index) = match input {
            Input::NewKey(index) => (1, index),
            Input::ExistingKey(index) => (2, index),
            Input::Tk1Expires => (3, 0),
            Input::Tk2Expires => (4, 0),
            Input::Tk3Expires => (5, 0),
            Input::Begin => (6, 0),
            Input::BeginToSend => (7, 0),
            Input::Rekey => (8, 0),
            Input::KeyCheck => (9, 0),
        };
        InputRecord { kind, index }
    }
}

/// A Key_Control message with its key index.
#[derive(Clone, Copy, Debug, PartialEq, Eq)]
pub enum Message {
    Generate(u8),
    Confirm(u8),
}

impl KeyControl {
    fn message(self) -> Option<Message> {
        match self.kind {
            1 => Some(Message::Generate(self.index)),
            2 => Some(Message::Confirm(self.index)),
            _ => None,
        }
    }
}

/// What an accepted step asks of the host.
#[derive(Clone, Copy, Debug, PartialEq, Eq)]
pub struct Step {
    pub message: Option<Message>,
    pub starts: Timers,
    pub stops: Timers,
}

/// The indices of the valid keys. With neither, frames go without encryption.
#[derive(Clone, Copy, Debug, PartialEq, Eq)]
pub struct Keys {
    pub oldkey: Option<u8>,
    pub newkey: Option<u8>,
}

impl ValidKeys {
    fn keys(self) -> Result<Keys, Refusal> {
        let valid = |index| (index != 0).then_some(index);
        Refusal::verdict(self.number).map(|()| Keys { oldkey: valid(self.oldkey), newkey: valid(self.newkey) })
    }
}

impl KeyExchange {
    /// KL0, without keys.
    pub fn fresh() -> KeyExchange {
        calls::xgpon_fresh()
    }

    /// Answers an input. One that the state has no move for is accepted and changes nothing.
    pub fn step(&mut self, input: Input) -> Result<Step, Refusal> {
        let answer = calls::xgpon_step(*self, input.into());
        *self = answer.exchange;
        let Answer { message, starts, stops, .. } = answer;
        Refusal::verdict(answer.number).map(|()| Step { message: message.message(), starts, stops })
    }

    /// The keys that the OLT may send under.
    pub fn sent_under(&self) -> Result<Keys, Refusal> {
        calls::xgpon_sent_under(*self).keys()
    }

    /// The keys that the OLT may receive under.
    pub fn received_under(&self) -> Result<Keys, Refusal> {
        calls::xgpon_received_under(*self).keys()
    }
}
