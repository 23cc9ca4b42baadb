//! The capture reader of a whole class, with `Result` (02, C-19): who may see what.
//!
//! A user opens, sees or does not see a record by the rights on its LLID. A hidden record, also one whose LLID has no set, is written
//! as zeros but for its EQs, is listed as its number and a dash, and adds nothing to what opening took; a seen one is copied and
//! listed as `seen`. Users count from 1; [`UnknownUser`](Refusal::UnknownUser) comes before all else.
//!
//! It is proved that, among accepted calls, nothing else of a hidden record or set than LLIDs and lengths, and nothing of other users'
//! rights, changes any octet or number of what a user gets.

use crate::calls;
use crate::capture::near::Corrections;
use crate::capture::{opened, text, Opened};
use crate::refusal::Refusal;
use crate::{Caller, LISTING_OCTETS, SETTINGS_OCTETS};

/// The right to see a record's header.
pub const SEE: u8 = 1;
/// The right to open its payload, and to see the header.
pub const OPEN: u8 = 2;
/// The right to load a key; alone it shows nothing.
pub const LOAD: u8 = 4;

/// The settings of a class. How many sets and users there are is told by the lengths.
#[derive(Clone, Copy, Debug, PartialEq, Eq)]
pub struct Class<'a> {
    /// 1 to 16 sets of 41 octets as [`capture`](crate::capture) has them, one for each LLID, back to back.
    pub sets: &'a [u8],
    /// The rights of user 1 on each set in order, an octet each, then those of user 2; up to 16 users.
    pub rights: &'a [u8],
}

fn caller(sets: &[u8], rights: &[u8], user: u8) -> Caller {
    let n = sets.len() / SETTINGS_OCTETS;
    let count = |number: usize| u8::try_from(number).unwrap_or(u8::MAX);
    Caller { sets: count(n), users: count(rights.len() / n.max(1)), user }
}

impl Class<'_> {
    fn caller(&self, user: u8) -> Caller {
        caller(self.sets, self.rights, user)
    }

    /// Opens a block for a user into `output`, of its length; gives what that took. A key is expanded if it is present and the user
    /// may open its set.
    pub fn open(&self, user: u8, block: &[u8], output: &mut [u8]) -> Result<Opened, Refusal> {
        opened(calls::class_open(self.caller(user), self.sets, self.rights, block, output))
    }

    /// [`open`](Class::open) in the near way (02, C-18). Corrections add up over all LLIDs; those of hidden records don't count.
    pub fn open_near(&self, user: u8, block: &[u8], output: &mut [u8]) -> Result<(Opened, Corrections), Refusal> {
        let near = calls::class_open_near(self.caller(user), self.sets, self.rights, block, output);
        opened(near.answer).map(|opened| (opened, Corrections { smallest: near.smallest, largest: near.largest }))
    }

    /// The listing of a block for a user, as [`capture::list`](crate::capture::list) has it.
    pub fn list<'a>(&self, user: u8, block: &[u8], text: &'a mut [u8; LISTING_OCTETS]) -> &'a str {
        let length = calls::class_list(self.caller(user), self.sets, self.rights, block, text);
        self::text(&text[..length])
    }

    /// [`list`](Class::list) in the near way.
    pub fn list_near<'a>(&self, user: u8, block: &[u8], text: &'a mut [u8; LISTING_OCTETS]) -> &'a str {
        let length = calls::class_list_near(self.caller(user), self.sets, self.rights, block, text);
        self::text(&text[..length])
    }
}

/// Puts key 0 or 1, and its presence bit, into the set of an LLID, for a user who has [`LOAD`] on it; over one that is there. Nothing
/// else of the sets changes.
pub fn load(sets: &mut [u8], rights: &[u8], user: u8, llid: u16, index: u8, key: &[u8; 16]) -> Result<(), Refusal> {
    Refusal::verdict(calls::class_load(caller(sets, rights, user), sets, rights, llid, index, key))
}
