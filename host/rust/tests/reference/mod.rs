//! Document 01, and of document 02 what has landed, a second time, written from the papers alone, for the engine to be held against. It
//! shares no code, no table and no representation with the engine: keys are a map by number, a unit's LLIDs a list, a capture its stamps,
//! a clock that is not set is absent. `records` puts it into the records of the C boundary and reads it out of them.

pub mod aes;
pub mod capture;
pub mod class;
pub mod groups;
pub mod losses;
pub mod near;
pub mod olt;
pub mod onu;
pub mod payload;
pub mod recordings;
pub mod records;
pub mod store;

/// What a call hands over, or the number that it is refused by.
pub type Reply<T> = Result<T, u8>;

pub type Key = [u8; 16];

/// The cipher clock is counted modulo this.
pub const CLOCK: u64 = 1 << 48;

/// The last tick of an end.
pub const LAST_TICK: u64 = 1 << 62;

/// Sends under a key stop this many ticks after its first.
pub const KEY_LIFE: u64 = 1 << 48;

/// A unit's MAC and LLIDs, and any number of places for LLIDs (01, Clock; Keys).
#[derive(Clone, Debug, PartialEq, Eq)]
pub struct Identity {
    pub mac: u64,
    pub llids: Vec<u16>,
}

impl Identity {
    /// 01: MACs have 48 bits, a unit has 1 to 4 LLIDs.
    pub fn in_range(&self) -> bool {
        self.mac < CLOCK && (1..=4).contains(&self.llids.len())
    }
}

/// Whether a list names something twice.
pub fn repeats(llids: impl IntoIterator<Item = u16>) -> bool {
    let mut seen = std::collections::BTreeSet::new();
    !llids.into_iter().all(|llid| seen.insert(llid))
}

/// Refuses by `number` where a cause holds.
pub fn refuse_if(cause: bool, number: u8) -> Reply<()> {
    match cause {
        true => Err(number),
        false => Ok(()),
    }
}

/// The two channels of an end: when each was last taken, and until when (01: "keeps its channel until t + p; t + 1 + p is free").
#[derive(Clone, Debug, PartialEq, Eq)]
pub struct Channels {
    pub free_from: [u64; 2],
}

impl Channels {
    pub fn is_taken(&self, channel: u8, tick: u64) -> bool {
        tick < self.free_from[usize::from(channel & 1)]
    }

    pub fn take(&mut self, channel: u8, tick: u64, eqs: usize) {
        self.free_from[usize::from(channel & 1)] = tick + 1 + eqs as u64;
    }
}

/// An envelope as a send hands it over.
#[derive(Clone, Debug, PartialEq, Eq)]
pub struct Envelope {
    pub header: jazmotip::Header,
    pub octets: Vec<u8>,
    pub count: u64,
    pub runs: u64,
    /// The key, MAC and clock that it was sealed under.
    pub sealed_under: Option<(Key, u64, u64)>,
}

/// A payload as sealing or opening leaves it, the octets that were enciphered and the runs of the cipher (02, C-17).
#[derive(Clone, Debug, PartialEq, Eq)]
pub struct Passed {
    pub octets: Vec<u8>,
    pub count: u64,
    pub runs: u64,
}

impl Passed {
    /// A clear envelope's passes unchanged.
    pub fn clear(octets: &[u8]) -> Passed {
        Passed { octets: octets.to_vec(), count: 0, runs: 0 }
    }
}

/// The 1 of a receipt: a channel index of the wrong direction, a flag or EPAM outside its bits, EncKey 1 with EncEnabled 0.
pub fn header_out_of_range(header: &jazmotip::Header, direction: u8) -> bool {
    header.channel & 0xFE != direction
        || header.encenabled > 1
        || header.enckey > 1
        || header.epam > 63
        || (header.enckey == 1 && header.encenabled == 0)
}
