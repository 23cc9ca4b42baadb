//! Drawn classes: sets, rights, the user who asks, and a block.

use crate::captures::blocks::{block, record};
use crate::random::Random;
use jazmotip::Caller;

#[derive(Clone, Debug)]
pub struct Drawn {
    pub caller: Caller,
    pub sets: Vec<u8>,
    pub rights: Vec<u8>,
    pub records: Vec<Vec<u8>>,
}

impl Drawn {
    pub fn block(&self) -> Vec<u8> {
        block(&self.records)
    }

    /// The rights of the user who asks on the LLID of these two octets.
    pub fn right_on(&self, llid: &[u8]) -> u8 {
        let own = &self.rights[usize::from(self.caller.sets) * usize::from(self.caller.user - 1)..];
        let found = self.sets.chunks(41).position(|set| set[39..] == *llid);
        found.map_or(0, |j| own[j])
    }

    pub fn sees(&self, llid: &[u8]) -> bool {
        self.right_on(llid) & 3 != 0
    }
}

/// A set with the keys that `presence` names.
pub fn set(random: &mut Random, presence: u8, llid: u16) -> Vec<u8> {
    [vec![presence], random.octets(38), llid.to_be_bytes().to_vec()].concat()
}

/// A sound class, and records that mostly are of its LLIDs. Clocks slip by a few ticks now and then, for the near way.
pub fn drawn(random: &mut Random) -> Drawn {
    let sets = random.pick(&[1, 2, 3, 5, 16]);
    let users = random.pick(&[1, 2, 3, 16]);
    let first = random.pick(&[0, 5, 0xFFF0]);
    let caller = Caller { sets, users, user: random.within(1, u64::from(users)) as u8 };
    let all: Vec<Vec<u8>> = (0..sets)
        .map(|j| {
            let presence = random.below(4) as u8;
            set(random, presence, first + u16::from(j))
        })
        .collect();
    let rights = (0..u16::from(sets) * u16::from(users)).map(|_| random.below(8) as u8).collect();
    let records = (0..random.pick(&[0, 1, 2, 8, 30]))
        .map(|_| {
            let of = random.below(u64::from(sets)) as usize;
            let eqs = random.below(8) as usize;
            let mut octets = record(random, &all[of], eqs);
            if random.once_in(3) {
                octets[11] = octets[11].wrapping_add(random.below(40) as u8);
            }
            octets
        })
        .collect();
    Drawn { caller, sets: all.concat(), rights, records }
}

/// Another class and block that differ from these only in what the user who asks may not see: presence, keys and MAC of hidden sets,
/// all of hidden records but LLID and length, and other users' rights.
pub fn alike(random: &mut Random, given: &Drawn) -> Drawn {
    let mut other = given.clone();
    for set in other.sets.chunks_mut(41).filter(|set| !given.sees(&set[39..])) {
        random.fill(&mut set[..39]);
        set[0] &= 3;
    }
    let n = usize::from(given.caller.sets);
    for (user, rights) in (1..).zip(other.rights.chunks_mut(n)) {
        if user != given.caller.user {
            random.fill(rights);
            rights.iter_mut().for_each(|right| *right &= 7);
        }
    }
    for record in other.records.iter_mut().filter(|record| !given.sees(&record[2..4])) {
        random.fill(&mut record[..2]);
        random.fill(&mut record[4..12]);
        random.fill(&mut record[16..]);
    }
    other
}
