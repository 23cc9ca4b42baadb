//! Groups (02, C-14): what the OLT keeps of one, and what a unit keeps of one that it joined. Written from that request and its
//! readings alone.

use super::*;
use jazmotip::{Acknowledgement, Header, KeyMessage};
use std::collections::BTreeMap;

/// A member: the place of its unit among the OLT's, and whether it acknowledged the offer.
#[derive(Clone, Debug, PartialEq, Eq)]
pub struct Member {
    pub unit: usize,
    pub acknowledged: bool,
}

#[derive(Clone, Debug, PartialEq, Eq)]
pub struct Group {
    pub llid: u16,
    pub members: Vec<Member>,
    pub interval: u64,
    pub count: u64,
    pub flag: bool,
    /// A and O; there is no C.
    pub active: u64,
    pub offered: u64,
    /// The keys of A and O.
    pub keys: BTreeMap<u64, Key>,
    pub first_send: Option<u64>,
}

impl Group {
    pub fn fresh(llid: u16, interval: u64, units: impl Iterator<Item = usize>) -> Group {
        Group {
            llid,
            members: units.map(|unit| Member { unit, acknowledged: false }).collect(),
            interval,
            count: 0,
            flag: false,
            active: 0,
            offered: 0,
            keys: BTreeMap::new(),
            first_send: None,
        }
    }

    pub fn advance(&mut self, n: u64) {
        let count = self.count + n;
        self.flag |= count >= self.interval;
        self.count = count % self.interval;
    }

    /// 5 is the OLT's to say, which knows the members' clocks; then 6, 7, 17.
    pub fn offer(&mut self, key: &Key) -> Reply<KeyMessage> {
        refuse_if(self.offered > self.active, 6)?;
        refuse_if(self.active >= 1 && self.keys[&self.active] == *key, 7)?;
        refuse_if(self.active == u64::from(u32::MAX), 17)?;
        self.offered = self.active + 1;
        self.keys.insert(self.offered, *key);
        self.members.iter_mut().for_each(|member| member.acknowledged = false);
        Ok(KeyMessage { llid: self.llid, number: self.offered as u32, key: *key })
    }

    pub fn retry(&self) -> Reply<KeyMessage> {
        refuse_if(self.offered == self.active, 8)?;
        Ok(KeyMessage { llid: self.llid, number: self.offered as u32, key: self.keys[&self.offered] })
    }

    /// `named` is the place of the unit that is named, if it is one.
    pub fn acknowledge(&mut self, acknowledgement: Acknowledgement, named: Option<usize>) -> Reply<()> {
        refuse_if(acknowledgement.kind == 1, 2)?;
        let fits = acknowledgement.kind == 2 && self.offered >= 1 && u64::from(acknowledgement.number) == self.offered;
        let member = self.members.iter_mut().find(|member| Some(member.unit) == named);
        let member = member.filter(|_| fits).ok_or(8)?;
        member.acknowledged = true;
        Ok(())
    }

    /// Whether the next accepted send switches: acknowledged or not.
    pub fn switches(&self) -> bool {
        self.flag && self.offered == self.active + 1
    }

    /// The number and key that a send at that tick is under, none while clear; 13.
    pub fn sends_under(&mut self, tick: u64) -> Reply<Option<(u64, Key)>> {
        if self.switches() {
            self.keys.remove(&self.active);
            self.active = self.offered;
            self.flag = false;
            self.first_send = Some(tick);
        } else if self.active >= 1 {
            let first = self.first_send.unwrap_or(tick);
            refuse_if(tick - first >= KEY_LIFE, 13)?;
            self.first_send = Some(first);
        }
        Ok((self.active >= 1).then(|| (self.active, self.keys[&self.active])))
    }
}

/// A group that a unit joined.
#[derive(Clone, Debug, PartialEq, Eq)]
pub struct Joined {
    pub llid: u16,
    /// a: what the messages and envelopes so far tell to be in use.
    pub active: u64,
    /// The keys of a and a + 1, as far as they are held.
    pub keys: BTreeMap<u64, Key>,
}

impl Joined {
    pub fn fresh(llid: u16) -> Joined {
        Joined { llid, active: 0, keys: BTreeMap::new() }
    }

    /// "A member accepts any key number above those it holds; number n tells it that n - 1 is in use and older keys are forgotten."
    pub fn key_message(&mut self, message: &KeyMessage) -> Reply<()> {
        let number = u64::from(message.number);
        if self.keys.get(&number) == Some(&message.key) {
            return Ok(());
        }
        refuse_if(self.keys.keys().any(|&held| held >= number) || number == 0, 8)?;
        self.active = number - 1;
        self.keys.retain(|&held, _| held == number - 1);
        self.keys.insert(number, message.key);
        Ok(())
    }

    /// The key that an envelope opens under, none if it is clear: 11, 9.
    pub fn opens_under(&mut self, header: &Header) -> Reply<Option<Key>> {
        if header.encenabled == 0 {
            refuse_if(self.active >= 1, 11)?;
            return Ok(None);
        }
        let number = self.active + u64::from(self.active % 2 != u64::from(header.enckey));
        let key = *self.keys.get(&number).ok_or(9)?;
        self.keys.retain(|&held, _| held >= number);
        self.active = number;
        Ok(Some(key))
    }
}
