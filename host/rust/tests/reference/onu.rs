//! The ONU (01, Clock; Keys; When the reader says no; 02, C-14 and C-16). Every call checks in the order of its list, then changes.

use super::groups::Joined;
use super::*;
use jazmotip::{Acknowledgement, Header, KeyMessage, Stamps};
use std::collections::BTreeMap;

#[derive(Clone, Debug, PartialEq, Eq)]
pub struct Onu {
    pub identity: Identity,
    pub olt_mac: u64,
    pub tick: u64,
    pub local_time: u32,
    /// The Rx and Tx clocks, once a clock message was taken.
    pub clocks: Option<Stamps>,
    /// a.
    pub active: u64,
    /// The keys of a and a + 1.
    pub keys: BTreeMap<u64, Key>,
    /// The travel of the Tx clock at the first send under key a.
    pub first_send: Option<i128>,
    /// The sum of the signed changes of LocalTime.
    pub changes: i64,
    /// By travel: the last end of an enciphered send, and what that was at the last change.
    pub last_end: Option<i128>,
    pub waits_for: Option<i128>,
    pub channels: Channels,
    pub joined: Vec<Joined>,
}

impl Onu {
    pub fn fresh(identity: Identity, olt_mac: u64, local_time: u64) -> Reply<Onu> {
        refuse_if(!identity.in_range() || olt_mac >= CLOCK || local_time >= 1 << 32, 1)?;
        refuse_if(repeats(identity.llids.iter().copied()), 3)?;
        Ok(Onu {
            identity,
            olt_mac,
            tick: 0,
            local_time: local_time as u32,
            clocks: None,
            active: 0,
            keys: BTreeMap::new(),
            first_send: None,
            changes: 0,
            last_end: None,
            waits_for: None,
            channels: Channels { free_from: [0, 0] },
            joined: Vec::new(),
        })
    }

    pub fn group(&self, llid: u16) -> Option<&Joined> {
        self.joined.iter().find(|group| group.llid == llid)
    }

    fn group_mut(&mut self, llid: u16) -> Option<&mut Joined> {
        self.joined.iter_mut().find(|group| group.llid == llid)
    }

    fn is_own(&self, llid: u16) -> bool {
        self.identity.llids.contains(&llid)
    }

    pub fn join(&mut self, llid: u16) -> Reply<()> {
        refuse_if(self.is_own(llid) || self.group(llid).is_some(), 3)?;
        refuse_if(self.joined.len() >= 4, 4)?;
        self.joined.push(Joined::fresh(llid));
        Ok(())
    }

    pub fn advance(&mut self, n: u64) -> Reply<()> {
        refuse_if(u128::from(self.tick) + u128::from(n) > u128::from(LAST_TICK), 17)?;
        self.tick += n;
        self.local_time = self.local_time.wrapping_add(n as u32);
        if let Some(clocks) = &mut self.clocks {
            clocks.rx = (clocks.rx + n) % CLOCK;
            clocks.tx = (clocks.tx + n) % CLOCK;
        }
        Ok(())
    }

    /// "the travel of its Tx clock is ticks plus these signed changes"
    pub fn travel(&self) -> i128 {
        i128::from(self.tick) + i128::from(self.changes)
    }

    /// "its new LocalTime, at most 1,000,000 either way from the old, else 1", and 17 for the sum of the changes.
    pub fn new_time(&mut self, time: u64) -> Reply<()> {
        let time = u32::try_from(time).map_err(|_| 1)?;
        let change = i64::from(time.wrapping_sub(self.local_time) as i32);
        refuse_if(change.abs() > 1_000_000, 1)?;
        refuse_if((self.changes + change).abs() > 1 << 61, 17)?;
        self.changes += change;
        self.local_time = time;
        self.clocks = None;
        self.waits_for = self.last_end;
        Ok(())
    }

    pub fn clock_message(&mut self, message: Stamps) -> Reply<Acknowledgement> {
        refuse_if(message.rx >= CLOCK || message.tx >= CLOCK, 1)?;
        // 000's loop raises both by one until the low 32 bits of Tx equal LocalTime: this many times
        let raise = (u64::from(self.local_time) + (1 << 32) - message.tx % (1 << 32)) % (1 << 32);
        self.clocks = Some(Stamps { rx: (message.rx + raise) % CLOCK, tx: (message.tx + raise) % CLOCK });
        Ok(Acknowledgement { kind: 1, named: 0, unit: 0, number: 0 })
    }

    pub fn key_message(&mut self, message: KeyMessage) -> Reply<Acknowledgement> {
        refuse_if(!self.is_own(message.llid) && self.group(message.llid).is_none(), 2)?;
        refuse_if(self.clocks.is_none(), 5)?;
        let first = self.identity.llids[0];
        if let Some(group) = self.group_mut(message.llid) {
            group.key_message(&message)?;
            return Ok(Acknowledgement { kind: 2, named: 1, unit: first, number: message.number });
        }
        let number = u64::from(message.number);
        match self.keys.get(&number) {
            Some(key) => refuse_if(*key != message.key, 8)?,
            None => {
                refuse_if(number != self.active + 1, 8)?;
                self.keys.insert(number, message.key);
            }
        }
        Ok(Acknowledgement { kind: 2, named: 0, unit: 0, number: message.number })
    }

    /// The Tx clock, or LocalTime if unsynced.
    fn sender_clock(&self) -> u64 {
        self.clocks.map_or(u64::from(self.local_time), |clocks| clocks.tx)
    }

    pub fn send(&mut self, llid: u16, channel: u8, payload: &[u8], output: usize) -> Reply<Envelope> {
        payload::check_lengths(payload.len(), output)?;
        refuse_if(channel != 0x80 && channel != 0x81, 1)?;
        refuse_if(!self.is_own(llid) && self.group(llid).is_none(), 2)?;
        refuse_if(self.group(llid).is_some(), 20)?;
        let (travel, enciphers) = (self.travel(), self.active >= 1);
        refuse_if(enciphers && self.clocks.is_none(), 5)?;
        // "12 until its Tx clock has passed the end of each one made before" the change
        let waits = enciphers && self.waits_for.is_some_and(|end| travel <= end);
        refuse_if(waits || self.channels.is_taken(channel, self.tick), 12)?;
        let clock = self.sender_clock();
        let epam = (clock % 64) as u8;
        let envelope = if !enciphers {
            let header = Header { channel, llid, encenabled: 0, enckey: 0, epam };
            Envelope { header, octets: payload.to_vec(), count: 0, runs: 0, sealed_under: None }
        } else {
            let first = self.first_send.unwrap_or(travel);
            refuse_if(travel - first >= i128::from(KEY_LIFE), 13)?;
            self.first_send = Some(first);
            self.last_end = self.last_end.max(Some(travel + payload.len() as i128 / 9));
            let key = self.keys[&self.active];
            let Passed { octets, count, runs } = payload::pass(&key, channel, self.identity.mac, clock, payload);
            let header = Header { channel, llid, encenabled: 1, enckey: (self.active % 2) as u8, epam };
            Envelope { header, octets, count, runs, sealed_under: Some((key, self.identity.mac, clock)) }
        };
        self.channels.take(channel, self.tick, payload.len() / 9);
        Ok(envelope)
    }

    pub fn receive(&mut self, header: &Header, octets: &[u8], output: usize) -> Reply<Passed> {
        payload::check_lengths(octets.len(), output)?;
        refuse_if(header_out_of_range(header, 0x00), 1)?;
        refuse_if(!self.is_own(header.llid) && self.group(header.llid).is_none(), 2)?;
        refuse_if(self.clocks.is_some_and(|clocks| u64::from(header.epam) != clocks.rx % 64), 10)?;
        if self.group(header.llid).is_some() {
            return self.receive_for_group(header, octets);
        }
        if header.encenabled == 0 {
            refuse_if(self.active >= 1, 11)?;
            return Ok(Passed::clear(octets));
        }
        let clocks = self.clocks.ok_or(5)?;
        // the key in use and the next have different indices; there is no key 0
        let number = self.active + u64::from(self.active % 2 != u64::from(header.enckey));
        let key = *self.keys.get(&number).ok_or(9)?;
        let passed = payload::pass(&key, header.channel, self.olt_mac, clocks.rx, octets);
        if number > self.active {
            self.keys.remove(&self.active);
            self.active = number;
            self.first_send = None;
        }
        Ok(passed)
    }

    /// The rest of a receipt on a group's LLID: 5, 11, 9. Nothing of the unit's own moves.
    fn receive_for_group(&mut self, header: &Header, octets: &[u8]) -> Reply<Passed> {
        refuse_if(header.encenabled == 1 && self.clocks.is_none(), 5)?;
        let (mac, clock) = (self.olt_mac, self.clocks.map_or(0, |clocks| clocks.rx));
        let group = self.group_mut(header.llid).ok_or(2)?;
        Ok(match group.opens_under(header)? {
            None => Passed::clear(octets),
            Some(key) => payload::pass(&key, header.channel, mac, clock, octets),
        })
    }
}
