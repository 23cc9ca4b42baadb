//! The OLT (01, Clock; Keys; When the reader says no; 02, C-14 and C-16). Every call checks in the order of its list, then changes.

use super::groups::Group;
use super::*;
use jazmotip::{Acknowledgement, Header, KeyMessage, Stamps};
use std::collections::BTreeMap;

/// A capture: the tick it was made at, and its two stamps.
#[derive(Clone, Debug, PartialEq, Eq)]
pub struct Capture {
    pub tick: u64,
    pub stamps: Stamps,
}

#[derive(Clone, Debug, PartialEq, Eq)]
pub struct Unit {
    pub identity: Identity,
    pub round_trip: u64,
    pub interval: u64,
    pub count: u64,
    pub flag: bool,
    /// A, C and O.
    pub active: u64,
    pub confirmed: u64,
    pub offered: u64,
    /// The keys of C, A and O.
    pub keys: BTreeMap<u64, Key>,
    pub offer_acknowledged: bool,
    pub first_send: Option<u64>,
    pub capture: Option<Capture>,
    pub clock_sent: bool,
    pub clock_acknowledged: bool,
}

#[derive(Clone, Debug, PartialEq, Eq)]
pub struct Olt {
    pub mac: u64,
    pub tick: u64,
    pub clock: u64,
    pub channels: Channels,
    pub units: Vec<Unit>,
    pub groups: Vec<Group>,
}

impl Unit {
    /// Whether the next accepted send switches.
    pub fn switches(&self) -> bool {
        self.flag && self.offered == self.active + 1 && self.offer_acknowledged
    }

    /// Whether the next accepted send is enciphered.
    fn enciphers(&self) -> bool {
        self.switches() || self.active >= 1
    }

    /// The number and key that a send at that tick is under, none while clear; 13.
    fn sends_under(&mut self, tick: u64) -> Reply<Option<(u64, Key)>> {
        if self.switches() {
            self.active = self.offered;
            self.flag = false;
            self.first_send = Some(tick);
        } else if self.active >= 1 {
            let first = self.first_send.unwrap_or(tick);
            refuse_if(tick - first >= KEY_LIFE, 13)?;
            self.first_send = Some(first);
        }
        Ok((self.active >= 1).then(|| (self.active, self.keys[&self.active])))
    }

    fn forget_all_but_active(&mut self) {
        let active = self.active;
        self.keys.retain(|&number, _| number >= active);
    }
}

impl Olt {
    pub fn fresh(mac: u64, clock: u64) -> Reply<Olt> {
        refuse_if(mac >= CLOCK || clock >= CLOCK, 1)?;
        Ok(Olt { mac, tick: 0, clock, channels: Channels { free_from: [0, 0] }, units: Vec::new(), groups: Vec::new() })
    }

    fn place(&self, llid: u16) -> Reply<usize> {
        self.units.iter().position(|unit| unit.identity.llids.contains(&llid)).ok_or(2)
    }

    pub fn unit(&self, llid: u16) -> Reply<&Unit> {
        self.place(llid).map(|place| &self.units[place])
    }

    pub fn group(&self, llid: u16) -> Option<&Group> {
        self.groups.iter().find(|group| group.llid == llid)
    }

    fn group_mut(&mut self, llid: u16) -> Option<&mut Group> {
        self.groups.iter_mut().find(|group| group.llid == llid)
    }

    /// The LLIDs of units and groups.
    fn llids(&self) -> impl Iterator<Item = u16> + '_ {
        let units = self.units.iter().flat_map(|unit| unit.identity.llids.iter().copied());
        units.chain(self.groups.iter().map(|group| group.llid))
    }

    fn is_full(&self) -> bool {
        self.units.len() + self.groups.len() >= 16
    }

    fn unit_mut(&mut self, llid: u16) -> Reply<&mut Unit> {
        self.place(llid).map(|place| &mut self.units[place])
    }

    pub fn register(&mut self, identity: Identity, round_trip: u64, interval: u64) -> Reply<()> {
        let interval_known = (1..=1 << 47).contains(&interval);
        refuse_if(!identity.in_range() || round_trip > 1_000_000 || !interval_known, 1)?;
        refuse_if(repeats(self.llids().chain(identity.llids.iter().copied())), 3)?;
        refuse_if(self.is_full(), 4)?;
        self.units.push(Unit {
            identity,
            round_trip,
            interval,
            count: 0,
            flag: false,
            active: 0,
            confirmed: 0,
            offered: 0,
            keys: BTreeMap::new(),
            offer_acknowledged: false,
            first_send: None,
            capture: None,
            clock_sent: false,
            clock_acknowledged: false,
        });
        Ok(())
    }

    /// Each member is named by an LLID of its unit: 1, 21, 3, 4.
    pub fn register_group(&mut self, llid: u16, interval: u64, named: &[u16]) -> Reply<()> {
        refuse_if(!(1..=1 << 47).contains(&interval) || named.is_empty(), 1)?;
        let units: Vec<usize> = named.iter().filter_map(|&member| self.place(member).ok()).collect();
        let twice = repeats(units.iter().map(|&unit| unit as u16));
        refuse_if(named.len() > 8 || units.len() < named.len() || twice, 21)?;
        refuse_if(self.llids().any(|known| known == llid), 3)?;
        refuse_if(self.is_full(), 4)?;
        self.groups.push(Group::fresh(llid, interval, units.into_iter()));
        Ok(())
    }

    pub fn advance(&mut self, n: u64) -> Reply<()> {
        refuse_if(u128::from(self.tick) + u128::from(n) > u128::from(LAST_TICK), 17)?;
        self.tick += n;
        self.clock = (self.clock + n) % CLOCK;
        for unit in &mut self.units {
            let count = unit.count + n;
            unit.flag |= count >= unit.interval;
            unit.count = count % unit.interval;
        }
        self.groups.iter_mut().for_each(|group| group.advance(n));
        Ok(())
    }

    pub fn capture(&mut self, llid: u16) -> Reply<()> {
        let (tick, clock) = (self.tick, self.clock);
        let unit = self.unit_mut(llid)?;
        let stamps = Stamps { rx: clock, tx: (clock + unit.round_trip) % CLOCK };
        unit.capture = Some(Capture { tick, stamps });
        Ok(())
    }

    /// 02, C-16: the path change "drops the capture and every earlier clock acknowledgement".
    pub fn measure(&mut self, llid: u16, round_trip: u64) -> Reply<()> {
        refuse_if(round_trip > 1_000_000, 1)?;
        let unit = self.unit_mut(llid)?;
        unit.round_trip = round_trip;
        unit.capture = None;
        unit.clock_sent = false;
        unit.clock_acknowledged = false;
        Ok(())
    }

    pub fn clock_send(&mut self, llid: u16) -> Reply<Stamps> {
        let tick = self.tick;
        let unit = self.unit_mut(llid)?;
        let capture = unit.capture.as_ref().ok_or(8)?;
        refuse_if(tick - capture.tick > 390_625_000, 16)?;
        unit.clock_sent = true;
        Ok(capture.stamps)
    }

    pub fn offer(&mut self, llid: u16, key: &Key) -> Reply<KeyMessage> {
        if let Some(group) = self.group(llid) {
            let unset = group.members.iter().any(|member| !self.units[member.unit].clock_acknowledged);
            refuse_if(unset, 5)?;
            return self.group_mut(llid).ok_or(2)?.offer(key);
        }
        let unit = self.unit_mut(llid)?;
        refuse_if(!unit.clock_acknowledged, 5)?;
        refuse_if(unit.offered > unit.active || unit.confirmed < unit.active, 6)?;
        refuse_if(unit.active >= 1 && unit.keys[&unit.active] == *key, 7)?;
        refuse_if(unit.active == u64::from(u32::MAX), 17)?;
        unit.offered = unit.active + 1;
        unit.keys.insert(unit.offered, *key);
        unit.offer_acknowledged = false;
        Ok(KeyMessage { llid, number: unit.offered as u32, key: *key })
    }

    pub fn retry(&self, llid: u16) -> Reply<KeyMessage> {
        if let Some(group) = self.group(llid) {
            return group.retry();
        }
        let unit = self.unit(llid)?;
        refuse_if(unit.offered == unit.active, 8)?;
        Ok(KeyMessage { llid, number: unit.offered as u32, key: unit.keys[&unit.offered] })
    }

    pub fn acknowledge(&mut self, llid: u16, acknowledgement: Acknowledgement) -> Reply<()> {
        let named = self.place(acknowledgement.unit).ok().filter(|_| acknowledgement.named == 1);
        if let Some(group) = self.group_mut(llid) {
            return group.acknowledge(acknowledgement, named);
        }
        let unit = self.unit_mut(llid)?;
        refuse_if(acknowledgement.named != 0, 8)?;
        match acknowledgement.kind {
            1 if unit.clock_sent => unit.clock_acknowledged = true,
            2 if unit.offered >= 1 && u64::from(acknowledgement.number) == unit.offered => unit.offer_acknowledged = true,
            _ => return Err(8),
        }
        Ok(())
    }

    pub fn send(&mut self, llid: u16, channel: u8, payload: &[u8], output: usize) -> Reply<Envelope> {
        payload::check_lengths(payload.len(), output)?;
        refuse_if(channel != 0x00 && channel != 0x01, 1)?;
        let (tick, clock, mac) = (self.tick, self.clock, self.mac);
        let taken = self.channels.is_taken(channel, tick);
        let unset = self.unit(llid).is_ok_and(|unit| unit.enciphers() && !unit.clock_acknowledged);
        let under = match (self.place(llid), self.group_mut(llid)) {
            (Ok(_), _) if unset => return Err(5),
            (Ok(_), _) | (_, Some(_)) if taken => return Err(12),
            (Ok(place), _) => self.units[place].sends_under(tick)?,
            (_, Some(group)) => group.sends_under(tick)?,
            _ => return Err(2),
        };
        let epam = (clock % 64) as u8;
        let envelope = match under {
            None => {
                let header = Header { channel, llid, encenabled: 0, enckey: 0, epam };
                Envelope { header, octets: payload.to_vec(), count: 0, runs: 0, sealed_under: None }
            }
            Some((active, key)) => {
                let Passed { octets, count, runs } = payload::pass(&key, channel, mac, clock, payload);
                let header = Header { channel, llid, encenabled: 1, enckey: (active % 2) as u8, epam };
                Envelope { header, octets, count, runs, sealed_under: Some((key, mac, clock)) }
            }
        };
        self.channels.take(channel, tick, payload.len() / 9);
        Ok(envelope)
    }

    pub fn receive(&mut self, header: &Header, octets: &[u8], output: usize) -> Reply<Passed> {
        payload::check_lengths(octets.len(), output)?;
        refuse_if(header_out_of_range(header, 0x80), 1)?;
        let clock = self.clock;
        refuse_if(self.group(header.llid).is_some(), 20)?;
        let unit = self.unit_mut(header.llid)?;
        refuse_if(u64::from(header.epam) != clock % 64, 10)?;
        if header.encenabled == 0 {
            refuse_if(unit.confirmed >= 1, 11)?;
            return Ok(Passed::clear(octets));
        }
        let index = u64::from(header.enckey);
        let number = if unit.confirmed >= 1 && index == unit.confirmed % 2 {
            unit.confirmed
        } else if unit.active == unit.confirmed + 1 && index == unit.active % 2 {
            unit.active
        } else {
            return Err(9);
        };
        let passed = payload::pass(&unit.keys[&number], header.channel, unit.identity.mac, clock, octets);
        if number > unit.confirmed {
            unit.confirmed = number;
            unit.forget_all_but_active();
        }
        Ok(passed)
    }
}
