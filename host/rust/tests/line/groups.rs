//! Groups (02, C-14): registered, joined, offered keys, sent to, and what their members take of that.

use super::strays::STRANGERS;
use super::world::{Thing, World};
use super::Kind;
use crate::pairs::Pair;
use crate::random::Random;
use crate::reference::groups::Group;
use crate::reference::{Key, Passed, KEY_LIFE};
use jazmotip::{Acknowledgement, Header, KeyMessage, Roster};
use std::collections::BTreeMap;

/// A group of the list: its LLID, and the stations that are its members once it is registered.
#[derive(Clone)]
pub struct Grouping {
    pub llid: u16,
    pub members: Vec<usize>,
}

impl World<'_> {
    pub fn group(&self, g: usize) -> Option<&Group> {
        self.olt.sound().group(self.groupings[g].llid)
    }

    pub fn any_group(&mut self) -> usize {
        self.random.below(self.groupings.len() as u64) as usize
    }

    /// A registration that is right, each member named by any of its LLIDs: some of the stations that are registered.
    pub fn register_group(&mut self, g: usize) {
        let known: Vec<usize> = (0..3).filter(|&i| self.unit(i).is_some()).collect();
        let members: Vec<usize> = known.into_iter().filter(|_| !self.random.once_in(3)).collect();
        let named: Vec<u16> = members.iter().map(|&i| self.stations[i].llid(self.random)).collect();
        let mut roster = Roster::new(&named);
        roster.llids[named.len()..].iter_mut().for_each(|past| *past = self.random.next() as u16);
        let interval = match self.random.below(5) {
            0 => self.random.within(1, 1 << 47),
            _ => self.random.pick(&[1, 7, 30, 200]),
        };
        let llid = self.groupings[g].llid;
        if self.olt.register_group(self.tally, llid, interval, roster).is_ok() {
            self.groupings[g].members = members;
        }
    }

    /// A registration that is refused: for a value, a member, the LLID or the places.
    pub fn register_group_wrongly(&mut self, i: usize, g: usize) {
        let (random, station) = (&mut *self.random, &self.stations[i]);
        let (own, llid) = (station.identity.llids[0], self.groupings[g].llid);
        let interval = random.pick(&[0, 1, 1, 1, 1, (1 << 47) + 1, u64::MAX]);
        let mut roster = match random.below(7) {
            0 => Roster::new(&[]),
            1 => Roster::new(&[own, own]),
            2 => Roster::new(&[own, station.llid(random)]),
            3 => Roster::new(&[own, STRANGERS - 1]),
            4 => Roster::new(&[own, llid]),
            5 => Roster::new(&[own; 9]),
            _ => Roster::new(&[own]),
        };
        if random.once_in(8) {
            roster.count = random.within(9, 255) as u8;
        }
        let llid = if random.once_in(2) { own } else { llid };
        let mut end = Pair::of(self.olt.sound().clone());
        let _ = end.register_group(self.tally, llid, interval, roster);
    }

    /// A unit joins a group, now and then an LLID that is no group's.
    pub fn join(&mut self, i: usize, g: usize) {
        let llid = match self.random.below(24) {
            0 => self.stations[i].llid(self.random),
            1 => STRANGERS - 1 - self.random.below(3) as u16,
            _ => self.groupings[g].llid,
        };
        let _ = self.stations[i].end.join(self.tally, llid);
    }

    /// A message or an envelope goes to every member, each over its own way.
    fn leaves_to_members(&mut self, g: usize, thing: &Thing) {
        for i in self.groupings[g].members.clone() {
            self.leaves(i, true, thing.clone());
        }
    }

    pub fn offer_to_group(&mut self, g: usize) {
        let llid = self.groupings[g].llid;
        let same = self.group(g).and_then(|group| group.keys.get(&group.active)).copied();
        let key = match same {
            Some(key) if self.random.once_in(8) => key,
            _ => self.random.key(),
        };
        let message = match self.random.below(3) {
            0 => self.olt.retry(self.tally, llid),
            _ => self.olt.offer(self.tally, llid, &key),
        };
        if let Ok(message) = message {
            self.leaves_to_members(g, &Thing::Key(message));
        }
    }

    pub fn group_send(&mut self, g: usize) {
        let (payload, output, channel) = self.drawn(0x00);
        let llid = self.groupings[g].llid;
        let before = self.group(g).cloned();
        let Ok(envelope) = self.olt.send(self.tally, self.random, llid, channel, &payload, output) else { return };
        let (before, now) = (before.expect("registered"), self.group(g).expect("registered").active);
        self.tally.event(match now {
            0 => "group sends clear",
            1 => "group sends under key 1",
            2 => "group sends under key 2",
            _ => "group sends under key 3 or later",
        });
        if now > before.active {
            let all = before.members.iter().all(|member| member.acknowledged);
            self.tally.event(if all { "group switched" } else { "group switched unacknowledged" });
        } else if before.first_send.is_some_and(|first| self.tick() - first == KEY_LIFE - 1) {
            self.tally.event("group sends at the last tick of a key");
        }
        self.note_sealed(&envelope);
        self.overheard_later(None, &envelope);
        let (header, octets) = (envelope.header, envelope.octets);
        let payload = Passed { octets: payload, count: envelope.count, runs: envelope.runs };
        self.leaves_to_members(g, &Thing::GroupEnvelope { header, octets, payload, number: now });
    }

    /// A group's key message arrives: any number above those that the unit holds is taken.
    pub fn group_key_arrives(&mut self, i: usize, message: KeyMessage) -> Option<Acknowledgement> {
        let station = &mut self.stations[i];
        let answered = station.end.key_message(self.tally, message).ok()?;
        let missed = message.number >= 2 && !station.taken.contains(&(message.llid, u64::from(message.number) - 1));
        if station.taken.insert((message.llid, u64::from(message.number))) && missed {
            self.tally.event("member missed a key");
        }
        Some(answered)
    }

    /// What is promised of an envelope that arrives at a member: clear ones open since it joined, those under a key whose message
    /// it accepted since then too; nothing of the unit's own moves.
    pub fn group_envelope_arrives(&mut self, i: usize, thing: Thing, must_open: bool) {
        let Thing::GroupEnvelope { header, octets, payload, number } = thing else { unreachable!("a group's envelope") };
        let station = &mut self.stations[i];
        let joined = station.end.sound().group(header.llid).is_some();
        let own = (station.end.record.keys, station.end.record.first);
        let opened = station.end.receive(self.tally, self.random, header, &octets, octets.len());
        assert_eq!(
            (station.end.record.keys, station.end.record.first),
            own,
            "a group's envelope counts for the unit's own numbers"
        );
        let synced = station.end.sound().clocks.is_some();
        let claimed = joined && (number == 0 || synced && station.taken.contains(&(header.llid, number)));
        if must_open && joined && number >= 1 && !synced {
            assert_eq!(opened, Err(5), "a member that is unsynced refuses what is enciphered");
            self.tally.event("unsynced member refused");
        } else if must_open && claimed {
            assert_eq!(opened, Ok(payload), "a group's envelope that arrives at a member opens to its payload");
            let back = number >= 2 && !station.taken.contains(&(header.llid, number - 1));
            self.tally.event(match (number, back) {
                (0, _) => "arrived at a member clear",
                (_, false) => "arrived at a member sealed",
                _ => "member came back",
            });
        } else if joined {
            self.tally.event(if opened.is_ok() {
                "member opens under a key of no claim"
            } else {
                "member refuses under a key it missed"
            });
        }
    }

    /// Calls that a group's LLID is not for: clock calls at the OLT (2), receipts there and sends of a unit (20).
    pub fn wrong_way(&mut self, i: usize, g: usize) {
        let (payload, llid) = (self.random.payload(1), self.groupings[g].llid);
        let (registered, tally, random) = (self.group(g).is_some(), &mut *self.tally, &mut *self.random);
        let channel = random.pick(&[0x80, 0x81, 0x80, 0x00]);
        let output = if random.once_in(6) { 8 } else { 9 };
        let header = Header { channel, llid, encenabled: random.below(2) as u8, enckey: 0, epam: random.below(64) as u8 };
        let ahead = match (output, channel) {
            (8, _) => Some(14),
            (_, 0x00) => Some(1),
            _ => None,
        };
        let refused = |known: bool| ahead.unwrap_or(if known { 20 } else { 2 });
        let end = &mut self.stations[i].end;
        match random.below(6) {
            5 => assert_eq!(self.olt.measure(tally, llid, 7), Err(2)),
            0 => assert_eq!(self.olt.capture(tally, llid), Err(2)),
            1 => assert_eq!(self.olt.clock_send(tally, llid), Err(2)),
            2 => {
                let kind_1 = Acknowledgement { kind: 1, named: random.below(2) as u8, ..Default::default() };
                assert_eq!(self.olt.acknowledge(tally, llid, kind_1), Err(2));
            }
            3 => assert_eq!(self.olt.receive(tally, random, header, &payload, output), Err(refused(registered))),
            _ => {
                let joined = end.sound().group(llid).is_some();
                assert_eq!(end.send(tally, random, llid, channel, &payload, output), Err(refused(joined)));
            }
        }
    }

    /// Messages and acknowledgements of a group that nobody sent. In a list of the line only what is refused.
    pub fn group_stray(&mut self, i: usize, g: usize) {
        let (line, llid) = (self.kind == Kind::Line, self.groupings[g].llid);
        let offered = self.group(g).map_or(0, |group| group.offered);
        let random = &mut *self.random;
        let number = (offered + random.below(5)).saturating_sub(2) as u32;
        let unit = if random.once_in(4) { random.below(30) as u16 } else { self.stations[i].llid(random) };
        if random.once_in(2) {
            let kind = random.pick(&[0, 2, 2, 2, 3]);
            let acknowledgement = Acknowledgement { kind, named: random.pick(&[0, 1, 1, 1, 2]), unit, number };
            let llid = if random.once_in(4) { self.stations[i].llid(random) } else { llid };
            if !line || self.olt.refuses(|olt| olt.acknowledge(llid, acknowledgement)) {
                let _ = self.olt.acknowledge(self.tally, llid, acknowledgement);
            }
        } else {
            let known = self.stations[i].end.sound().group(llid).and_then(|group| group.keys.values().copied().next());
            let key = known.filter(|_| random.once_in(2)).unwrap_or([0; 16]);
            let message = KeyMessage { llid, number, key };
            let end = &mut self.stations[i].end;
            if !line || end.refuses(|onu| onu.key_message(message)) {
                let _ = end.key_message(self.tally, message);
            }
        }
    }

    /// A joined unit overhears. One that is no member is left as it was; a member, in a list of the line, only where it refuses.
    pub fn overhear_joined(&mut self, i: usize, header: Header, octets: &[u8]) {
        let member = self.groupings.iter().any(|group| group.llid == header.llid && group.members.contains(&i));
        let end = &mut self.stations[i].end;
        if self.kind == Kind::Line && member && !end.refuses(|onu| onu.receive(&header, octets, octets.len())) {
            return;
        }
        let before = end.record;
        let _ = end.receive(self.tally, self.random, header, octets, octets.len());
        if self.kind == Kind::Line {
            assert_eq!(end.record, before, "a joined unit that is no member moved");
            self.tally.event("overheard by a joined unit");
        }
    }

    /// Takes a group's key numbers near their end, at the OLT, at the units that joined it and in what is under way.
    pub fn lift_group(&mut self, g: usize) {
        let llid = self.groupings[g].llid;
        let mut olt = self.olt.sound().clone();
        let Some(group) = olt.groups.iter_mut().find(|group| group.llid == llid) else { return };
        let holders: Vec<usize> = (0..3).filter(|&i| self.holds_keys_of(i, llid)).collect();
        let held = || holders.iter().filter_map(|&i| self.stations[i].end.sound().group(llid));
        if group.active == 0 || held().any(|joined| joined.active == 0) {
            return;
        }
        let highest = held().flat_map(|joined| joined.keys.keys().copied()).fold(group.offered, u64::max);
        let up = (u64::from(u32::MAX) - highest).saturating_sub(self.random.below(6)) & !1;
        if up == 0 {
            return;
        }
        let lifted = |keys: &BTreeMap<u64, Key>| keys.iter().map(|(n, key)| (n + up, *key)).collect();
        group.keys = lifted(&group.keys);
        group.active += up;
        group.offered += up;
        self.olt = Pair::of(olt);
        for i in 0..3 {
            let station = &mut self.stations[i];
            let mut onu = station.end.sound().clone();
            for joined in onu.joined.iter_mut().filter(|joined| joined.llid == llid && holders.contains(&i)) {
                joined.keys = lifted(&joined.keys);
                joined.active += up;
            }
            station.end = Pair::of(onu);
            station.lift(llid, up);
        }
        self.tally.event("a group's key numbers near their end");
    }

    fn holds_keys_of(&self, i: usize, llid: u16) -> bool {
        self.stations[i].end.sound().group(llid).is_some_and(|joined| !joined.keys.is_empty())
    }
}

/// A group's LLIDs, out of the free ones.
pub fn groupings(random: &mut Random, free: &mut Vec<u16>) -> Vec<Grouping> {
    let draw = |_| Grouping { llid: free.swap_remove(random.below(free.len() as u64) as usize), members: Vec::new() };
    (0..2).map(draw).collect()
}
