//! The reference's ends as records of the C boundary, and back. A place that is not in use holds zeros. Reading is where a lent end
//! is judged (01: "Ahead of each list comes 1 for a lent end with ..."): an invalid one has no reading.

use super::groups::{Group, Joined, Member};
use super::olt::{Capture, Olt, Unit};
use super::onu::Onu;
use super::*;
use jazmotip::Stamps;

/// An end of the reference that crosses as a record.
pub trait End: Clone + PartialEq + std::fmt::Debug {
    type Record: Copy + Default + PartialEq + std::fmt::Debug;

    fn record(&self) -> Self::Record;

    /// What a record is read as, if it is valid.
    fn lent(record: &Self::Record) -> Option<Self>;
}

/// The last tick that a channel can be free from: a longest payload at the last tick.
const LAST_FREE: u64 = LAST_TICK + 4_194_304;

fn flag(octet: u8) -> Option<bool> {
    match octet {
        0 => Some(false),
        1 => Some(true),
        _ => None,
    }
}

fn within(number: u64, least: u64, most: u64) -> Option<u64> {
    (least..=most).contains(&number).then_some(number)
}

impl Identity {
    /// The identity of a call's argument; a count above four is kept as that many LLIDs, so that it is out of range.
    pub fn of(record: &jazmotip::Identity) -> Identity {
        let llids = (0..usize::from(record.count)).map(|i| record.llids.get(i).copied().unwrap_or(0)).collect();
        Identity { mac: record.mac, llids }
    }

    fn record(&self) -> jazmotip::Identity {
        jazmotip::Identity::new(self.mac, &self.llids)
    }

    fn lent(record: &jazmotip::Identity) -> Option<Identity> {
        Some(Identity::of(record)).filter(|identity| identity.in_range())
    }
}

impl Channels {
    fn record(&self) -> jazmotip::Channels {
        jazmotip::Channels { zero: self.free_from[0], one: self.free_from[1] }
    }

    fn lent(record: &jazmotip::Channels) -> Option<Channels> {
        Some(Channels { free_from: [within(record.zero, 0, LAST_FREE)?, within(record.one, 0, LAST_FREE)?] })
    }
}

fn first_record(first: Option<u64>) -> jazmotip::FirstSend {
    jazmotip::FirstSend { noted: u8::from(first.is_some()), at: first.unwrap_or(0) }
}

fn first_lent(record: &jazmotip::FirstSend, now: u64) -> Option<Option<u64>> {
    match flag(record.noted)? {
        false => Some(None),
        true => within(record.at, 0, now).map(Some),
    }
}

/// A unit's record counts travel from 2^61 below zero.
const LEAST_TRAVEL: i128 = -(1 << 61);

impl Onu {
    fn travel_record(&self) -> jazmotip::Travel {
        let past = |end: Option<i128>| end.map_or(0, |end| (end + 1 - LEAST_TRAVEL) as u64);
        jazmotip::Travel { changes: self.changes, spent: past(self.last_end), bar: past(self.waits_for) }
    }
}

/// An end, from what is past it; 0 for none.
fn end_lent(past: u64) -> Option<i128> {
    (past > 0).then(|| i128::from(past) - 1 + LEAST_TRAVEL)
}

/// Keys by number, from their places by index.
fn keys_lent(slots: &jazmotip::Slots, numbers: impl Iterator<Item = u64>) -> std::collections::BTreeMap<u64, Key> {
    numbers.filter(|&n| n >= 1).map(|n| (n, if n % 2 == 0 { slots.even } else { slots.odd })).collect()
}

fn keys_record(keys: &std::collections::BTreeMap<u64, Key>) -> jazmotip::Slots {
    let of_index = |index| keys.iter().find(|(number, _)| *number % 2 == index).map_or([0; 16], |(_, key)| *key);
    jazmotip::Slots { even: of_index(0), odd: of_index(1) }
}

impl Unit {
    fn record(&self) -> jazmotip::Unit {
        jazmotip::Unit {
            identity: self.identity.record(),
            keys: jazmotip::UnitKeys {
                timer: jazmotip::Timer { interval: self.interval, count: self.count, flag: u8::from(self.flag) },
                active: self.active as u32,
                offered: self.offered as u32,
                slots: keys_record(&self.keys),
                first: first_record(self.first_send),
            },
            confirmation: jazmotip::Confirmation {
                confirmed: self.confirmed as u32,
                acknowledged: u8::from(self.offer_acknowledged),
            },
            clock: jazmotip::UnitClock {
                trip: self.round_trip,
                captured: u8::from(self.capture.is_some()),
                tick: self.capture.as_ref().map_or(0, |capture| capture.tick),
                sent: u8::from(self.clock_sent),
                acknowledged: u8::from(self.clock_acknowledged),
            },
        }
    }

    fn lent(record: &jazmotip::Unit, tick: u64, clock: u64) -> Option<Unit> {
        let round_trip = within(record.clock.trip, 0, 1_000_000)?;
        let interval = within(record.keys.timer.interval, 1, 1 << 47)?;
        let active = u64::from(record.keys.active);
        let offered = u64::from(record.keys.offered);
        let confirmed = u64::from(record.confirmation.confirmed);
        let numbers_fit = (active == confirmed && (offered == active || offered == active + 1))
            || (active == confirmed + 1 && offered == active);
        let capture = match flag(record.clock.captured)? {
            false => None,
            true => {
                let age = tick - within(record.clock.tick, 0, tick)?;
                let rx = (clock + CLOCK - age % CLOCK) % CLOCK;
                Some(Capture { tick: record.clock.tick, stamps: Stamps { rx, tx: (rx + round_trip) % CLOCK } })
            }
        };
        numbers_fit.then_some(())?;
        Some(Unit {
            identity: Identity::lent(&record.identity)?,
            round_trip,
            interval,
            count: within(record.keys.timer.count, 0, interval - 1)?,
            flag: flag(record.keys.timer.flag)?,
            active,
            confirmed,
            offered,
            keys: keys_lent(&record.keys.slots, confirmed..=offered),
            offer_acknowledged: flag(record.confirmation.acknowledged)?,
            first_send: first_lent(&record.keys.first, tick)?,
            capture,
            clock_sent: flag(record.clock.sent)?,
            clock_acknowledged: flag(record.clock.acknowledged)?,
        })
    }
}

impl Group {
    fn record(&self) -> jazmotip::Group {
        let mut members = jazmotip::Members { count: self.members.len() as u8, ..Default::default() };
        for (j, member) in self.members.iter().enumerate() {
            members.places[j] = member.unit as u8;
            members.marks[j] = u8::from(member.acknowledged);
        }
        jazmotip::Group {
            keys: jazmotip::UnitKeys {
                timer: jazmotip::Timer { interval: self.interval, count: self.count, flag: u8::from(self.flag) },
                active: self.active as u32,
                offered: self.offered as u32,
                slots: keys_record(&self.keys),
                first: first_record(self.first_send),
            },
            members,
            llid: self.llid,
        }
    }

    /// Of an OLT with that many units, at that tick.
    fn lent(record: &jazmotip::Group, units: usize, tick: u64) -> Option<Group> {
        let count = within(u64::from(record.members.count), 1, 8)? as usize;
        let (places, marks) = (&record.members.places[..count], &record.members.marks[..count]);
        let known = places.iter().all(|&place| usize::from(place) < units);
        (known && !repeats(places.iter().map(|&place| u16::from(place)))).then_some(())?;
        let member = |(&place, &mark): (&u8, &u8)| Some(Member { unit: usize::from(place), acknowledged: flag(mark)? });
        let interval = within(record.keys.timer.interval, 1, 1 << 47)?;
        let active = u64::from(record.keys.active);
        let offered = within(u64::from(record.keys.offered), active, active + 1)?;
        Some(Group {
            llid: record.llid,
            members: places.iter().zip(marks).map(member).collect::<Option<_>>()?,
            interval,
            count: within(record.keys.timer.count, 0, interval - 1)?,
            flag: flag(record.keys.timer.flag)?,
            active,
            offered,
            keys: keys_lent(&record.keys.slots, active..=offered),
            first_send: first_lent(&record.keys.first, tick)?,
        })
    }
}

impl Joined {
    fn record(&self) -> jazmotip::Joined {
        let holds = |number| u8::from(self.keys.contains_key(&number));
        jazmotip::Joined {
            keys: jazmotip::OnuKeys {
                active: self.active as u32,
                held: holds(self.active + 1),
                slots: keys_record(&self.keys),
            },
            kept: holds(self.active),
            llid: self.llid,
        }
    }

    fn lent(record: &jazmotip::Joined) -> Option<Joined> {
        let active = u64::from(record.keys.active);
        let (kept, held) = (flag(record.kept)?, flag(record.keys.held)?);
        (!(kept && active == 0 || held && active == u64::from(u32::MAX))).then_some(())?;
        let numbers = [(kept, active), (held, active + 1)].into_iter().filter(|(there, _)| *there);
        Some(Joined { llid: record.llid, active, keys: keys_lent(&record.keys.slots, numbers.map(|(_, number)| number)) })
    }
}

impl End for Olt {
    type Record = jazmotip::Olt;

    fn record(&self) -> jazmotip::Olt {
        let mut units = [jazmotip::Unit::default(); 16];
        units.iter_mut().zip(&self.units).for_each(|(place, unit)| *place = unit.record());
        let mut groups = [jazmotip::Group::default(); 16];
        groups.iter_mut().zip(&self.groups).for_each(|(place, group)| *place = group.record());
        jazmotip::Olt {
            shared: jazmotip::Shared { mac: self.mac, tick: self.tick, clock: self.clock, channels: self.channels.record() },
            count: self.units.len() as u8,
            units,
            groupcount: self.groups.len() as u8,
            groups,
        }
    }

    fn lent(record: &jazmotip::Olt) -> Option<Olt> {
        let tick = within(record.shared.tick, 0, LAST_TICK)?;
        let clock = within(record.shared.clock, 0, CLOCK - 1)?;
        let places = record.units.get(..usize::from(record.count))?;
        let units: Vec<Unit> = places.iter().map(|unit| Unit::lent(unit, tick, clock)).collect::<Option<_>>()?;
        within(u64::from(record.count) + u64::from(record.groupcount), 0, 16)?;
        let places = &record.groups[..usize::from(record.groupcount)];
        let groups: Vec<Group> = places.iter().map(|group| Group::lent(group, units.len(), tick)).collect::<Option<_>>()?;
        let llids = units.iter().flat_map(|unit| unit.identity.llids.iter().copied());
        (!repeats(llids.chain(groups.iter().map(|group| group.llid)))).then_some(())?;
        Some(Olt {
            mac: within(record.shared.mac, 0, CLOCK - 1)?,
            tick,
            clock,
            channels: Channels::lent(&record.shared.channels)?,
            units,
            groups,
        })
    }
}

impl End for Onu {
    type Record = jazmotip::Onu;

    fn record(&self) -> jazmotip::Onu {
        let clock = match self.clocks {
            None => jazmotip::OnuClock { synced: 0, time: u64::from(self.local_time), rx: 0 },
            Some(clocks) => jazmotip::OnuClock { synced: 1, time: clocks.tx, rx: clocks.rx },
        };
        let mut joined = [jazmotip::Joined::default(); 4];
        joined.iter_mut().zip(&self.joined).for_each(|(place, group)| *place = group.record());
        jazmotip::Onu {
            identity: self.identity.record(),
            oltmac: self.olt_mac,
            tick: self.tick,
            clock,
            keys: jazmotip::OnuKeys {
                active: self.active as u32,
                held: u8::from(self.keys.contains_key(&(self.active + 1))),
                slots: keys_record(&self.keys),
            },
            first: first_record(self.first_send.map(|travel| (travel - LEAST_TRAVEL) as u64)),
            travel: self.travel_record(),
            channels: self.channels.record(),
            joinedcount: self.joined.len() as u8,
            joined,
        }
    }

    fn lent(record: &jazmotip::Onu) -> Option<Onu> {
        let tick = within(record.tick, 0, LAST_TICK)?;
        let rx = within(record.clock.rx, 0, CLOCK - 1)?;
        let clocks = match flag(record.clock.synced)? {
            false => within(record.clock.time, 0, (1 << 32) - 1).map(|_| None)?,
            true => Some(Stamps { rx, tx: within(record.clock.time, 0, CLOCK - 1)? }),
        };
        let active = u64::from(record.keys.active);
        let reach = within(active + u64::from(flag(record.keys.held)?), 0, u64::from(u32::MAX))?;
        let identity = Identity::lent(&record.identity)?;
        let places = record.joined.get(..usize::from(record.joinedcount))?;
        let joined: Vec<Joined> = places.iter().map(Joined::lent).collect::<Option<_>>()?;
        let llids = identity.llids.iter().copied().chain(joined.iter().map(|group| group.llid));
        (!repeats(llids)).then_some(())?;
        Some(Onu {
            identity,
            olt_mac: within(record.oltmac, 0, CLOCK - 1)?,
            tick,
            local_time: record.clock.time as u32,
            clocks,
            active,
            keys: keys_lent(&record.keys.slots, active..=reach),
            first_send: first_lent(&record.first, u64::MAX)?.map(|at| i128::from(at) + LEAST_TRAVEL),
            changes: (record.travel.changes.unsigned_abs() <= 1 << 61).then_some(record.travel.changes)?,
            last_end: end_lent(record.travel.spent),
            waits_for: end_lent(record.travel.bar),
            channels: Channels::lent(&record.channels)?,
            joined,
        })
    }
}
