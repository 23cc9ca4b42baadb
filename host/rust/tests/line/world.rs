//! The ends of a list, and the line between them.

use super::groups::{groupings, Grouping};
use super::Kind;
use crate::pairs::Pair;
use crate::random::Random;
use crate::reference::olt::{Olt, Unit};
use crate::reference::onu::Onu;
use crate::reference::{Key, Passed};
use crate::tally::Tally;
use jazmotip::{Acknowledgement, Header, Identity, KeyMessage, Stamps};
use std::collections::{BTreeSet, HashSet, VecDeque};

/// What a call handed over, on its way.
#[derive(Clone)]
pub enum Thing {
    Clock(Stamps),
    Key(KeyMessage),
    /// An envelope, and what it must open to.
    Envelope {
        header: Header,
        octets: Vec<u8>,
        payload: Passed,
    },
    /// The same of a group, with the number of the key that it was sent under, 0 for clear.
    GroupEnvelope {
        header: Header,
        octets: Vec<u8>,
        payload: Passed,
        number: u64,
    },
}

pub struct Leaving {
    pub due: u64,
    pub thing: Thing,
}

/// A unit, and the line between it and the OLT.
pub struct Station {
    pub end: Pair<Onu>,
    pub identity: Identity,
    pub delay_down: u64,
    pub delay_up: u64,
    pub interval: u64,
    pub registered: bool,
    pub down: VecDeque<Leaving>,
    pub up: VecDeque<Leaving>,
    /// Acknowledgements handed over, for a group with its LLID, and the tick from which they can be there.
    pub acknowledgements: Vec<(u64, Option<u16>, Acknowledgement)>,
    /// The keys of groups whose messages were accepted, by LLID and number.
    pub taken: BTreeSet<(u16, u64)>,
}

impl Station {
    /// A fresh unit: its LLIDs out of the free ones, delays, and LocalTime as 01 sets it.
    fn new(kind: Kind, random: &mut Random, tally: &mut Tally, free: &mut Vec<u16>, oltmac: u64, clock: u64) -> Station {
        let count = random.within(1, 4);
        let llids: Vec<u16> = (0..count).map(|_| free.swap_remove(random.below(free.len() as u64) as usize)).collect();
        let mut identity = Identity::new(random.mac(), &llids);
        let most = random.pick(&[0, 3, 20, 500_000]);
        let (delay_down, delay_up) = (random.below(most + 1), random.below(most + 1));
        let interval = match random.below(6) {
            0 => 1,
            1 => random.within(1, 1 << 47),
            _ => random.pick(&[7, 30, 200, 3000]),
        };
        let time = match kind {
            Kind::Wild if random.once_in(4) => random.below(1 << 32),
            _ => (clock + delay_up) % (1 << 32),
        };
        // places past the count may hold anything on the way in
        identity.llids[count as usize..].iter_mut().for_each(|past| *past = random.next() as u16);
        let end = Pair::<Onu>::fresh(tally, identity, oltmac, time).expect("fresh");
        Station {
            end,
            identity,
            delay_down,
            delay_up,
            interval,
            registered: false,
            down: VecDeque::new(),
            up: VecDeque::new(),
            acknowledgements: Vec::new(),
            taken: BTreeSet::new(),
        }
    }

    /// A group's key numbers in what is under way are so many higher.
    pub fn lift(&mut self, llid: u16, up: u64) {
        for leaving in &mut self.down {
            match &mut leaving.thing {
                Thing::Key(message) if message.llid == llid => message.number += up as u32,
                Thing::GroupEnvelope { header, number, .. } if header.llid == llid && *number >= 1 => *number += up,
                _ => (),
            }
        }
        for (_, group, acknowledgement) in &mut self.acknowledgements {
            if *group == Some(llid) {
                acknowledgement.number += up as u32;
            }
        }
        self.taken = self.taken.iter().map(|&(of, number)| (of, number + if of == llid { up } else { 0 })).collect();
    }

    pub fn llid(&self, random: &mut Random) -> u16 {
        self.identity.llids[random.below(u64::from(self.identity.count)) as usize]
    }
}

pub struct World<'a> {
    pub kind: Kind,
    pub random: &'a mut Random,
    pub tally: &'a mut Tally,
    pub olt: Pair<Olt>,
    pub stations: Vec<Station>,
    /// A thing is lost once in so many; 0 for never.
    loss: u64,
    /// A leap comes once in so many steps.
    pub calm: u64,
    /// A path changes once in so many steps.
    pub settled: u64,
    /// Whether the list nears its end, and may come to the last tick.
    pub late: bool,
    /// Channel index, key, MAC and clock of every sealed envelope.
    pub sealed: HashSet<(u8, Key, u64, u64)>,
    /// Envelopes that have left, for others to overhear.
    pub past: VecDeque<(Option<usize>, Header, Vec<u8>)>,
    pub groupings: Vec<Grouping>,
}

impl<'a> World<'a> {
    pub fn new(kind: Kind, random: &'a mut Random, tally: &'a mut Tally) -> World<'a> {
        let (mac, clock) = (random.mac(), random.clock());
        let olt = Pair::<Olt>::fresh(tally, mac, clock).expect("fresh");
        let mut free: Vec<u16> = (0..=20).chain([0xFFFF, 0xFFFE]).collect();
        let stations = (0..3).map(|_| Station::new(kind, random, tally, &mut free, mac, clock)).collect();
        let (loss, calm) = (random.pick(&[0, 10, 4]), random.pick(&[20, 200, 1000]));
        let settled = random.pick(&[100, 600, 3000]);
        let (sealed, past, groupings) = (HashSet::new(), VecDeque::new(), groupings(random, &mut free));
        let mut world = World { kind, random, tally, olt, stations, loss, calm, settled, late: false, sealed, past, groupings };
        if world.random.once_in(4) {
            let strangers = world.random.within(12, 15);
            (0..strangers).for_each(|_| world.register_stranger());
        }
        for i in 0..3 {
            if !world.random.once_in(4) {
                world.register(i);
            }
        }
        for g in 0..2 {
            if !world.random.once_in(3) {
                world.register_group(g);
                (0..3).for_each(|i| world.join(i, g));
            }
        }
        world
    }

    pub fn tick(&self) -> u64 {
        self.olt.sound().tick
    }

    pub fn unit(&self, i: usize) -> Option<&Unit> {
        self.olt.sound().unit(self.stations[i].identity.llids[0]).ok()
    }

    pub fn any_station(&mut self) -> usize {
        self.random.below(3) as usize
    }

    pub fn leaves(&mut self, i: usize, downwards: bool, thing: Thing) {
        if self.loss != 0 && self.random.once_in(self.loss) {
            self.tally.event("lost on the line");
            return;
        }
        let (tick, station) = (self.tick(), &mut self.stations[i]);
        let (way, delay) =
            if downwards { (&mut station.down, station.delay_down) } else { (&mut station.up, station.delay_up) };
        way.push_back(Leaving { due: tick + delay, thing });
        if way.len() > 30 {
            way.pop_front();
        }
    }

    /// The next thing that arrives, and whether it is on time: the first that is due, or in a wild list any.
    pub fn arriving(&mut self, i: usize, downwards: bool) -> Option<(Thing, bool)> {
        let tick = self.tick();
        let astray = self.kind == Kind::Wild && self.random.once_in(60);
        let station = &mut self.stations[i];
        let way = if downwards { &mut station.down } else { &mut station.up };
        if astray && !way.is_empty() {
            let place = self.random.below(way.len() as u64) as usize;
            return Some((way[place].thing.clone(), false));
        }
        let place = way.iter().position(|leaving| leaving.due == tick)?;
        way.drain(..place);
        way.pop_front().map(|leaving| (leaving.thing, true))
    }
}
