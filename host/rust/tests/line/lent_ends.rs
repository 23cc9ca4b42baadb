//! Calls on copies of the ends with something changed in them.

use super::strays::STRANGERS;
use super::world::World;
use crate::lent;
use crate::pairs::Pair;
use crate::random::Random;
use crate::reference::olt::Olt;
use crate::reference::onu::Onu;
use jazmotip::{Acknowledgement, Header, Identity, KeyMessage, Roster, Stamps};

const ADVANCES: [u64; 5] = [0, 1, 1000, 1 << 48, 1 << 62];

/// A header for a clock, sealed or clear.
fn any_header(random: &mut Random, channel: u8, llid: u16, clock: u64) -> Header {
    Header { channel, llid, encenabled: random.below(2) as u8, enckey: random.below(2) as u8, epam: (clock % 64) as u8 }
}

impl World<'_> {
    /// Calls on a copy of the OLT with something changed in it.
    pub fn lent_olt(&mut self, i: usize) {
        let mut record = self.olt.record;
        lent::damage_olt(self.random, &mut record);
        let mut end = Pair::<Olt>::lent(record);
        self.tally.event(if end.model.is_some() { "changed OLT still valid" } else { "changed OLT invalid" });
        let (tally, random, station) = (&mut *self.tally, &mut *self.random, &self.stations[i]);
        let unit = station.llid(random);
        let llid = if random.once_in(3) { self.groupings[0].llid } else { unit };
        let payload = random.payload(2);
        let output = if random.once_in(6) { 17 } else { 18 };
        let header = any_header(random, 0x80, llid, record.shared.clock);
        for _ in 0..3 {
            let (kind, named) = (random.below(4) as u8, random.below(2) as u8);
            let number = random.pick(&[record.units[0].keys.offered, record.groups[0].keys.offered]);
            let n = random.pick(&ADVANCES);
            let key = random.key();
            let trip = random.pick(&[0, 1_000_000, 1_000_001]);
            let _ = match random.below(11) {
                10 => end.measure(tally, llid, trip),
                9 => end.register_group(tally, STRANGERS - 1, 1, Roster::new(&[unit])),
                0 => end.register(tally, Identity::new(1, &[STRANGERS - 1]), 0, 1),
                1 => end.advance(tally, n),
                2 => end.capture(tally, llid),
                3 => end.clock_send(tally, llid).map(|_| ()),
                4 => end.offer(tally, llid, &key).map(|_| ()),
                5 => end.retry(tally, llid).map(|_| ()),
                6 => end.acknowledge(tally, llid, Acknowledgement { kind, named, unit, number }),
                7 => end.send(tally, random, llid, 0x00, &payload, output).map(|_| ()),
                _ => end.receive(tally, random, header, &payload, output).map(|_| ()),
            };
        }
    }

    /// Calls on a copy of a unit with something changed in it.
    pub fn lent_onu(&mut self, i: usize) {
        let station = &self.stations[i];
        let mut record = station.end.record;
        lent::damage_onu(self.random, &mut record);
        let mut end = Pair::<Onu>::lent(record);
        self.tally.event(if end.model.is_some() { "changed ONU still valid" } else { "changed ONU invalid" });
        let (tally, random) = (&mut *self.tally, &mut *self.random);
        let llid = if random.once_in(3) { self.groupings[0].llid } else { station.llid(random) };
        let payload = random.payload(2);
        let output = if random.once_in(6) { 19 } else { 18 };
        for _ in 0..3 {
            let header = any_header(random, 0x01, llid, end.record.clock.rx);
            let number = (u64::from(end.record.keys.active) + random.below(2)) as u32;
            let key = random.pick(&[end.record.keys.slots.even, end.record.keys.slots.odd, [9; 16]]);
            let n = random.pick(&ADVANCES);
            let message = Stamps { rx: random.clock(), tx: random.clock() };
            let step = random.pick(&[0, 1, 1_000_000, 1_000_001, (1 << 32) - 1_000_000, (1 << 32) - 1]);
            let time = (end.record.clock.time.wrapping_add(step)) % (1 << 32);
            let _ = match random.below(7) {
                6 => end.new_time(tally, time),
                5 => end.join(tally, STRANGERS - 1),
                0 => end.advance(tally, n),
                1 => end.clock_message(tally, message).map(|_| ()),
                2 => end.key_message(tally, KeyMessage { llid, number, key }).map(|_| ()),
                3 => end.send(tally, random, llid, 0x81, &payload, output).map(|_| ()),
                _ => end.receive(tally, random, header, &payload, output).map(|_| ()),
            };
        }
    }
}
