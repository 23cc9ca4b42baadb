//! Registration, clock messages, key messages and acknowledgements, as 01 has them go.

use super::world::{Thing, World};

impl World<'_> {
    /// The registration that agrees with the unit, LLIDs in any order.
    pub fn register(&mut self, i: usize) {
        let station = &self.stations[i];
        let mut identity = station.identity;
        let last = usize::from(identity.count) - 1;
        identity.llids.swap(0, self.random.below(last as u64 + 1) as usize);
        identity.llids[last + 1..].iter_mut().for_each(|past| *past = self.random.next() as u16);
        let trip = station.delay_down + station.delay_up;
        let registered = self.olt.register(self.tally, identity, trip, station.interval).is_ok();
        self.stations[i].registered |= registered;
    }

    pub fn capture(&mut self, i: usize) {
        let llid = self.stations[i].llid(self.random);
        let _ = self.olt.capture(self.tally, llid);
    }

    pub fn clock_send(&mut self, i: usize) {
        let llid = self.stations[i].llid(self.random);
        if let Ok(message) = self.olt.clock_send(self.tally, llid) {
            self.leaves(i, true, Thing::Clock(message));
        }
    }

    pub fn offer(&mut self, i: usize) {
        let llid = self.stations[i].llid(self.random);
        let same = self.unit(i).and_then(|unit| unit.keys.get(&unit.active)).copied();
        let key = match same {
            Some(key) if self.random.once_in(8) => key,
            _ => self.random.key(),
        };
        let message = match self.random.below(3) {
            0 => self.olt.retry(self.tally, llid),
            _ => self.olt.offer(self.tally, llid, &key),
        };
        if let Ok(message) = message {
            self.leaves(i, true, Thing::Key(message));
        }
    }

    /// An acknowledgement arrives, for the first time or again.
    pub fn acknowledge(&mut self, i: usize) {
        let (tick, station) = (self.tick(), &self.stations[i]);
        let there: Vec<_> = station.acknowledgements.iter().filter(|(due, ..)| *due <= tick).collect();
        if there.is_empty() {
            return;
        }
        let late = self.random.once_in(3);
        let (_, group, acknowledgement) = if late { self.random.pick(&there) } else { there[there.len() - 1] };
        let llid = group.unwrap_or(station.llid(self.random));
        let _ = self.olt.acknowledge(self.tally, llid, *acknowledgement);
    }
}
