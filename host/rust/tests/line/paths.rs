//! Path changes (02, C-16).

use super::world::World;
use super::Kind;
use crate::pairs::Pair;

/// What the sum of the changes may come to, either way.
const MOST_CHANGES: i64 = 1 << 61;

impl World<'_> {
    /// A unit's path changes: both ends are told at one tick, what is under way is lost, and acknowledgements of clock messages for
    /// good. Where either end would refuse, there is no change, and that end's call is made alone.
    pub fn change_path(&mut self, i: usize) {
        if self.random.once_in(2) {
            self.onu_send(i);
        }
        let most = self.random.pick(&[0, 3, 20, 300, 500_000]);
        let (down, up) = (self.random.below(most + 1), self.random.below(most + 1));
        let llid = self.stations[i].llid(self.random);
        let time = (self.olt.sound().clock + up) % (1 << 32);
        let station = &mut self.stations[i];
        let unmeasured = self.olt.refuses(|olt| olt.measure(llid, down + up));
        let untimed = station.end.refuses(|onu| onu.new_time(time));
        if self.kind == Kind::Line && (unmeasured || untimed) {
            if unmeasured {
                assert_eq!(self.olt.measure(self.tally, llid, down + up), Err(2));
            }
            if untimed {
                assert_eq!(station.end.new_time(self.tally, time), Err(17));
            }
            return;
        }
        let _ = self.olt.measure(self.tally, llid, down + up);
        let _ = station.end.new_time(self.tally, time);
        self.tally.event(if up < station.delay_up { "path changed to a shorter" } else { "path changed" });
        let tick = self.olt.sound().tick;
        (station.delay_down, station.delay_up) = (down, up);
        station.down.clear();
        station.up.clear();
        station.acknowledgements.retain(|(.., acknowledgement)| acknowledgement.kind == 2);
        station.acknowledgements.iter_mut().for_each(|(due, ..)| *due = tick + up);
        self.capture(i);
        self.clock_send(i);
    }

    /// Calls that are refused for their values; in a wild list any.
    pub fn change_wrongly(&mut self, i: usize) {
        let llid = self.stations[i].llid(self.random);
        let far = self.random.pick(&[1_000_001, 1 << 48, u64::MAX]);
        let (trip, step) = match self.kind {
            Kind::Wild if self.random.once_in(8) => (self.random.below(1_000_001), self.random.below(1_000_001)),
            _ => (far, self.random.pick(&[1_000_001, 1 << 31, (1 << 32) - 1_000_001])),
        };
        let time = (u64::from(self.stations[i].end.sound().local_time) + step) % (1 << 32);
        let time = if self.random.once_in(4) { time + (1 << 32) } else { time };
        let _ = self.olt.measure(self.tally, llid, trip);
        let _ = self.stations[i].end.new_time(self.tally, time);
    }

    /// Takes the sum of a unit's changes near its end, one way or the other; travel alone is moved, and all that is kept of it, as far
    /// down as it goes.
    pub fn shift_travel(&mut self, i: usize) {
        let mut onu = self.stations[i].end.sound().clone();
        let near = MOST_CHANGES - self.random.below(500_000) as i64;
        let wanted = if self.random.once_in(2) { near } else { -near } - onu.changes;
        let kept = [onu.first_send, onu.last_end, onu.waits_for].into_iter().flatten().min().unwrap_or(0);
        let shift = i128::from(wanted).max(-i128::from(MOST_CHANGES) - kept);
        onu.changes += shift as i64;
        for travel in [&mut onu.first_send, &mut onu.last_end, &mut onu.waits_for].into_iter().flatten() {
            *travel += shift;
        }
        self.stations[i].end = Pair::of(onu);
        self.tally.event("sum of changes near its end");
    }
}
