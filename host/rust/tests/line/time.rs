//! Time that passes, and leaps to where clocks, keys and their numbers come to an end.

use super::world::{Thing, World};
use super::Kind;
use crate::pairs::Pair;
use crate::reference::{Key, KEY_LIFE, LAST_TICK};
use jazmotip::SECOND;
use std::collections::BTreeMap;

impl World<'_> {
    /// How far to the next tick at which something is due.
    fn ticks_to_arrival(&self) -> Option<u64> {
        let tick = self.tick();
        let ways = self.stations.iter().flat_map(|station| station.down.iter().chain(&station.up));
        let acknowledgements = self.stations.iter().flat_map(|station| &station.acknowledgements);
        let due = ways.map(|leaving| leaving.due).chain(acknowledgements.map(|(due, ..)| *due));
        due.filter(|&due| due > tick).min().map(|due| due - tick)
    }

    /// A time passes, and most of what is due then arrives.
    pub fn pass_time(&mut self, i: usize) {
        let n = match self.random.below(20) {
            0..=9 => self.ticks_to_arrival().unwrap_or(1),
            10..=14 => self.random.below(13),
            15..=16 => self.unit(i).map_or(1, |unit| unit.interval - unit.count),
            17 => {
                let g = self.any_group();
                self.group(g).map_or(1, |group| group.interval - group.count)
            }
            18 => self.random.below(5000),
            _ => 0,
        };
        self.advance(n);
        for i in 0..3 {
            for _ in 0..4 {
                if !self.random.once_in(6) {
                    self.arrive_down(i);
                    self.arrive_up(i);
                }
            }
            if self.random.once_in(2) {
                self.acknowledge(i);
            }
        }
    }

    /// A leap to where a clock turns or something comes to its end, and calls on both sides of it.
    pub fn leap(&mut self, i: usize) {
        let tick = self.tick();
        let beside = self.random.below(2);
        match self.random.below(20) {
            0..=5 => {
                let turn = self.random.pick(&[1u64 << 32, 1 << 48]);
                let short = self.random.below(40);
                self.advance((turn - self.olt.sound().clock % turn).saturating_sub(short));
            }
            6..=9 => {
                let captured = self.unit(i).and_then(|unit| unit.capture.as_ref().map(|capture| capture.tick));
                let Some(then) = captured else { return };
                self.advance((then + SECOND + beside).saturating_sub(tick));
                self.clock_send(i);
            }
            10..=16 => {
                let at_olt = self.unit(i).and_then(|unit| unit.first_send).map(|first| i128::from(tick - first));
                let onu = self.stations[i].end.sound();
                let at_onu = onu.first_send.map(|first| onu.travel() - first);
                let Some(age) = (if self.random.once_in(2) { at_olt } else { at_onu }) else { return };
                // a key that ages unconfirmed is never replaced: that is rare, so that lists go on
                let confirmed = self.unit(i).is_none_or(|unit| unit.confirmed == unit.active);
                if !confirmed && !self.random.once_in(8) {
                    return;
                }
                self.advance((i128::from(KEY_LIFE - 1 + beside) - age).max(0) as u64);
                self.olt_send(i);
                self.onu_send(i);
            }
            17 => {
                let g = self.any_group();
                let Some(first) = self.group(g).and_then(|group| group.first_send) else { return };
                self.advance((first + KEY_LIFE - 1 + beside).saturating_sub(tick));
                self.group_send(g);
            }
            18 => {
                let past = self.random.pick(&[1, 2, u64::MAX - LAST_TICK]);
                self.advance(LAST_TICK - tick + past);
            }
            _ => {
                let quarters = if self.late { self.random.pick(&[1, 3, 4]) } else { 0 };
                self.advance((LAST_TICK - tick) / 4 * quarters);
            }
        }
    }

    /// An advance goes to all ends; what was due in between is lost.
    fn advance(&mut self, n: u64) {
        let clock = self.olt.sound().clock;
        let ahead = self.olt.advance(self.tally, n);
        if ahead.is_ok() && clock % (1 << 32) + n >= 1 << 32 {
            self.tally.event(if clock + n >= 1 << 48 { "clock passed 2^48" } else { "clock passed 2^32" });
        }
        for station in &mut self.stations {
            assert_eq!(station.end.advance(self.tally, n), ahead);
        }
        if self.kind == Kind::Line {
            let tick = self.tick();
            for station in &mut self.stations {
                station.down.retain(|leaving| leaving.due >= tick);
                station.up.retain(|leaving| leaving.due >= tick);
            }
        }
    }

    /// Takes a unit's key numbers near their end, at both ends and in what is under way; indices stay, being of an even difference.
    pub fn lift(&mut self, i: usize) {
        let place =
            self.olt.sound().units.iter().position(|unit| unit.identity.llids.contains(&self.stations[i].identity.llids[0]));
        let (Some(place), station) = (place, &mut self.stations[i]) else { return };
        let (mut olt, mut onu) = (self.olt.sound().clone(), station.end.sound().clone());
        let unit = &mut olt.units[place];
        if unit.confirmed == 0 || onu.active == 0 {
            return;
        }
        let highest = unit.keys.keys().chain(onu.keys.keys()).max().expect("a key");
        let up = (u64::from(u32::MAX) - highest).saturating_sub(self.random.below(6)) & !1;
        if up == 0 {
            return;
        }
        let lifted = |keys: &BTreeMap<u64, Key>| keys.iter().map(|(n, key)| (n + up, *key)).collect();
        unit.keys = lifted(&unit.keys);
        onu.keys = lifted(&onu.keys);
        unit.active += up;
        unit.confirmed += up;
        unit.offered += up;
        onu.active += up;
        for leaving in &mut station.down {
            match &mut leaving.thing {
                Thing::Key(message)
                    if station.identity.llids[..usize::from(station.identity.count)].contains(&message.llid) =>
                {
                    message.number += up as u32;
                }
                _ => (),
            }
        }
        for (_, group, acknowledgement) in &mut station.acknowledgements {
            if group.is_none() && acknowledgement.kind == 2 {
                acknowledgement.number += up as u32;
            }
        }
        self.olt = Pair::of(olt);
        station.end = Pair::of(onu);
        self.tally.event("key numbers near their end");
    }
}
