//! Envelopes that are sent, and what arrives.

use super::world::{Thing, World};
use super::Kind;
use crate::reference::olt::Unit;
use crate::reference::{Envelope, Passed, KEY_LIFE};

impl World<'_> {
    /// A payload, the length of the output, and a channel index; now and then one that is refused.
    pub fn drawn(&mut self, direction: u8) -> (Vec<u8>, usize, u8) {
        let eqs = match self.random.below(20) {
            0 | 1 => 0,
            2 => self.random.below(300),
            3..=5 => self.random.below(40),
            _ => self.random.below(9),
        };
        let mut payload = self.random.payload(eqs as usize);
        let mut output = payload.len();
        match self.random.below(40) {
            0 => output += self.random.pick(&[1, 9]),
            1 => output = output.saturating_sub(1),
            2 => payload.push(0),
            3 => {
                payload.push(0);
                output = payload.len();
            }
            _ => (),
        }
        let channel = match self.random.below(40) {
            0 => self.random.next() as u8,
            1 => direction ^ 0x80,
            _ => direction | self.random.below(2) as u8,
        };
        (payload, output, channel)
    }

    /// No two sealed envelopes of a list of the line, of units and groups together, share a key and a counter block.
    pub fn note_sealed(&mut self, envelope: &Envelope) {
        if let (Kind::Line, Some((key, mac, clock))) = (self.kind, envelope.sealed_under) {
            assert!(self.sealed.insert((envelope.header.channel, key, mac, clock)), "a counter block is used twice");
        }
    }

    /// An envelope to station `of`, or to a group, that others overhear.
    pub fn overheard_later(&mut self, of: Option<usize>, envelope: &Envelope) {
        self.past.push_back((of, envelope.header, envelope.octets.clone()));
        if self.past.len() > 8 {
            self.past.pop_front();
        }
    }

    fn sent(&mut self, i: usize, downwards: bool, number: u64, envelope: Envelope, payload: Vec<u8>) {
        self.tally.event(match (downwards, number) {
            (true, 0) => "OLT sends clear",
            (true, 1) => "OLT sends under key 1",
            (true, 2) => "OLT sends under key 2",
            (true, _) => "OLT sends under key 3 or later",
            (false, 0) => "unit sends clear",
            (false, 1) => "unit sends under key 1",
            (false, 2) => "unit sends under key 2",
            (false, _) => "unit sends under key 3 or later",
        });
        self.note_sealed(&envelope);
        self.overheard_later(Some(i), &envelope);
        let Envelope { header, octets, count, runs, .. } = envelope;
        self.leaves(i, downwards, Thing::Envelope { header, octets, payload: Passed { octets: payload, count, runs } });
    }

    pub fn olt_send(&mut self, i: usize) {
        let (payload, output, channel) = self.drawn(0x00);
        let llid = self.stations[i].llid(self.random);
        let key_age = |unit: &Unit, tick: u64| unit.first_send.map_or(0, |first| tick - first);
        let before = self.unit(i).map(|unit| (unit.active, key_age(unit, self.tick())));
        let Ok(envelope) = self.olt.send(self.tally, self.random, llid, channel, &payload, output) else { return };
        let number = self.unit(i).expect("registered").active;
        if before.is_some_and(|(active, _)| active < number) {
            self.tally.event("OLT switched");
        } else if before.is_some_and(|(_, age)| age == KEY_LIFE - 1) {
            self.tally.event("OLT sends at the last tick of a key");
        }
        self.sent(i, true, number, envelope, payload);
    }

    pub fn onu_send(&mut self, i: usize) {
        let (payload, output, channel) = self.drawn(0x80);
        // 01: units are registered before their traffic; what others send is refused at the OLT
        let llid = self.stations[i].llid(self.random);
        let before = self.stations[i].end.sound().clone();
        let travel = before.travel();
        let sent = self.stations[i].end.send(self.tally, self.random, llid, channel, &payload, output);
        if sent == Err(12) && !before.channels.is_taken(channel, self.tick()) {
            self.tally.event("unit waits for its Tx clock");
        }
        let Ok(envelope) = sent else { return };
        if before.first_send.is_some_and(|first| travel - first == i128::from(KEY_LIFE - 1)) {
            self.tally.event("unit sends at the last tick of a key");
        }
        if envelope.header.encenabled == 1 && before.waits_for.is_some() {
            self.tally.event("unit seals after a change");
        }
        let number = self.stations[i].end.sound().active;
        if self.stations[i].registered || self.kind == Kind::Wild {
            self.sent(i, false, number, envelope, payload);
        } else {
            let refused = self.olt.receive(self.tally, self.random, envelope.header, &envelope.octets, payload.len());
            assert_eq!(refused, Err(2));
        }
    }

    pub fn arrive_down(&mut self, i: usize) {
        let Some((thing, on_time)) = self.arriving(i, true) else { return };
        let must_open = on_time && self.kind == Kind::Line;
        let due_back = self.tick() + self.stations[i].delay_up;
        let is_group = |llid: u16| self.groupings.iter().any(|group| group.llid == llid);
        let group = match &thing {
            Thing::Key(message) => Some(message.llid).filter(|&llid| is_group(llid)),
            _ => None,
        };
        let (tally, random, station) = (&mut *self.tally, &mut *self.random, &mut self.stations[i]);
        let answered = match thing {
            Thing::Clock(message) => station.end.clock_message(tally, message).ok(),
            Thing::Key(message) if group.is_some() => self.group_key_arrives(i, message),
            Thing::Key(message) => station.end.key_message(tally, message).ok(),
            Thing::GroupEnvelope { .. } => return self.group_envelope_arrives(i, thing, must_open),
            Thing::Envelope { header, octets, payload } => {
                let before = station.end.sound().active;
                let opened = station.end.receive(tally, random, header, &octets, octets.len());
                if must_open {
                    assert_eq!(opened, Ok(payload), "an envelope down that arrives opens to its payload");
                    tally.event(if header.encenabled == 1 { "arrived down sealed" } else { "arrived down clear" });
                }
                if station.end.sound().active > before {
                    tally.event("unit changed keys");
                }
                None
            }
        };
        let station = &mut self.stations[i];
        station.acknowledgements.extend(answered.map(|acknowledgement| (due_back, group, acknowledgement)));
        if station.acknowledgements.len() > 12 {
            station.acknowledgements.remove(0);
        }
    }

    pub fn arrive_up(&mut self, i: usize) {
        let Some((thing, on_time)) = self.arriving(i, false) else { return };
        let Thing::Envelope { header, octets, payload } = thing else { unreachable!("up go envelopes") };
        let confirmed = |unit: Option<&Unit>| unit.map_or(0, |unit| unit.confirmed);
        let before = confirmed(self.unit(i));
        let opened = self.olt.receive(self.tally, self.random, header, &octets, octets.len());
        if self.kind == Kind::Line && on_time && self.stations[i].registered {
            assert_eq!(opened, Ok(payload), "an envelope up that arrives opens to its payload");
            self.tally.event(if header.encenabled == 1 { "arrived up sealed" } else { "arrived up clear" });
        }
        if confirmed(self.unit(i)) > before {
            self.tally.event("OLT confirmed a key");
        }
    }
}
