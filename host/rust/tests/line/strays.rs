//! What should not be: damaged and overheard envelopes, messages that nobody sent, wrong registrations and units that nobody knows.

use super::world::World;
use super::Kind;
use crate::random::Random;
use jazmotip::{Acknowledgement, Header, Identity, KeyMessage, Stamps};

/// LLIDs of units that no station answers for start here.
pub const STRANGERS: u16 = 1000;

/// Changes one thing of a receipt, or nothing.
fn damage(random: &mut Random, header: &mut Header, octets: &mut Vec<u8>, output: &mut usize) {
    match random.below(12) {
        0 => header.channel ^= 0x80,
        1 => header.channel = random.next() as u8,
        2 => header.llid = random.next() as u16,
        3 => header.encenabled ^= 1,
        4 => header.encenabled = random.next() as u8,
        5 => header.enckey ^= 1,
        6 => header.enckey = random.next() as u8,
        7 => header.epam ^= 1 << random.below(8),
        8 => octets.push(0),
        9 => *output += 1,
        10 => (header.encenabled, header.enckey) = (0, 0),
        _ => (),
    }
}

impl World<'_> {
    /// A receipt of an envelope that is on its way or past, with something wrong. In a list of the line only what is refused.
    pub fn receive_damaged(&mut self, i: usize) {
        let Some((of, mut header, mut octets)) = self.past.back().cloned() else { return };
        let at_olt = header.channel & 0x80 != 0;
        let mut output = octets.len();
        let random = &mut *self.random;
        // so that one thing is wrong, the rest is made right
        if !random.once_in(4) {
            let clock = match at_olt {
                true => self.olt.sound().clock,
                false => self.stations[i].end.sound().clocks.map_or(0, |clocks| clocks.rx),
            };
            header.epam = (clock % 64) as u8;
            if of.is_some() || random.once_in(3) {
                header.llid = self.stations[i].identity.llids[0];
            }
        }
        damage(random, &mut header, &mut octets, &mut output);
        if self.kind == Kind::Line {
            let refused = match at_olt {
                true => self.olt.refuses(|olt| olt.receive(&header, &octets, output)),
                false => self.stations[i].end.refuses(|onu| onu.receive(&header, &octets, output)),
            };
            if !refused {
                return;
            }
        }
        let _ = match at_olt {
            true => self.olt.receive(self.tally, self.random, header, &octets, output),
            false => self.stations[i].end.receive(self.tally, self.random, header, &octets, output),
        };
    }

    /// Another unit overhears an envelope: refused, at any time and with any buffer.
    pub fn overhear(&mut self) {
        let i = self.any_station();
        let Some((of, header, octets)) = self.past.front().cloned() else { return };
        if self.stations[i].end.sound().group(header.llid).is_some() {
            self.overhear_joined(i, header, &octets);
        } else if of != Some(i) {
            let output = if self.random.once_in(4) { octets.len() + 1 } else { octets.len() };
            let refused = self.stations[i].end.receive(self.tally, self.random, header, &octets, output);
            assert!(matches!(refused, Err(1 | 2 | 14)), "overheard: {refused:?}");
            self.tally.event("overheard");
        }
    }

    /// Messages and acknowledgements that nobody sent. In a list of the line only what is refused.
    pub fn stray(&mut self, i: usize) {
        let line = self.kind == Kind::Line;
        let number = match self.unit(i) {
            Some(unit) => (unit.offered + self.random.below(4)).saturating_sub(2) as u32,
            None => self.random.below(3) as u32,
        };
        let llid = self.stations[i].llid(self.random);
        match self.random.below(4) {
            0 => {
                let kind = self.random.pick(&[0, 1, 2, 2, 2, 3, 255]);
                let named = u8::from(self.random.once_in(6));
                let acknowledgement = Acknowledgement { kind, named, unit: llid, number };
                if !line || self.olt.refuses(|olt| olt.acknowledge(llid, acknowledgement)) {
                    let _ = self.olt.acknowledge(self.tally, llid, acknowledgement);
                }
            }
            1 => {
                let known = self.stations[i].end.sound().keys.values().copied().next();
                let key = known.filter(|_| self.random.once_in(2)).unwrap_or([0; 16]);
                let llid = if self.random.once_in(4) { llid ^ 0x4000 } else { llid };
                let message = KeyMessage { llid, number, key };
                let onu = &mut self.stations[i].end;
                if !line || onu.refuses(|onu| onu.key_message(message)) {
                    let _ = onu.key_message(self.tally, message);
                }
            }
            _ => {
                let (rx, tx) = (self.random.clock(), self.random.clock());
                let far = self.random.pick(&[1 << 48, u64::MAX]);
                let message = match self.random.below(3) {
                    0 => Stamps { rx: far, tx },
                    1 => Stamps { rx, tx: far },
                    _ => Stamps { rx, tx },
                };
                let onu = &mut self.stations[i].end;
                if !line || onu.refuses(|onu| onu.clock_message(message)) {
                    let _ = onu.clock_message(self.tally, message);
                }
            }
        }
    }

    /// A registration that is refused, for a value or for an LLID.
    pub fn register_wrongly(&mut self, i: usize) {
        let (random, identity) = (&mut *self.random, self.stations[i].identity);
        let far = random.pick(&[1u64 << 48, u64::MAX, 1 << 63]);
        let twice = Identity::new(identity.mac, &[identity.llids[0], STRANGERS - 1, identity.llids[0]]);
        let (identity, trip, interval) = match random.below(7) {
            0 => (Identity { mac: far, ..identity }, 0, 1),
            1 => (Identity { count: 0, ..identity }, 0, 1),
            2 => (Identity { count: random.within(5, 255) as u8, ..identity }, 0, 1),
            3 => (identity, random.pick(&[1_000_001, far]), 1),
            4 => (identity, 0, 0),
            5 => (identity, 0, random.pick(&[(1 << 47) + 1, far])),
            _ => (twice, 0, 1),
        };
        assert!(self.olt.register(self.tally, identity, trip, interval).is_err());
    }

    pub fn register_stranger(&mut self) {
        let llid = STRANGERS + self.random.below(60_000) as u16;
        let identity = Identity::new(self.random.mac(), &[llid]);
        let interval = self.random.within(1, 1 << 47);
        let _ = self.olt.register(self.tally, identity, 0, interval);
    }

    pub fn unknown_llid(&mut self) {
        let llid = STRANGERS - 1;
        let (tally, random) = (&mut *self.tally, &mut *self.random);
        let header = Header { channel: 0x80, llid, encenabled: 0, enckey: 0, epam: 0 };
        match random.below(8) {
            7 => assert_eq!(self.olt.measure(tally, llid, 7), Err(2)),
            0 => assert_eq!(self.olt.capture(tally, llid), Err(2)),
            1 => assert_eq!(self.olt.clock_send(tally, llid), Err(2)),
            2 => assert_eq!(self.olt.offer(tally, llid, &[0; 16]), Err(2)),
            3 => assert_eq!(self.olt.retry(tally, llid), Err(2)),
            4 => assert_eq!(self.olt.acknowledge(tally, llid, Acknowledgement { kind: 1, ..Default::default() }), Err(2)),
            5 => assert_eq!(self.olt.send(tally, random, llid, 0x00, &[], 0), Err(2)),
            _ => assert_eq!(self.olt.receive(tally, random, header, &[], 0), Err(2)),
        }
        if self.random.once_in(3) {
            self.register_stranger();
        }
    }
}
