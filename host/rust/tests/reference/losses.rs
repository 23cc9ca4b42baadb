//! Scripts of exercises (02, C-23), played on the ends of this implementation.

use super::olt::Olt;
use super::onu::Onu;
use super::*;
use jazmotip::Acknowledgement;

const MAC: u64 = 0x020000000001;
const LLID: u16 = 1;

struct Play {
    olt: Olt,
    onu: Onu,
    clock: Option<Acknowledgement>,
    key: Option<Acknowledgement>,
}

impl Play {
    fn new(interval: u64) -> Play {
        let identity = Identity { mac: 0x020000000002, llids: vec![LLID] };
        let mut olt = Olt::fresh(MAC, 0).unwrap();
        olt.register(identity.clone(), 0, interval).unwrap();
        Play { olt, onu: Onu::fresh(identity, MAC, 0).unwrap(), clock: None, key: None }
    }

    fn step(&mut self, number: usize, kind: u8, ticks: u64, lost: bool) {
        match kind {
            0 => {
                let sent = self.olt.capture(LLID).and_then(|()| self.olt.clock_send(LLID));
                self.clock = sent.ok().filter(|_| !lost).and_then(|message| self.onu.clock_message(message).ok());
            }
            1 | 2 => {
                let mut key = [0; 16];
                key[0] = number as u8;
                let sent = if kind == 1 { self.olt.offer(LLID, &key) } else { self.olt.retry(LLID) };
                self.key = sent.ok().filter(|_| !lost).and_then(|message| self.onu.key_message(message).ok());
            }
            3 | 4 => {
                let answer = if kind == 3 { self.clock } else { self.key };
                if let Some(acknowledgement) = answer.filter(|_| !lost) {
                    let _ = self.olt.acknowledge(LLID, acknowledgement);
                }
            }
            5 => {
                if let Some(sent) = self.olt.send(LLID, 0x00, &[], 0).ok().filter(|_| !lost) {
                    let _ = self.onu.receive(&sent.header, &sent.octets, 0);
                }
            }
            6 => {
                if let Some(sent) = self.onu.send(LLID, 0x80, &[], 0).ok().filter(|_| !lost) {
                    let _ = self.olt.receive(&sent.header, &sent.octets, 0);
                }
            }
            _ => {
                let _ = (self.olt.advance(ticks), self.onu.advance(ticks));
            }
        }
    }
}

fn number(octets: &[u8]) -> u64 {
    octets.iter().fold(0, |n, &octet| n << 8 | octet as u64)
}

/// The first step whose loss changes A, C or a, 0 if there is none.
pub fn first_loss(script: &[u8]) -> Reply<usize> {
    refuse_if(script.len() < 8, 1)?;
    let (interval, rest) = (number(&script[..8]), &script[8..]);
    refuse_if(interval == 0 || interval > 1 << 47, 1)?;
    let steps: Vec<(u8, u64)> = rest.chunks(9).map(|step| (step[0], number(&step[1..]))).collect();
    let unknown = steps.iter().any(|&(kind, ticks)| kind > 7 || (kind < 7 && ticks != 0));
    refuse_if(rest.len() % 9 != 0 || steps.len() > 64 || unknown, 26)?;
    let last = |lost: usize| {
        let mut play = Play::new(interval);
        for (i, &(kind, ticks)) in steps.iter().enumerate() {
            play.step(i + 1, kind, ticks, i + 1 == lost);
        }
        let unit = &play.olt.units[0];
        (unit.active, unit.confirmed, play.onu.active)
    };
    let whole = last(0);
    Ok((1..=steps.len()).find(|&lost| last(lost) != whole).unwrap_or(0))
}
