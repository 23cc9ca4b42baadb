//! Drawn settings, records and blocks.

use crate::random::Random;

fn push(octets: &mut Vec<u8>, number: u64, width: usize) {
    octets.extend_from_slice(&number.to_be_bytes()[8 - width..]);
}

/// Settings with the keys that `presence` names.
pub fn settings(random: &mut Random, presence: u8) -> Vec<u8> {
    let mut octets = vec![presence];
    octets.extend(random.octets(38));
    push(&mut octets, random.pick(&[0, 5, 0xFFFF]), 2);
    octets
}

/// A record that mostly fits the settings; its odd values are those of a technician's trouble.
pub fn record(random: &mut Random, settings: &[u8], eqs: usize) -> Vec<u8> {
    let clock = random.clock();
    let rare = |random: &mut Random, usual: u8| if random.once_in(25) { random.next() as u8 } else { usual };
    let kind = random.below(2) as u8;
    let channel = random.pick(&[0x00, 0x01, 0x80, 0x81]);
    let flags = random.pick(&[0, 1, 1, 3, 3]);
    let mut octets = vec![rare(random, kind), rare(random, channel)];
    octets.extend(if random.once_in(10) { random.octets(2) } else { settings.get(39..41).unwrap_or(&[0, 5]).to_vec() });
    octets.push(match random.below(25) {
        0 => 2,
        1 => 4 | flags,
        _ => rare(random, flags),
    });
    let epam = (clock % 64) as u8;
    octets.push(match random.below(25) {
        0 => epam ^ 1,
        1 => epam | 0x40,
        _ => rare(random, epam),
    });
    push(&mut octets, clock, 6);
    push(&mut octets, eqs as u64, 4);
    octets.extend(random.payload(eqs));
    octets
}

/// A block of these records, its directory right.
pub fn block(records: &[Vec<u8>]) -> Vec<u8> {
    let mut octets = Vec::new();
    push(&mut octets, records.len() as u64, 2);
    let mut offset = 2 + 8 * records.len();
    for record in records {
        push(&mut octets, offset as u64, 4);
        push(&mut octets, record.len() as u64, 4);
        offset += record.len();
    }
    octets.extend(records.concat());
    octets
}

pub fn random_block(random: &mut Random, settings: &[u8], records: usize, most_eqs: u64) -> Vec<u8> {
    let records: Vec<_> = (0..records)
        .map(|_| {
            let eqs = random.below(most_eqs + 1) as usize;
            record(random, settings, eqs)
        })
        .collect();
    block(&records)
}
