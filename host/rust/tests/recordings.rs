//! Two recordings of one line (02, C-15): drawn blocks that share records, lose some and change others, in both orders, and damaged
//! ones.

use crate::captures::blocks::{block, record, settings};
use crate::random::{cases, Random};
use crate::reference::capture::Refused;
use crate::reference::recordings;
use crate::tally::Tally;
use jazmotip::{calls, Comparison, ENTRIES};

/// The answer and the output of the engine are the reference's; what lies past the entries stays.
#[track_caller]
fn check(random: &mut Random, tally: &mut Tally, llid: u16, first: &[u8], second: &[u8], size: usize) -> Comparison {
    let before = random.octets(size);
    let mut output = before.clone();
    let answer = calls::capture_compare(llid, first, second, &mut output);
    tally.note("compare", answer.number);
    match recordings::compare(llid, first, second, size) {
        Ok((entries, total)) => {
            let expected = Comparison { entries: entries.len() as u16, total, ..Comparison::default() };
            assert_eq!(answer, expected);
            assert_eq!(output[..entries.len()], entries);
            assert_eq!(output[entries.len()..], before[entries.len()..]);
            for (mark, event) in [(0, "alone"), (1, "same"), (2, "different")] {
                entries.iter().filter(|&&entry| entry == mark).for_each(|_| tally.event(event));
            }
        }
        Err((Refused { number, pair }, block)) => {
            assert_eq!(answer, Comparison { number, block, pair, ..Comparison::default() });
            assert_eq!(output, before);
        }
    }
    answer
}

/// A record of a line without odd values: few clocks and LLIDs, so that some agree.
fn plain(random: &mut Random, clocks: u64) -> Vec<u8> {
    let eqs = random.below(4) as usize;
    let mut octets = record(random, &[], eqs);
    octets[0] = random.below(2) as u8;
    octets[1] = random.pick(&[0x00, 0x01, 0x80, 0x81]);
    octets[2..4].copy_from_slice(&random.pick(&[5u16, 6]).to_be_bytes());
    octets[4] = random.pick(&[0, 1, 3]);
    octets[6..12].copy_from_slice(&random.below(clocks).to_be_bytes()[2..]);
    octets
}

/// The same record as the other end may have it: as it is, with an octet changed, or with another EQ count.
fn heard(random: &mut Random, ours: &[u8]) -> Vec<u8> {
    let mut octets = ours.to_vec();
    match random.below(8) {
        0 if octets.len() > 16 => {
            let place = 16 + random.below(octets.len() as u64 - 16) as usize;
            octets[place] ^= 1 << random.below(8);
        }
        1 => {
            octets.extend(random.octets(9));
            octets[15] += 1;
        }
        2 => octets[0] ^= 1,
        3 => octets[4] = random.pick(&[0, 1, 3]),
        4 => octets[5] = random.next() as u8,
        _ => {}
    }
    octets
}

/// Two recordings of one line: each end misses some, and the second has them in another order.
fn two_blocks(random: &mut Random, clocks: u64) -> (Vec<u8>, Vec<u8>) {
    let count = random.pick(&[0, 1, 2, 5, 30]);
    let line: Vec<_> = (0..count).map(|_| plain(random, clocks)).collect();
    let first: Vec<_> = line.iter().filter(|_| !random.once_in(5)).cloned().collect();
    let mut second: Vec<_> = Vec::new();
    for ours in &line {
        if !random.once_in(5) {
            let theirs = heard(random, ours);
            second.insert(random.below(second.len() as u64 + 1) as usize, theirs);
        }
    }
    (block(&first), block(&second))
}

#[test]
fn recordings_of_one_line() {
    let mut tally = Tally::default();
    let all = cases(4000, |random| {
        let clocks = random.pick(&[8, 1 << 20, 1 << 48]);
        let (first, second) = two_blocks(random, clocks);
        let llid = random.pick(&[5, 6, 7]);
        let there = check(random, &mut tally, llid, &first, &second, ENTRIES);
        let back = check(random, &mut tally, llid, &second, &first, ENTRIES);
        assert_eq!((there.number, there.total), (back.number, back.total));
        let own = check(random, &mut tally, llid, &first, &first, ENTRIES);
        assert_eq!(own.total, 0);
    });
    if all {
        tally.gave("compare", 0, 2000);
        tally.gave("compare", 22, 200);
        for event in ["alone", "same", "different"] {
            tally.reached(event, 2000);
        }
    }
}

#[test]
fn damaged_recordings() {
    let mut tally = Tally::default();
    let all = cases(4000, |random| {
        let (mut first, mut second) = two_blocks(random, 1 << 20);
        for octets in [&mut first, &mut second] {
            match random.below(6) {
                0 => octets.truncate(random.below(octets.len() as u64 + 1) as usize),
                1 => octets.push(0),
                2 | 3 if octets.len() > 2 => {
                    let place = random.below(octets.len() as u64) as usize;
                    octets[place] ^= 1 << random.below(8);
                }
                _ => {}
            }
        }
        let size = if random.once_in(20) { random.below(1025) as usize } else { ENTRIES };
        check(random, &mut tally, 5, &first, &second, size);
    });
    if all {
        for number in [0, 1, 14, 15, 18, 19] {
            tally.gave("compare", number, 20);
        }
    }
}

#[test]
fn full_recordings() {
    let mut tally = Tally::default();
    cases(6, |random| {
        let settings = settings(random, 0);
        let mut line: Vec<_> = (0..256)
            .map(|k: u64| {
                let eqs = random.below(20) as usize;
                let mut octets = record(random, &settings, eqs);
                (octets[0], octets[1], octets[4]) = (0, 0x80, 0);
                octets[6..12].copy_from_slice(&(k << 40 | k).to_be_bytes()[2..]);
                octets
            })
            .collect();
        let first = block(&line);
        line.reverse();
        check(random, &mut tally, 5, &first, &block(&line), ENTRIES);
        line.iter_mut().for_each(|octets| octets[1] = 0x81);
        let apart = check(random, &mut tally, 5, &first, &block(&line), ENTRIES);
        assert_eq!((apart.number, apart.entries), (0, 512));
    });
    tally.gave("compare", 0, 12);
}

/// The examples of document 02's reading: what decides, and what does not.
#[test]
fn what_counts() {
    let (mut tally, mut random) = (Tally::default(), Random::new(1));
    let ours = [&[0, 0x80, 0, 5, 0, 1, 0, 0, 0, 0, 0, 0x41, 0, 0, 0, 1][..], &[0xFF; 9]].concat();
    let with = |place: usize, octet: u8| {
        let mut theirs = ours.clone();
        theirs[place] = octet;
        block(&[theirs])
    };
    let entry = |random: &mut Random, tally: &mut Tally, theirs: &[u8]| {
        let mut output = [9; ENTRIES];
        check(random, tally, 5, &block(std::slice::from_ref(&ours)), theirs, ENTRIES);
        calls::capture_compare(5, &block(std::slice::from_ref(&ours)), theirs, &mut output);
        output[0]
    };
    // kind, EncEnabled and EPAM decide nothing; EncKey, a control octet and a control character's value do
    for (place, octet) in [(0, 1), (4, 1), (5, 9)] {
        assert_eq!(entry(&mut random, &mut tally, &with(place, octet)), 1, "octet {place}");
    }
    for (place, octet) in [(4, 3), (16, 0), (17, 0)] {
        assert_eq!(entry(&mut random, &mut tally, &with(place, octet)), 2, "octet {place}");
    }
    // channel index, LLID and clock pair
    for place in [1, 3, 11] {
        let octet = ours[place] ^ 1;
        assert_eq!(entry(&mut random, &mut tally, &with(place, octet)), 0, "octet {place}");
    }
    // 22 comes last: two records that differ in kind alone, and a second block of no octets
    let twice = block(&[ours.clone(), {
        let mut other = ours.clone();
        other[0] = 1;
        other
    }]);
    assert_eq!(
        check(&mut random, &mut tally, 5, &twice, &[], ENTRIES),
        Comparison { number: 15, block: 2, ..Default::default() }
    );
    assert_eq!(
        check(&mut random, &mut tally, 5, &twice, &twice, ENTRIES),
        Comparison { number: 22, block: 1, ..Default::default() }
    );
}
