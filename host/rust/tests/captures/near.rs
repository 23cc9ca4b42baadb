//! A receive clock that is known only nearly (02, C-18): drifts both ways, across the turn of 2^48, slips of 31 and 32.

use super::blocks::{block, record, settings};
use super::check::check;
use crate::random::{cases, Random};
use crate::tally::Tally;
use jazmotip::capture::near::{self, Corrections};
use jazmotip::{calls, BlockNearAnswer, Refusal, CLOCK_TURN};
use std::collections::BTreeMap;

const CHANNELS: [u8; 4] = [0x00, 0x01, 0x80, 0x81];

/// A clock some ticks on, or back.
fn moved(clock: u64, by: i64) -> u64 {
    (clock as i64 + by).rem_euclid(CLOCK_TURN as i64) as u64
}

fn with_clock(record: &[u8], clock: u64) -> Vec<u8> {
    [&record[..6], &clock.to_be_bytes()[2..], &record[12..]].concat()
}

/// A clear header for LLID 5 with EPAM and the recorded clock.
fn clear(channel: u8, epam: u8, clock: u64) -> Vec<u8> {
    let header = [0, channel, 0, 5, 0, epam, 0, 0, 0, 0, 0, 0, 0, 0, 0, 0];
    with_clock(&header, clock)
}

/// Settings without keys, for LLID 5.
fn keyless() -> Vec<u8> {
    [vec![0; 39], vec![0, 5]].concat()
}

/// The numbers of the verdicts on clear headers, and the corrections.
fn judged(headers: &[Vec<u8>]) -> (Vec<u8>, (i8, i8)) {
    let mut numbers = [0xFF; 256];
    let (numbers, Corrections { smallest, largest }) =
        near::verdicts(&keyless(), &block(headers), &mut numbers).expect("a sound block");
    (numbers.to_vec(), (smallest, largest))
}

/// What a sender sent, and what a reader captured whose clock was `first` off at each channel index's first header and slipped by up to
/// `slip` from one header of it to the next. Returns the records as sent, and with the reader's clocks.
fn captured(random: &mut Random, settings: &[u8], records: usize, slip: i64) -> (Vec<Vec<u8>>, Vec<Vec<u8>>) {
    let mut ahead: BTreeMap<u8, i64> = BTreeMap::new();
    let mut clock = random.clock();
    let (mut sent, mut read) = (Vec::new(), Vec::new());
    for _ in 0..records {
        let eqs = random.below(8) as usize;
        let mut octets = record(random, settings, eqs);
        clock = moved(clock, random.below(5000) as i64);
        let own = octets[0] <= 1
            && CHANNELS.contains(&octets[1])
            && octets[2..4] == settings[39..41]
            && [0, 1, 3].contains(&octets[4]);
        octets[5] = (clock % 64) as u8;
        let by = ahead.entry(octets[1]).or_default();
        let step = random.within(0, 2 * slip as u64) as i64 - slip;
        if own {
            *by += step;
        }
        sent.push(with_clock(&octets, clock));
        read.push(with_clock(&octets, moved(clock, -*by)));
    }
    (sent, read)
}

/// 02: such a reader reads every envelope as if its clock were exact; clock fields stay as recorded.
#[test]
fn a_clock_that_follows_is_as_good_as_exact() {
    let mut tally = Tally::default();
    cases(1500, |random| {
        let presence = random.below(4) as u8;
        let settings = settings(random, presence);
        let records = random.pick(&[1, 2, 3, 8, 40]);
        let slip = random.pick(&[1, 5, 31, 31]);
        let (sent, read) = captured(random, &settings, records, slip);
        let (sent, read) = (block(&sent), block(&read));
        let (mut exact, mut nearly) = (vec![0; sent.len()], vec![0; read.len()]);
        let usual = calls::capture_open(&settings, &sent, &mut exact);
        let BlockNearAnswer { answer, smallest, largest } = calls::capture_open_near(&settings, &read, &mut nearly);
        assert_eq!(answer, usual);
        assert!(-slip <= smallest.into() && smallest <= largest && i64::from(largest) <= slip);
        let mut from = 2 + 8 * records;
        for k in 1..=records {
            exact[from + 6..from + 12].copy_from_slice(&read[from + 6..from + 12]);
            let near = calls::capture_verdict_near(&settings, &read, k);
            assert_eq!(near, calls::capture_verdict(&settings, &sent, k), "record {k}");
            from += 16 + 9 * usize::from(read[from + 15]);
        }
        assert!(nearly == exact, "opened otherwise");
        check(random, &mut tally, &settings, &read);
    });
}

/// Clocks that follow nobody: drifts up to 80 either way, EPAM of any value.
#[test]
fn any_clocks() {
    let mut tally = Tally::default();
    let all = cases(1500, |random| {
        let settings = settings(random, 3);
        let records = random.pick(&[1, 2, 5, 30]);
        let slip = random.pick(&[32, 33, 80]);
        let (_, mut read) = captured(random, &settings, records, slip);
        for octets in &mut read {
            if random.once_in(6) {
                octets[5] = random.next() as u8;
            }
        }
        check(random, &mut tally, &settings, &block(&read));
    });
    if all {
        for number in [0, 1, 2, 10] {
            tally.gave("verdict near", number, 100);
        }
    }
}

/// The nearest clock, for every difference and at the turn of 2^48: 31 either way is taken, exactly 32 is 10, and so is EPAM above 63.
#[test]
fn slips_of_31_and_32() {
    for at in [0, 1, 30, 31, 32, 63, CLOCK_TURN - 1, CLOCK_TURN - 31, CLOCK_TURN - 32, 0x1234_5678_9ABC] {
        for by in -63..=63_i64 {
            let epam = (moved(at, by) % 64) as u8;
            // the same low bits are 64 apart
            let nearest = [by - 64, by, by + 64].into_iter().min_by_key(|by| by.abs()).expect("three");
            let taken = if nearest.abs() <= 31 { (vec![0], (nearest as i8, nearest as i8)) } else { (vec![10], (0, 0)) };
            assert_eq!(judged(&[clear(0x80, epam, at)]), taken, "{by} at {at}");
            assert_eq!(judged(&[clear(0x80, epam | 0x40, at)]), (vec![10], (0, 0)));
            assert_eq!(judged(&[clear(0x80, epam | 0x80, at)]), (vec![10], (0, 0)));
        }
    }
}

/// Corrections add up per channel index; those of a header refused 10, 1 or 2 do not count.
#[test]
fn sums_are_per_channel_index() {
    for channel in CHANNELS {
        // 31 further at each header
        let steps: Vec<_> = (1..=256).map(|k| clear(channel, (31 * k % 64) as u8, 0)).collect();
        assert_eq!(judged(&steps), (vec![0; 256], (31, 31)));
        let back: Vec<_> = (1..=256).map(|k| clear(channel, (31 * k % 64) as u8, 62 * k)).collect();
        assert_eq!(judged(&back), (vec![0; 256], (-31, -31)));
        for other in CHANNELS {
            let expected = if other == channel { (-25, 30) } else { (5, 30) };
            assert_eq!(judged(&[clear(channel, 30, 0), clear(other, 5, 0)]), (vec![0; 2], expected), "{channel} {other}");
        }
        let mut unknown = clear(channel, 20, 0);
        unknown[3] = 6;
        let mut wrong = clear(channel, 20, 0);
        wrong[0] = 2;
        let headers = [clear(channel, 32, 0), unknown, wrong, clear(channel, 7, 0)];
        assert_eq!(judged(&headers), (vec![10, 2, 1, 0], (7, 7)));
    }
    assert_eq!(judged(&[]), (vec![], (0, 0)));
}

/// A header refused 9 moves the sum and the figures; the usual way keeps its check.
#[test]
fn a_header_refused_9_counts() {
    let mut first = clear(0x00, 5, 0);
    first[4] = 1;
    let mut second = clear(0x00, 7, 0);
    second[4] = 1;
    let block = block(&[first, second]);
    let mut opened = vec![0; block.len()];
    let near = calls::capture_open_near(&keyless(), &block, &mut opened);
    assert_eq!((near.answer.number, near.smallest, near.largest), (0, 2, 5));
    assert_eq!(near::verdict(&keyless(), &block, 1), Err(Refusal::NoKey));
    assert_eq!(near::verdict(&keyless(), &block, 2), Err(Refusal::NoKey));
    assert_eq!(jazmotip::capture::verdict(&keyless(), &block, 1), Err(Refusal::EpamDiffers));
    assert!(opened == block);
}
