//! The calls on a capture block, held against the reference.

use super::answers;
use crate::random::Random;
use crate::reference::capture::{self, Way};
use crate::tally::Tally;
use jazmotip::{calls, LISTING_OCTETS, RECORDS};

fn check_opening(random: &mut Random, tally: &mut Tally, settings: &[u8], block: &[u8], output: usize) {
    let mut lent = random.lent(output);
    let answer = calls::capture_open(settings, block, lent.part());
    tally.note("open", answer.number);
    let (expected, octets) = answers::open(settings, block, output, Way::Usual);
    assert_eq!(answer, expected.answer);
    lent.check(octets.as_deref());
    let mut lent = random.lent(output);
    let near = calls::capture_open_near(settings, block, lent.part());
    tally.note("open near", near.answer.number);
    let (expected, octets) = answers::open(settings, block, output, Way::Near);
    assert_eq!(near, expected);
    lent.check(octets.as_deref());
}

pub fn check_record(tally: &mut Tally, settings: &[u8], block: &[u8], k: usize) {
    let verdict = calls::capture_verdict(settings, block, k);
    assert_eq!(verdict, answers::verdict(settings, block, k, Way::Usual), "verdict on record {k}");
    tally.note("verdict", verdict.number);
    let near = calls::capture_verdict_near(settings, block, k);
    assert_eq!(near, answers::verdict(settings, block, k, Way::Near), "near verdict on record {k}");
    tally.note("verdict near", near.number);
    let part = calls::capture_payload(block, k);
    assert_eq!(part, answers::part(block, k), "payload of record {k}");
    tally.note("payload", part.number);
}

fn check_verdicts(random: &mut Random, tally: &mut Tally, settings: &[u8], block: &[u8], output: usize) {
    let filled =
        |numbers: Option<Vec<u8>>, rest: Vec<u8>| numbers.map(|numbers| [&numbers[..], &rest[numbers.len()..]].concat());
    let mut lent = random.lent(output);
    let rest = lent.part().to_vec();
    let answer = calls::capture_verdicts(settings, block, lent.part());
    tally.note("verdicts", answer.number);
    let (expected, numbers) = answers::verdicts(settings, block, output, Way::Usual);
    assert_eq!(answer, expected.directory);
    lent.check(filled(numbers, rest).as_deref());
    let mut lent = random.lent(output);
    let rest = lent.part().to_vec();
    let near = calls::capture_verdicts_near(settings, block, lent.part());
    let (expected, numbers) = answers::verdicts(settings, block, output, Way::Near);
    assert_eq!(near, expected);
    lent.check(filled(numbers, rest).as_deref());
}

fn check_listing(settings: &[u8], block: &[u8]) {
    let mut text = [b'?'; LISTING_OCTETS];
    let length = calls::capture_list(settings, block, &mut text);
    assert_eq!(String::from_utf8_lossy(&text[..length]), capture::listing(settings, block, Way::Usual));
    assert!(text[length..].iter().all(|&octet| octet == b'?'));
    let mut text = [b'?'; LISTING_OCTETS];
    let length = calls::capture_list_near(settings, block, &mut text);
    assert_eq!(String::from_utf8_lossy(&text[..length]), capture::listing(settings, block, Way::Near));
    assert!(text[length..].iter().all(|&octet| octet == b'?'));
}

/// Every call on one block.
pub fn check(random: &mut Random, tally: &mut Tally, settings: &[u8], block: &[u8]) {
    let directory = calls::capture_directory(block);
    assert_eq!(directory, answers::directory(block));
    tally.note("directory", directory.number);
    let n = directory.records;
    let mut asked = vec![0, 1, n, n + 1, usize::MAX, random.below(300) as usize];
    if random.once_in(4) {
        asked.extend(2..n);
    }
    for k in asked {
        check_record(tally, settings, block, k);
    }
    check_opening(random, tally, settings, block, block.len());
    if random.once_in(8) {
        let off = random.pick(&[1, 9, 16]);
        check_opening(random, tally, settings, block, block.len() + off);
        check_opening(random, tally, settings, block, block.len().saturating_sub(off));
    }
    check_verdicts(random, tally, settings, block, RECORDS);
    if random.once_in(8) {
        let other = random.pick(&[0, 255, 257]);
        check_verdicts(random, tally, settings, block, other);
    }
    check_listing(settings, block);
}
