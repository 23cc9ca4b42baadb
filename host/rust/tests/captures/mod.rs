//! Capture blocks (01, Capture block): directory, verdicts, payload bounds, opening and listing, on sound and damaged blocks.

pub mod answers;
pub mod blocks;
mod check;
mod near;

use crate::random::{cases, Random};
use crate::reference::capture;
use crate::tally::Tally;
use blocks::{block, random_block, record, settings};
use check::{check, check_record};
use jazmotip::capture::Opened;
use jazmotip::{calls, BlockAnswer, LISTING_OCTETS, RECORDS};

#[test]
fn sound_blocks() {
    let mut tally = Tally::default();
    let all = cases(2000, |random| {
        let presence = random.below(4) as u8;
        let settings = settings(random, presence);
        let records = random.pick(&[0, 1, 2, 3, 10, 40]) + random.below(3) as usize;
        let most_eqs = random.pick(&[0, 3, 20, 60]);
        let block = random_block(random, &settings, records, most_eqs);
        check(random, &mut tally, &settings, &block);
    });
    if all {
        for number in [0, 1, 2, 9, 10] {
            tally.gave("verdict", number, 40);
        }
        tally.gave("open", 0, 400);
    }
}

#[test]
fn full_blocks() {
    let mut tally = Tally::default();
    cases(6, |random| {
        let settings = settings(random, 3);
        // 256 records, and the longest of all
        let full = random_block(random, &settings, 256, 10);
        check(random, &mut tally, &settings, &full);
        for k in 0..=257 {
            check_record(&mut tally, &settings, &full, k);
        }
        let two = [record(random, &settings, 7000), record(random, &settings, 276)];
        let longest = block(&two);
        assert_eq!((longest.len(), calls::capture_directory(&longest).number), (65_534, 0));
        check(random, &mut tally, &settings, &longest);
        // sizes alone: 65,537 octets, and 257 records
        let too_long = block(&[record(random, &settings, 7279)]);
        assert_eq!((too_long.len(), calls::capture_directory(&too_long).number), (65_537, 15));
        check(random, &mut tally, &settings, &too_long);
        let too_many = random_block(random, &settings, 257, 2);
        assert_eq!(calls::capture_directory(&too_many).number, 15);
        check(random, &mut tally, &settings, &too_many);
        let octets = random.octets(65_536);
        check(random, &mut tally, &settings, &octets);
    });
}

#[test]
fn damaged_directories() {
    let mut tally = Tally::default();
    let all = cases(150, |random| {
        let settings = settings(random, 3);
        let records = random.within(1, 9) as usize;
        let most_eqs = random.pick(&[0, 2, 12]);
        let sound = random_block(random, &settings, records, most_eqs);
        // each octet of the directory
        for place in 0..2 + 8 * records {
            for change in [1, 0xFF, random.within(1, 255) as u8] {
                let mut damaged = sound.clone();
                damaged[place] = damaged[place].wrapping_add(change);
                check(random, &mut tally, &settings, &damaged);
            }
        }
        // each record's EQs, up to 2^32 - 1
        for record in capture::directory(&sound).expect("sound") {
            for eqs in [record.eqs + 1, record.eqs.wrapping_sub(1), 0xFFFF_FFFF, 0x1C71_C71C, 0x1C71_C71D, 1 << 31] {
                let mut damaged = sound.clone();
                damaged[record.offset + 12..record.offset + 16].copy_from_slice(&(eqs as u32).to_be_bytes());
                check(random, &mut tally, &settings, &damaged);
            }
        }
        // cut short and drawn out
        for cut in 0..sound.len().min(60) {
            check(random, &mut tally, &settings, &sound[..cut]);
            check(random, &mut tally, &settings, &sound[..sound.len() - cut]);
        }
        for more in 1..4 {
            let longer = [sound.clone(), random.octets(more)].concat();
            check(random, &mut tally, &settings, &longer);
        }
    });
    for octets in 0..4 {
        check(&mut Random::new(1), &mut tally, &[0; 41], &vec![0; octets]);
    }
    if all {
        for number in [15, 18, 19] {
            tally.gave("directory", number, 500);
            tally.gave("open", number, 500);
        }
        tally.gave("open", 14, 500);
    }
}

/// The first bad pair is named, in a full block too; at one pair the chain comes before the length.
#[test]
fn the_first_bad_pair() {
    let mut random = Random::new(1);
    let settings = settings(&mut random, 3);
    let sound = random_block(&mut random, &settings, 256, 3);
    let records = capture::directory(&sound).expect("sound");
    let chain = |block: &mut Vec<u8>, pair: usize| block[2 + 8 * (pair - 1) + 3] ^= 1;
    let length = |block: &mut Vec<u8>, pair: usize| block[records[pair - 1].offset + 15] ^= 1;
    let found = |block: &[u8]| {
        let directory = calls::capture_directory(block);
        assert_eq!(directory.records, 0);
        (directory.number, directory.pair)
    };
    for pair in [1, 2, 128, 255, 256] {
        let mut damaged = sound.clone();
        length(&mut damaged, pair);
        assert_eq!(found(&damaged), (19, pair as u16));
        length(&mut damaged, 256.min(pair + 1));
        chain(&mut damaged, 256);
        assert_eq!(found(&damaged), if pair == 256 { (18, 256) } else { (19, pair as u16) });
        chain(&mut damaged, pair.min(255));
        assert_eq!(found(&damaged), if pair == 256 { (18, 255) } else { (18, pair as u16) });
    }
    // the last pair ends short of the block, or past it
    let longer = [sound.clone(), vec![0]].concat();
    assert_eq!(found(&longer), (18, 256));
    assert_eq!(found(&sound[..sound.len() - 1]), (18, 256));
}

/// A broken pair is told by every call, and by the package as a case with its number; 9 times EQs does not wrap onto a length.
#[test]
fn the_broken_pair_everywhere() {
    let mut random = Random::new(1);
    let settings = settings(&mut random, 3);
    let mut wrapping = vec![0, 1, 0, 0, 0, 10, 0, 0, 0, 21];
    wrapping.extend([0; 12]);
    wrapping.extend([0x1C, 0x71, 0xC7, 0x1D]);
    wrapping.extend([0; 5]);
    let refusal = jazmotip::Refusal::UnsuitedLength(1);
    assert_eq!((refusal.number(), refusal.pair()), (19, Some(1)));
    assert_eq!(refusal.to_string(), "refused 19 1: length does not suit the record's EQs");
    assert_eq!(jazmotip::capture::records(&wrapping), Err(refusal));
    assert_eq!(jazmotip::capture::verdict(&settings, &wrapping, 9), Err(refusal));
    assert_eq!(jazmotip::capture::payload(&wrapping, 9), Err(refusal));
    assert_eq!(jazmotip::capture::open(&settings, &wrapping, &mut [0; 31]), Err(refusal));
    let sound = random_block(&mut random, &settings, 3, 3);
    let cut = &sound[..sound.len() - 1];
    assert_eq!(jazmotip::capture::payload(cut, 0), Err(jazmotip::Refusal::BrokenChain(3)));
    let mut text = [0; LISTING_OCTETS];
    assert_eq!(jazmotip::capture::list(&settings, cut, &mut text), "no llid ch key eqs result\nrefused 18 3\n");
}

#[test]
fn pairs_changed_together() {
    cases(2000, |random| {
        let mut tally = Tally::default();
        let settings = settings(random, 3);
        let records = random.within(2, 6) as usize;
        let mut damaged = random_block(random, &settings, records, 3);
        // an octet moved from one pair's length to the next one's offset, or any two entries exchanged
        let entry = |k: usize| 2 + 8 * k..10 + 8 * k;
        let (a, b) = (random.below(records as u64) as usize, random.below(records as u64) as usize);
        match random.below(3) {
            0 => {
                let (first, second) = (damaged[entry(a)].to_vec(), damaged[entry(b)].to_vec());
                damaged[entry(a)].copy_from_slice(&second);
                damaged[entry(b)].copy_from_slice(&first);
            }
            1 => {
                damaged[2 + 8 * a + 7] = damaged[2 + 8 * a + 7].wrapping_add(9);
                damaged[2 + 8 * b + 3] = damaged[2 + 8 * b + 3].wrapping_add(9);
            }
            _ => {
                let k = a.min(records - 2);
                damaged[2 + 8 * k + 7] = damaged[2 + 8 * k + 7].wrapping_add(9);
                damaged[2 + 8 * (k + 1) + 3] = damaged[2 + 8 * (k + 1) + 3].wrapping_add(9);
                damaged[2 + 8 * (k + 1) + 7] = damaged[2 + 8 * (k + 1) + 7].wrapping_sub(9);
            }
        }
        check(random, &mut tally, &settings, &damaged);
    });
}

#[test]
fn damaged_settings() {
    let mut tally = Tally::default();
    cases(12, |random| {
        let good = settings(random, 3);
        let sound = random_block(random, &good, 4, 3);
        let unsound = [sound.clone(), vec![0]].concat();
        for presence in 0..=255 {
            let settings = [&[presence], &good[1..]].concat();
            check(random, &mut tally, &settings, &sound);
            check(random, &mut tally, &settings, &unsound);
        }
        for length in (0..80).filter(|&length| length != 41) {
            let settings = random.octets(length);
            check(random, &mut tally, &settings, &sound);
            check(random, &mut tally, &settings, &unsound);
        }
    });
}

#[test]
fn random_octets() {
    let mut tally = Tally::default();
    cases(20_000, |random| {
        let settings = settings(random, 1);
        let length = random.below(80) as usize;
        let mut octets = random.octets(length);
        if let Some(top) = octets.first_mut() {
            *top = 0;
        }
        if let Some(count) = octets.get_mut(1) {
            *count %= 4;
        }
        check(random, &mut tally, &settings, &octets);
    });
}

/// The listing of 01's own example, and what the records of it are.
#[test]
fn the_listing_of_document_01() {
    let mut settings = vec![0; 33];
    settings.extend([2, 0, 0, 0, 0, 1, 0, 5]);
    let mut block = vec![0, 2, 0, 0, 0, 0x12, 0, 0, 0, 0x10, 0, 0, 0, 0x22, 0, 0, 0, 0x10];
    block.extend([0, 0, 0, 5, 0, 1, 0, 0, 0, 0, 0, 0x41, 0, 0, 0, 0]);
    block.extend([0, 0, 0, 5, 1, 2, 0, 0, 0, 0, 0, 0x42, 0, 0, 0, 0]);
    let mut text = [0; LISTING_OCTETS];
    let listing = jazmotip::capture::list(&settings, &block, &mut text);
    assert_eq!(listing, "no llid ch key eqs result\n1 0005 00 - 0 open\n2 0005 00 0 0 refused 9\n");
    assert_eq!(jazmotip::capture::records(&block), Ok(2));
    assert_eq!(jazmotip::capture::verdict(&settings, &block, 1), Ok(None));
    assert_eq!(jazmotip::capture::verdict(&settings, &block, 2), Err(jazmotip::Refusal::NoKey));
    assert_eq!(jazmotip::capture::verdicts(&settings, &block, &mut [7; 256]), Ok(&[0, 9][..]));
    assert_eq!(jazmotip::capture::payload(&block, 2), Ok(&[][..]));
    assert_eq!(jazmotip::capture::open(&settings, &block, &mut [0; 50]), Ok(Opened { count: 0, runs: 0, expansions: 0 }));
}

/// 02, C-17: a key that is present is expanded once for the call, whether or not a record needs it; runs are of opened records alone.
#[test]
fn expansions_and_runs_of_a_block() {
    cases(200, |random| {
        let mut tally = Tally::default();
        let settings = settings(random, 3);
        let with = |presence: u8| [&[presence], &settings[1..]].concat();
        let whole = |presence: u8, block: &[u8]| jazmotip::capture::open(&with(presence), block, &mut vec![0; block.len()]);
        // no records
        for (presence, expansions) in [(0, 0), (1, 1), (2, 1), (3, 2)] {
            assert_eq!(whole(presence, &[0, 0]), Ok(Opened { count: 0, runs: 0, expansions }));
        }
        // a record of idle blocks and one of data, under key 0
        let eqs = random.within(1, 40) as usize;
        let sealed = |random: &mut Random, flags: u8, control: u8| {
            let mut octets = vec![0, 0x00, settings[39], settings[40], flags, 7, 0, 0, 0, 0, 0, 7, 0, 0, 0, eqs as u8];
            octets.extend(random.octets(9 * eqs));
            octets[16..].chunks_mut(9).for_each(|eq| eq[0] = control);
            octets
        };
        let runs = eqs.div_ceil(2) as u64;
        let under_key_0 = block(&[sealed(random, 1, 0xff), sealed(random, 1, 0x00), sealed(random, 0, 0x00)]);
        let opened = |expansions| Ok(Opened { count: 8 * eqs as u64, runs, expansions });
        assert_eq!((whole(1, &under_key_0), whole(3, &under_key_0)), (opened(1), opened(2)));
        assert_eq!(whole(2, &under_key_0), Ok(Opened { count: 0, runs: 0, expansions: 1 }));
        check(random, &mut tally, &settings, &under_key_0);
        // as many records as there can be
        let full = block(&vec![sealed(random, 3, 0x00); RECORDS.min(65_534 / (24 + 9 * eqs))]);
        assert_eq!(whole(3, &full).map(|opened| opened.expansions), Ok(2));
        // refused
        let cut = &full[..full.len() - 1];
        let answer = calls::capture_open(&settings, cut, &mut vec![0; cut.len()]);
        assert_eq!(answer, BlockAnswer { number: 18, pair: answer.pair, ..BlockAnswer::default() });
    });
}
