//! Payloads and capture blocks for the store (02, C-12), against a transposition of its own.

use crate::captures::blocks::{block, random_block, record, settings};
use crate::random::{cases, Random};
use crate::reference::store;
use crate::tally::Tally;
use jazmotip::{calls, store as face, Refusal, StoreAnswer, MAX_EQS};

type PayloadCall = fn(&[u8], &mut [u8]) -> u8;
type BlockCall = fn(&[u8], &mut [u8]) -> StoreAnswer;

const PAYLOAD_CALLS: [PayloadCall; 2] = [calls::rearrange, calls::restore];
const BLOCK_CALLS: [BlockCall; 2] = [calls::capture_rearrange, calls::capture_restore];

/// Both calls on octets, for an output of `size`: number, output, and the octets around it.
fn check(random: &mut Random, payload: &[u8], size: usize) {
    for (back, call) in [false, true].into_iter().zip(PAYLOAD_CALLS) {
        let mut lent = random.lent(size);
        let number = call(payload, lent.part());
        match store::payload(back, payload, size) {
            Ok(octets) => {
                assert_eq!(number, 0);
                lent.check(Some(&octets));
            }
            Err(expected) => {
                assert_eq!(number, expected);
                lent.check(None);
            }
        }
    }
}

/// Each call undoes the other.
fn check_undone(payload: &[u8]) {
    let (mut there, mut again) = (vec![0; payload.len()], vec![0; payload.len()]);
    for [first, second] in [PAYLOAD_CALLS, [calls::restore, calls::rearrange]] {
        assert_eq!((first(payload, &mut there), second(&there, &mut again)), (0, 0));
        assert!(again == payload, "{} EQs are not undone", payload.len() / 9);
    }
}

#[test]
fn where_octets_go() {
    // two EQs: both control octets, then data octet 0 of both, up to 7
    let payload: [u8; 18] = std::array::from_fn(|i| 16 * (i / 9) as u8 + (i % 9) as u8);
    let mut planes = [0; 18];
    assert_eq!(face::rearrange(&payload, &mut planes), Ok(()));
    assert_eq!(
        planes,
        [0x00, 0x10, 0x01, 0x11, 0x02, 0x12, 0x03, 0x13, 0x04, 0x14, 0x05, 0x15, 0x06, 0x16, 0x07, 0x17, 0x08, 0x18]
    );
    let mut restored = [0; 18];
    assert_eq!(face::restore(&planes, &mut restored), Ok(()));
    assert_eq!(restored, payload);
}

#[test]
fn payloads() {
    cases(20, |random| {
        for eqs in [0, 1, 2, 3, 63, 64, 65, 511, 512, 513, random.below(3000) as usize] {
            let payload = random.payload(eqs);
            check(random, &payload, payload.len());
            check_undone(&payload);
            // an output of another length, and octets that are no multiple of 9
            check(random, &payload, payload.len() + 9);
            check(random, &payload, payload.len().saturating_sub(9));
            let off = random.within(1, 8) as usize;
            let cut = random.octets(payload.len() + off);
            check(random, &cut, cut.len());
        }
        let ten = random.octets(10);
        check(random, &ten, 10);
        assert_eq!(face::rearrange(&ten, &mut [0; 10]), Err(Refusal::BadLength));
    });
}

#[test]
fn largest_payload() {
    let random = &mut Random::new(12);
    let payload = random.octets(9 * MAX_EQS);
    check(random, &payload, payload.len());
    check_undone(&payload);
    let more = random.octets(9 * (MAX_EQS + 1));
    check(random, &more, more.len());
}

fn check_block(random: &mut Random, tally: &mut Tally, block: &[u8], size: usize) {
    for (back, call) in [false, true].into_iter().zip(BLOCK_CALLS) {
        let mut lent = random.lent(size);
        let answer = call(block, lent.part());
        tally.note("block", answer.number);
        match store::block(back, block, size) {
            Ok(octets) => {
                assert_eq!(answer, StoreAnswer::default());
                lent.check(Some(&octets));
            }
            Err(refused) => {
                assert_eq!(answer, StoreAnswer { number: refused.number, pair: refused.pair });
                lent.check(None);
            }
        }
    }
}

/// Rearranged and restored, a block is the block, and opens as it does; the rearranged block has the same directory.
fn check_block_undone(settings: &[u8], block: &[u8]) {
    let (mut there, mut again) = (vec![0; block.len()], vec![0; block.len()]);
    assert_eq!(face::rearrange_block(block, &mut there), Ok(()));
    assert_eq!(calls::capture_directory(&there), calls::capture_directory(block));
    assert_eq!(face::restore_block(&there, &mut again), Ok(()));
    assert!(again == block);
    let (mut opened, mut expected) = (vec![0; block.len()], vec![0; block.len()]);
    let answer = calls::capture_open(settings, &again, &mut opened);
    assert_eq!(answer, calls::capture_open(settings, block, &mut expected));
    assert!(opened == expected);
}

#[test]
fn blocks() {
    let mut tally = Tally::default();
    let all = cases(300, |random| {
        let settings = settings(random, 3);
        let records = random.pick(&[0, 1, 2, 3, 10, 40]);
        let most_eqs = random.pick(&[0, 3, 20, 60]);
        let sound = random_block(random, &settings, records, most_eqs);
        check_block(random, &mut tally, &sound, sound.len());
        check_block_undone(&settings, &sound);
        let off = random.within(1, 20) as usize;
        check_block(random, &mut tally, &sound, sound.len() + off);
        check_block(random, &mut tally, &sound, sound.len().saturating_sub(off));
        // one octet of the directory or of a record changed, and the block cut short
        for _ in 0..8 {
            let mut damaged = sound.clone();
            let among = random.pick(&[2 + 8 * records, sound.len()]);
            let place = random.below(among as u64) as usize;
            damaged[place] = damaged[place].wrapping_add(random.within(1, 255) as u8);
            check_block(random, &mut tally, &damaged, damaged.len());
        }
        let cut = random.below(sound.len() as u64) as usize;
        check_block(random, &mut tally, &sound[..cut], cut);
        // the longest block, and 14 ahead of 15
        let longest = block(&[record(random, &settings, 7278)]);
        check_block(random, &mut tally, &longest, longest.len());
        check_block(random, &mut tally, &[], 1);
    });
    if all {
        for number in [0, 14, 15, 18, 19] {
            tally.gave("block", number, 100);
        }
    }
}
