//! The points that the papers leave open, one test each, by the package's face.

use super::drawn::set;
use crate::captures::blocks::block;
use crate::random::Random;
use jazmotip::capture::near::Corrections;
use jazmotip::class::{load, Class, LOAD, OPEN, SEE};
use jazmotip::{calls, Caller, Refusal, LISTING_OCTETS};

const HEADING: &str = "no llid ch key eqs result\n";

/// A header of this LLID, flags, EPAM and clock, channel 0, with so many EQs of nines.
fn record(llid: u8, flags: u8, epam: u8, clock: u8, eqs: usize) -> Vec<u8> {
    let header = [0, 0, 0, llid, flags, epam, 0, 0, 0, 0, 0, clock, 0, 0, 0, eqs as u8];
    [&header[..], &vec![9; 9 * eqs]].concat()
}

/// Sets for LLIDs 5, 6 and on, each with the keys that its octet names.
fn sets(presence: &[u8]) -> Vec<u8> {
    let mut random = Random::new(19);
    (5..).zip(presence).flat_map(|(llid, &presence)| set(&mut random, presence, llid)).collect()
}

fn lines(class: Class<'_>, user: u8, records: &[Vec<u8>]) -> String {
    let mut text = [0; LISTING_OCTETS];
    let text = class.list(user, &block(records), &mut text);
    text.strip_prefix(HEADING).expect("the heading").to_string()
}

fn open(class: Class<'_>, user: u8, records: &[Vec<u8>]) -> Result<jazmotip::capture::Opened, Refusal> {
    let block = block(records);
    class.open(user, &block, &mut vec![0; block.len()])
}

#[test]
fn opening_includes_seeing_and_loading_does_not() {
    let (sets, records) = (sets(&[1]), [record(5, 0, 1, 1, 0)]);
    let told = |right| lines(Class { sets: &sets, rights: &[right] }, 1, &records);
    assert_eq!(told(OPEN), "1 0005 00 - 0 open\n");
    assert_eq!(told(SEE | OPEN), told(OPEN));
    assert_eq!(told(SEE), "1 0005 00 - 0 seen\n");
    assert_eq!([told(LOAD), told(0)], ["1 -\n", "1 -\n"]);
}

#[test]
fn seen_comes_before_9_and_is_said_of_clear_records_too() {
    let sets = sets(&[1]);
    let records =
        [record(5, 0, 1, 1, 1), record(5, 3, 1, 1, 1), record(5, 1, 1, 1, 1), record(5, 1, 2, 1, 1), record(5, 2, 1, 1, 1)];
    let told = |right| lines(Class { sets: &sets, rights: &[right] }, 1, &records);
    assert_eq!(
        told(SEE),
        "1 0005 00 - 1 seen\n2 0005 00 1 1 seen\n3 0005 00 0 1 seen\n4 0005 00 0 1 refused 10\n5 0005 00 - 1 refused 1\n"
    );
    assert_eq!(
        told(OPEN),
        "1 0005 00 - 1 open\n2 0005 00 1 1 refused 9\n3 0005 00 0 1 open\n4 0005 00 0 1 refused 10\n5 0005 00 - 1 refused 1\n"
    );
}

#[test]
fn every_users_octets_and_every_sets_presence_are_judged() {
    let mut sets = sets(&[1, 1]);
    assert_eq!(open(Class { sets: &sets, rights: &[3, 3, 3, 8] }, 1, &[]), Err(Refusal::OutOfRange));
    assert!(open(Class { sets: &sets, rights: &[3, 0, 3, 7] }, 1, &[]).is_ok());
    sets[41] = 4;
    assert_eq!(open(Class { sets: &sets, rights: &[3, 0, 3, 7] }, 1, &[]), Err(Refusal::OutOfRange));
}

#[test]
fn a_key_is_loaded_by_bit_2_alone() {
    let before = sets(&[0, 1]);
    let loaded = |rights: &[u8], llid, index| {
        let mut sets = before.clone();
        load(&mut sets, rights, 1, llid, index, &[7; 16]).map(|()| sets)
    };
    let mut after = before.clone();
    after[41] = 3;
    after[41 + 17..41 + 33].fill(7);
    assert_eq!(loaded(&[3, LOAD], 6, 1), Ok(after.clone()));
    // over the key that is there
    after[41..].copy_from_slice(&before[41..]);
    after[41 + 1..41 + 17].fill(7);
    assert_eq!(loaded(&[3, LOAD], 6, 0), Ok(after));
    for (llid, rights) in [(5, [SEE | OPEN, LOAD]), (7, [LOAD, LOAD])] {
        assert_eq!(loaded(&rights, llid, 0), Err(Refusal::NoRight));
    }
    // 1 for the index comes before 3 and 24
    assert_eq!(loaded(&[0, 0], 7, 2), Err(Refusal::OutOfRange));
    let mut twice = before.clone();
    twice[80..82].copy_from_slice(&[0, 5]);
    assert_eq!(load(&mut twice, &[0, 0], 1, 7, 2, &[7; 16]), Err(Refusal::OutOfRange));
    assert_eq!(load(&mut twice, &[0, 0], 1, 7, 1, &[7; 16]), Err(Refusal::RepeatedLlid));
}

#[test]
fn counts_of_users() {
    let sets = sets(&[1]);
    let number = |users: u8, user| {
        let caller = Caller { sets: 1, users, user };
        calls::class_open(caller, &sets, &vec![3; usize::from(users)], &[0, 0], &mut [0; 2]).number
    };
    assert_eq!([number(0, 0), number(0, 1), number(17, 18), number(17, 1)], [23, 23, 23, 14]);
    assert_eq!([number(16, 16), number(16, 17), number(16, 0)], [0, 23, 23]);
}

#[test]
fn the_order_of_a_call() {
    let (good, bad_block) = (sets(&[1, 1]), [0, 1]);
    let number = |caller: (u8, u8, u8), sets: &[u8], rights: &[u8], output: usize| {
        let (sets_of, users, user) = caller;
        let caller = Caller { sets: sets_of, users, user };
        calls::class_open(caller, sets, rights, &bad_block, &mut vec![0; output]).number
    };
    let mut twice = good.clone();
    twice[80..82].copy_from_slice(&[0, 5]);
    let mut odd = twice.clone();
    odd[0] = 4;
    assert_eq!(number((2, 1, 2), &odd, &[8, 8], 3), 23);
    assert_eq!(number((2, 1, 1), &odd, &[8, 8], 3), 14);
    assert_eq!(number((2, 1, 1), &odd, &[0], 2), 14);
    assert_eq!(number((2, 1, 1), &odd, &[0, 0], 2), 1);
    assert_eq!(number((2, 1, 1), &twice, &[0, 8], 2), 1);
    assert_eq!(number((2, 1, 1), &twice, &[0, 0], 2), 3);
    assert_eq!(number((2, 1, 1), &good, &[0, 0], 2), 15);
}

#[test]
fn a_hidden_record_keeps_its_eqs_and_its_place() {
    let sets = sets(&[1]);
    let records = [record(6, 1, 1, 1, 2), record(5, 0, 1, 1, 1)];
    let block = block(&records);
    let mut output = vec![0xAA; block.len()];
    Class { sets: &sets, rights: &[3] }.open(1, &block, &mut output).expect("a sound block");
    let mut hidden = vec![0; 34];
    hidden[15] = 2;
    assert_eq!(output, [&block[..18], &hidden, &records[1]].concat());
    assert_eq!(jazmotip::capture::records(&output), Ok(2));
}

#[test]
fn expansions_are_of_present_keys_that_may_be_opened() {
    let expansions = |presence: &[u8], rights: &[u8]| {
        let sets = sets(presence);
        open(Class { sets: &sets, rights }, 1, &[]).map(|opened| opened.expansions)
    };
    assert_eq!(expansions(&[3, 1, 2, 3], &[2, 3, 1, 4]), Ok(3));
    assert_eq!(expansions(&[3; 16], &[2; 16]), Ok(32));
    assert_eq!(expansions(&[3; 16], &[1; 16]), Ok(0));
}

#[test]
fn seen_records_move_the_sum_and_hidden_ones_do_not() {
    let sets = sets(&[1, 1]);
    // 20 ticks off, 40, and 40: read only by a sum that follows
    let records = [record(6, 0, 21, 1, 0), record(5, 0, 41, 1, 0), record(5, 0, 41, 1, 0)];
    let block = block(&records);
    let told = |rights: &[u8]| {
        let class = Class { sets: &sets, rights };
        let (_, corrections) = class.open_near(1, &block, &mut vec![0; block.len()]).expect("a sound block");
        let mut text = [0; LISTING_OCTETS];
        (class.list_near(1, &block, &mut text).replace(HEADING, ""), corrections)
    };
    let corrected = |smallest, largest| Corrections { smallest, largest };
    assert_eq!(told(&[3, 1]), ("1 0006 00 - 0 seen\n2 0005 00 - 0 open\n3 0005 00 - 0 open\n".to_string(), corrected(0, 20)));
    assert_eq!(told(&[3, 4]), ("1 -\n2 0005 00 - 0 open\n3 0005 00 - 0 open\n".to_string(), corrected(-24, 0)));
}

/// What the program reads is tested with it; the claim in its strong form is `who_may_not_see_learns_nothing`.
#[test]
fn a_class_with_no_block() {
    let sets = sets(&[1]);
    let mut text = [0; LISTING_OCTETS];
    assert_eq!(Class { sets: &sets, rights: &[3] }.list(1, &[], &mut text), format!("{HEADING}refused 15\n"));
    assert_eq!(Class { sets: &[], rights: &[3] }.list(1, &[], &mut text), format!("{HEADING}refused 14\n"));
    assert_eq!(Class { sets: &[], rights: &[] }.list(1, &[], &mut text), format!("{HEADING}refused 23\n"));
}
