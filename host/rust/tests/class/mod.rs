//! Who may see what (02, C-19): a block opened and listed for one user of a class, and keys loaded, on sound and damaged input.

mod drawn;
mod named;

use crate::random::{cases, Random};
use crate::reference::capture::{directory, Opened, Refused, Way};
use crate::reference::class;
use crate::tally::Tally;
use drawn::{alike, drawn, Drawn};
use jazmotip::{calls, BlockAnswer, BlockNearAnswer, Caller, LISTING_OCTETS};

/// The answer of opening into an output of so many octets, and what that then holds, if it is written.
fn expected(
    caller: Caller,
    sets: &[u8],
    rights: &[u8],
    block: &[u8],
    output: usize,
    way: Way,
) -> (BlockNearAnswer, Option<Vec<u8>>) {
    match class::open(caller, sets, rights, block, output, way) {
        Ok(Opened { octets, count, runs, expansions, corrections: (smallest, largest) }) => {
            let answer = BlockAnswer { number: 0, expansions, pair: 0, count, runs };
            (BlockNearAnswer { answer, smallest, largest }, Some(octets))
        }
        Err(Refused { number, pair }) => {
            let answer = BlockAnswer { number, pair, ..BlockAnswer::default() };
            (BlockNearAnswer { answer, ..BlockNearAnswer::default() }, None)
        }
    }
}

fn listed(list: impl FnOnce(&mut [u8; LISTING_OCTETS]) -> usize) -> String {
    let mut text = [b'?'; LISTING_OCTETS];
    let length = list(&mut text);
    assert!(text[length..].iter().all(|&octet| octet == b'?'));
    String::from_utf8_lossy(&text[..length]).into_owned()
}

/// Opening and listing, both ways.
fn check(random: &mut Random, tally: &mut Tally, caller: Caller, sets: &[u8], rights: &[u8], block: &[u8], output: usize) {
    let mut lent = random.lent(output);
    let answer = calls::class_open(caller, sets, rights, block, lent.part());
    tally.note("open", answer.number);
    let (known, octets) = expected(caller, sets, rights, block, output, Way::Usual);
    assert_eq!(answer, known.answer);
    lent.check(octets.as_deref());
    let mut lent = random.lent(output);
    let near = calls::class_open_near(caller, sets, rights, block, lent.part());
    let (known, octets) = expected(caller, sets, rights, block, output, Way::Near);
    assert_eq!(near, known);
    lent.check(octets.as_deref());
    let text = listed(|text| calls::class_list(caller, sets, rights, block, text));
    assert_eq!(text, class::listing(caller, sets, rights, block, Way::Usual));
    let text = listed(|text| calls::class_list_near(caller, sets, rights, block, text));
    assert_eq!(text, class::listing(caller, sets, rights, block, Way::Near));
}

fn check_load(random: &mut Random, tally: &mut Tally, caller: Caller, sets: &[u8], rights: &[u8], llid: u16, index: u8) {
    let key = random.key();
    let mut lent = random.lent_payload(sets);
    let number = calls::class_load(caller, lent.part(), rights, llid, index, &key);
    tally.note("load", number);
    let known = class::load(caller, sets, rights, llid, index, &key);
    assert_eq!(number, known.as_ref().err().copied().unwrap_or(0));
    lent.check(known.ok().as_deref());
}

/// What all records of a sound block came to.
fn note_records(tally: &mut Tally, given: &Drawn, block: &[u8]) {
    let text = class::listing(given.caller, &given.sets, &given.rights, block, Way::Usual);
    for line in text.lines().skip(1) {
        tally.event(match line.rsplit(' ').next() {
            Some("-") => "hidden",
            Some("seen") => "seen",
            Some("open") => "open",
            Some("1") => "refused 1",
            Some("9") => "refused 9",
            Some("10") => "refused 10",
            _ => "another line",
        });
    }
}

#[test]
fn sound_classes() {
    let mut tally = Tally::default();
    let all = cases(1500, |random| {
        let given = drawn(random);
        let block = given.block();
        let output = if random.once_in(20) { block.len() + 9 } else { block.len() };
        check(random, &mut tally, given.caller, &given.sets, &given.rights, &block, output);
        note_records(&mut tally, &given, &block);
        let llid = u16::from_be_bytes([given.sets[39], given.sets[40]]);
        for llid in [llid, llid + u16::from(given.caller.sets - 1), llid.wrapping_add(u16::from(given.caller.sets))] {
            let index = random.pick(&[0, 1, 0, 1, 2, 255]);
            check_load(random, &mut tally, given.caller, &given.sets, &given.rights, llid, index);
        }
    });
    if all {
        tally.gave("open", 0, 1000);
        tally.gave("open", 14, 20);
        for number in [0, 1, 24] {
            tally.gave("load", number, 200);
        }
        for event in ["hidden", "seen", "open", "refused 1", "refused 9", "refused 10"] {
            tally.reached(event, 200);
        }
    }
}

/// Counts, presence, rights, LLIDs, lengths and blocks that are off, alone or together.
#[test]
fn damaged_classes() {
    let mut tally = Tally::default();
    let all = cases(4000, |random| {
        let Drawn { mut caller, mut sets, mut rights, records } = drawn(random);
        let mut block = crate::captures::blocks::block(&records);
        for _ in 0..random.within(1, 3) {
            match random.below(9) {
                0 => caller.user = random.pick(&[0, 1, caller.users, caller.users.wrapping_add(1), 255]),
                1 => caller.users = random.pick(&[0, 1, 16, 17, 255]),
                2 => caller.sets = random.pick(&[0, 1, 16, 17, 255]),
                3 => sets.truncate(random.below(sets.len() as u64 + 1) as usize),
                4 => rights.truncate(random.below(rights.len() as u64 + 1) as usize),
                5 if !sets.is_empty() => {
                    let j = random.below(sets.len() as u64 / 41 + 1) as usize * 41 % sets.len();
                    sets[j] = random.next() as u8;
                }
                6 if !rights.is_empty() => {
                    let place = random.below(rights.len() as u64) as usize;
                    rights[place] = random.next() as u8;
                }
                7 if sets.len() >= 82 => {
                    let llid = [sets[39], sets[40]];
                    let last = sets.len() - 2;
                    sets[last..].copy_from_slice(&llid);
                }
                _ => {
                    // half of them in the directory
                    let end = random.pick(&[block.len(), 2 + 8 * records.len()]);
                    let place = random.below(end as u64) as usize;
                    block[place] ^= 1 << random.below(8);
                }
            }
        }
        check(random, &mut tally, caller, &sets, &rights, &block, block.len());
        check_load(random, &mut tally, caller, &sets, &rights, 5, 0);
    });
    if all {
        for number in [0, 1, 3, 14, 18, 23] {
            tally.gave("open", number, 50);
        }
        for number in [1, 3, 14, 23, 24] {
            tally.gave("load", number, 50);
        }
    }
}

/// 02: what a user may not see changes no octet of that user's listing and output, and no count, runs, expansions or corrections.
#[test]
fn who_may_not_see_learns_nothing() {
    let mut tally = Tally::default();
    let all = cases(2000, |random| {
        let given = drawn(random);
        let other = alike(random, &given);
        let answers = |given: &Drawn| {
            let block = given.block();
            let (caller, sets, rights) = (given.caller, &given.sets[..], &given.rights[..]);
            let (mut usual, mut nearly) = (vec![0xAA; block.len()], vec![0xAA; block.len()]);
            let open = calls::class_open(caller, sets, rights, &block, &mut usual);
            let near = calls::class_open_near(caller, sets, rights, &block, &mut nearly);
            let list = listed(|text| calls::class_list(caller, sets, rights, &block, text));
            let list_near = listed(|text| calls::class_list_near(caller, sets, rights, &block, text));
            (open, near, usual, nearly, list, list_near)
        };
        let (first, second) = (answers(&given), answers(&other));
        assert_eq!(first.0.number, 0);
        assert_eq!(first, second);
        if given.records != other.records {
            tally.event("records differ");
        }
        if given.sets != other.sets {
            tally.event("sets differ");
        }
    });
    if all {
        tally.reached("records differ", 500);
        tally.reached("sets differ", 500);
    }
}

/// The reverse: what a user may open is read as document 01's reader reads it with the set of its LLID.
#[test]
fn who_may_open_reads_as_alone() {
    cases(800, |random| {
        let mut given = drawn(random);
        given.rights.fill(random.pick(&[2, 3, 6, 7]));
        let block = given.block();
        let mut output = vec![0; block.len()];
        let answer = calls::class_open(given.caller, &given.sets, &given.rights, &block, &mut output);
        let text = listed(|text| calls::class_list(given.caller, &given.sets, &given.rights, &block, text));
        let (mut count, mut runs, mut expansions) = (0, 0, 0);
        for set in given.sets.chunks(41) {
            let mut alone = vec![0; block.len()];
            let own = calls::capture_open(set, &block, &mut alone);
            assert_eq!(own.number, 0);
            (count, runs, expansions) = (count + own.count, runs + own.runs, expansions + own.expansions);
            let list = listed(|text| calls::capture_list(set, &block, text));
            for (i, record) in directory(&block).expect("sound").iter().enumerate() {
                if record.llid.to_be_bytes() == set[39..] {
                    assert_eq!(output[record.offset..record.payload.end], alone[record.offset..record.payload.end]);
                    assert_eq!(text.lines().nth(i + 1), list.lines().nth(i + 1));
                }
            }
        }
        assert_eq!(answer, BlockAnswer { number: 0, expansions, pair: 0, count, runs });
    });
}

/// One user, one set, the rights to see and to open, a block of that LLID: document 01's reader, both ways.
#[test]
fn one_user_alone() {
    cases(500, |random| {
        let mut given = drawn(random);
        given.sets.truncate(41);
        let llid = given.sets[39..].to_vec();
        given.records.iter_mut().for_each(|record| record[2..4].copy_from_slice(&llid));
        let (caller, set, block) = (Caller { sets: 1, users: 1, user: 1 }, &given.sets[..], given.block());
        let (mut output, mut alone) = (vec![0; block.len()], vec![0; block.len()]);
        assert_eq!(calls::class_open(caller, set, &[3], &block, &mut output), calls::capture_open(set, &block, &mut alone));
        assert_eq!(output, alone);
        assert_eq!(
            calls::class_open_near(caller, set, &[3], &block, &mut output),
            calls::capture_open_near(set, &block, &mut alone)
        );
        assert_eq!(output, alone);
        let texts = [
            listed(|text| calls::class_list(caller, set, &[3], &block, text)),
            listed(|text| calls::class_list_near(caller, set, &[3], &block, text)),
        ];
        let own =
            [listed(|text| calls::capture_list(set, &block, text)), listed(|text| calls::capture_list_near(set, &block, text))];
        assert_eq!(texts, own);
    });
}
