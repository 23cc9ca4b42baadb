//! AES-128 and sealing (01, Counter block and mask; FIPS 197).

use crate::random::{cases, Random};
use crate::reference::aes::Schedule;
use crate::reference::{payload, Passed};
use jazmotip::{calls, Nonce, PayloadAnswer, RoundKeys, Work, MAX_EQS};

/// Octets of a text in hex.
fn hex<const N: usize>(text: &str) -> [u8; N] {
    let octets: Vec<u8> = (0..text.len()).step_by(2).map(|i| u8::from_str_radix(&text[i..i + 2], 16).expect("hex")).collect();
    octets.try_into().expect("its length")
}

fn nonce(random: &mut Random) -> Nonce {
    Nonce { channel: random.pick(&[0x00, 0x01, 0x80, 0x81]), mac: random.mac(), clock: random.clock() }
}

/// One call of each sealing function, against the reference: number, count, runs, output, and the octets around it.
fn check(random: &mut Random, encenabled: u8, key: &[u8; 16], nonce: Nonce, input: &[u8], output: usize) -> PayloadAnswer {
    let expected = payload::seal(encenabled, &Schedule::new(key), nonce, input, output);
    let mut lent = random.lent(output);
    let answer = calls::seal(encenabled, key, nonce, input, lent.part());
    let mut lent_again = random.lent(output);
    let again = calls::seal_expanded(encenabled, calls::expand_key(key), nonce, input, lent_again.part());
    assert_eq!(answer, again);
    match expected {
        Ok(Passed { octets, count, runs }) => {
            assert_eq!(answer, PayloadAnswer { number: 0, count, runs });
            lent.check(Some(&octets));
            lent_again.check(Some(&octets));
        }
        Err(number) => {
            assert_eq!(answer, PayloadAnswer { number, count: 0, runs: 0 });
            lent.check(None);
            lent_again.check(None);
        }
    }
    answer
}

/// The same in place, where the payload is the output.
fn check_in_place(random: &mut Random, encenabled: u8, key: &[u8; 16], nonce: Nonce, octets: &[u8]) {
    let expected = payload::seal(encenabled, &Schedule::new(key), nonce, octets, octets.len());
    let (answer, holds) = match &expected {
        Ok(Passed { octets, count, runs }) => (PayloadAnswer { number: 0, count: *count, runs: *runs }, Some(&octets[..])),
        Err(number) => (PayloadAnswer { number: *number, count: 0, runs: 0 }, None),
    };
    let mut lent = random.lent_payload(octets);
    assert_eq!(calls::seal_in_place(encenabled, key, nonce, lent.part()), answer);
    lent.check(holds);
    let mut lent = random.lent_payload(octets);
    assert_eq!(calls::seal_expanded_in_place(encenabled, calls::expand_key(key), nonce, lent.part()), answer);
    lent.check(holds);
}

#[test]
fn published_values() {
    // FIPS 197, C.1, and B
    let key = hex("000102030405060708090a0b0c0d0e0f");
    let block = hex("00112233445566778899aabbccddeeff");
    assert_eq!(Schedule::new(&key).encrypt(block), hex("69c4e0d86a7b0430d8cdb78070b4c55a"));
    assert_eq!(calls::expand_key(&key).octets[160..], hex::<16>("13111d7fe3944a17f307a78b4d2b30c5"));
    let key = hex("2b7e151628aed2a6abf7158809cf4f3c");
    let block = hex("3243f6a8885a308d313198a2e0370734");
    assert_eq!(Schedule::new(&key).encrypt(block), hex("3925841d02dc09fbdc118597196a0b32"));
    // A.1: the first and the last round key that are made
    let keys = calls::expand_key(&key);
    assert_eq!(keys.octets[..16], key);
    assert_eq!(keys.octets[16..32], hex::<16>("a0fafe1788542cb123a339392a6c7605"));
    assert_eq!(keys.octets[160..], hex::<16>("d014f9a8c9ee2589e13f0cc8b6630ca6"));
}

#[test]
fn bench_value_p1() {
    let place = hex("80020000000001000000000041000002");
    assert_eq!(payload::counter_block(0x80, 0x020000000001, 0x41, 2), place);
    // the engine's third block is enciphered under it
    let key = hex("000102030405060708090a0b0c0d0e0f");
    let nonce = Nonce { channel: 0x80, mac: 0x020000000001, clock: 0x41 };
    let mut stream = [0; 54];
    assert_eq!(calls::seal(1, &key, nonce, &[0; 54], &mut stream), PayloadAnswer { number: 0, count: 48, runs: 3 });
    let cipher = Schedule::new(&key).encrypt(place);
    assert_eq!((&stream[37..45], &stream[46..54]), cipher.split_at(8));
}

#[test]
fn bench_value_p12() {
    let mut sealed = [0; 9];
    let input = [0x81, 0, 0, 0, 0, 0, 0, 0, 0];
    let nonce = Nonce { channel: 0x00, mac: 1, clock: 2 };
    let answer = calls::seal(1, &[3; 16], nonce, &input, &mut sealed);
    let stream = Schedule::new(&[3; 16]).encrypt(payload::counter_block(0x00, 1, 2, 0));
    assert_eq!(answer, PayloadAnswer { number: 0, count: 6, runs: 1 });
    assert_eq!((sealed[0], sealed[1], sealed[8]), (0x81, 0, 0));
    assert_eq!(sealed[2..8], stream[1..7]);
}

#[test]
fn random_payloads() {
    cases(1500, |random| {
        let eqs = random.pick(&[0, 1, 2, 3, 7, 8, 40, 41, 300]) + random.below(4) as usize;
        let (key, nonce, input) = (random.key(), nonce(random), random.payload(eqs));
        let answer = check(random, 1, &key, nonce, &input, input.len());
        assert_eq!(answer.count, calls::count(&input));
        check(random, 0, &key, nonce, &input, input.len());
        check_in_place(random, 1, &key, nonce, &input);
        check_in_place(random, 0, &key, nonce, &input);
        // sealing twice gives the payload back
        let (mut sealed, mut opened) = (vec![0; input.len()], vec![0; input.len()]);
        calls::seal(1, &key, nonce, &input, &mut sealed);
        calls::seal(1, &key, nonce, &sealed, &mut opened);
        assert_eq!(opened, input);
        assert_eq!(
            RoundKeys::expand(&key).seal_in_place(nonce, &mut sealed),
            Ok(Work { count: answer.count, runs: answer.runs })
        );
        assert_eq!(sealed, input);
    });
}

#[test]
fn random_key_schedules() {
    cases(2000, |random| {
        let key = random.key();
        assert_eq!(calls::expand_key(&key).octets, Schedule::new(&key).octets());
        // round keys that no key expands to are taken as they are
        let mut keys = RoundKeys { octets: [0; 176] };
        random.fill(&mut keys.octets);
        let (nonce, input) = (nonce(random), random.payload(3));
        let mut lent = random.lent(input.len());
        let answer = calls::seal_expanded(1, keys, nonce, &input, lent.part());
        let schedule = Schedule::from_octets(&keys.octets);
        let Passed { octets, count, runs } = payload::seal(1, &schedule, nonce, &input, input.len()).expect("accepted");
        assert_eq!(answer, PayloadAnswer { number: 0, count, runs });
        lent.check(Some(&octets));
    });
}

#[test]
fn every_damage_to_the_arguments() {
    cases(20, |random| {
        let (key, good) = (random.key(), nonce(random));
        let eqs = random.below(5) as usize;
        let input = random.payload(eqs);
        for encenabled in 0..=255 {
            check(random, encenabled, &key, good, &input, input.len());
            check_in_place(random, encenabled, &key, good, &input);
        }
        for channel in 0..=255 {
            for encenabled in 0..=2 {
                check(random, encenabled, &key, Nonce { channel, ..good }, &input, input.len());
                check_in_place(random, encenabled, &key, Nonce { channel, ..good }, &input);
            }
        }
        for value in [0, 1, (1 << 48) - 1, 1 << 48, (1 << 48) + 1, 1 << 63, u64::MAX] {
            for encenabled in 0..=2 {
                check(random, encenabled, &key, Nonce { mac: value, ..good }, &input, input.len());
                check(random, encenabled, &key, Nonce { clock: value, ..good }, &input, input.len());
                check_in_place(random, encenabled, &key, Nonce { mac: value, ..good }, &input);
                check_in_place(random, encenabled, &key, Nonce { clock: value, ..good }, &input);
            }
        }
        // lengths off by a few, and 14 ahead of 1
        for octets in 0..=28usize {
            let input = random.octets(octets);
            check_in_place(random, 1, &key, good, &input);
            check_in_place(random, 2, &key, Nonce { channel: 2, ..good }, &input);
            for output in [octets, octets + 1, octets.saturating_sub(1), octets + 9, 0] {
                check(random, 1, &key, good, &input, output);
                check(random, 2, &key, Nonce { channel: 2, ..good }, &input, output);
            }
        }
    });
}

#[test]
fn counts_of_any_octets() {
    cases(2000, |random| {
        let length = random.below(400) as usize;
        let octets = random.octets(length);
        assert_eq!(calls::count(&octets), payload::count(&octets));
    });
    assert_eq!(calls::count(&[0xFF; 9]), 0);
    assert_eq!(calls::count(&[]), 0);
}

#[test]
fn the_largest_payload_and_one_more() {
    cases(1, |random| {
        let (key, nonce) = (random.key(), nonce(random));
        let input = random.payload(MAX_EQS + 1);
        let largest = &input[..9 * MAX_EQS];
        let answer = check(random, 1, &key, nonce, largest, largest.len());
        assert_eq!((answer.number, answer.count), (0, payload::count(largest)));
        assert_eq!(calls::count(largest), answer.count);
        check_in_place(random, 1, &key, nonce, largest);
        for encenabled in 0..=2 {
            let answer = check(random, encenabled, &key, nonce, &input, input.len());
            assert_eq!(answer, PayloadAnswer { number: 14, count: 0, runs: 0 });
            check_in_place(random, encenabled, &key, nonce, &input);
        }
    });
}

/// A payload whose blocks are idle, of control characters alone, seven times in ten.
fn idle_heavy(random: &mut Random, eqs: usize) -> Vec<u8> {
    let mut octets = random.payload(eqs);
    for block in octets.chunks_mut(18).filter(|_| random.below(10) < 7) {
        block.chunks_mut(9).for_each(|eq| eq[0] = 0xff);
    }
    octets
}

/// 02, C-17: no run for a block of control characters alone, the odd last EQ by its own control octet; half the EQs, rounded up, at most.
#[test]
fn idle_blocks_take_no_run() {
    cases(1000, |random| {
        let (key, nonce, eqs) = (random.key(), nonce(random), random.below(50) as usize);
        let most = eqs.div_ceil(2) as u64;
        let mut input = idle_heavy(random, eqs);
        let mixed = check(random, 1, &key, nonce, &input, 9 * eqs);
        assert!(mixed.runs <= most);
        check_in_place(random, 1, &key, nonce, &input);
        assert_eq!(check(random, 0, &key, nonce, &input, 9 * eqs).runs, 0);
        assert_eq!(check(random, 1, &key, nonce, &input, 9 * eqs + 9).runs, 0);
        // idle blocks alone, and then the one data octet of a last EQ
        input.chunks_mut(9).for_each(|eq| eq[0] = 0xff);
        assert_eq!(check(random, 1, &key, nonce, &input, 9 * eqs), PayloadAnswer::default());
        check_in_place(random, 1, &key, nonce, &input);
        if let Some(eq) = input.chunks_mut(9).next_back() {
            eq[0] = 0xff ^ 1 << random.below(8);
            assert_eq!(check(random, 1, &key, nonce, &input, 9 * eqs), PayloadAnswer { number: 0, count: 1, runs: 1 });
        }
        // one data octet in each block, in either EQ
        for block in input.chunks_mut(18) {
            let place = if block.len() == 18 { random.pick(&[0, 9]) } else { 0 };
            block.chunks_mut(9).for_each(|eq| eq[0] = 0xff);
            block[place] ^= 1 << random.below(8);
        }
        assert_eq!(check(random, 1, &key, nonce, &input, 9 * eqs), PayloadAnswer { number: 0, count: most, runs: most });
    });
}

/// The fewest EQs by hand: one, two and three, each idle or with data.
#[test]
fn runs_of_short_payloads() {
    let nonce = Nonce { channel: 0x00, mac: 1, clock: 2 };
    let runs = |control: &[u8]| {
        let payload: Vec<u8> = control.iter().flat_map(|&control| [control, 1, 2, 3, 4, 5, 6, 7, 8]).collect();
        RoundKeys::expand(&[3; 16]).seal(nonce, &payload, &mut vec![0; payload.len()]).map(|work| work.runs)
    };
    for (control, expected) in [
        (&[][..], 0),
        (&[0xff], 0),
        (&[0x7f], 1),
        (&[0xff, 0xff], 0),
        (&[0x00, 0x00], 1),
        (&[0xff, 0xfe], 1),
        (&[0xfe, 0xff], 1),
        (&[0xff, 0xff, 0xff], 0),
        (&[0x00, 0x00, 0xff], 1),
        (&[0xff, 0xff, 0x00], 1),
        (&[0x00, 0xff, 0x00], 2),
    ] {
        assert_eq!(runs(control), Ok(expected), "{control:02x?}");
    }
}
