//! Which lost message of a script matters (02, C-23), against plays on ends of its own.

use crate::random::{cases, Random};
use crate::reference::losses;
use jazmotip::{calls, exercises, Loss, Refusal};

fn octets(interval: u64, steps: &[(u8, u64)]) -> Vec<u8> {
    let mut script = interval.to_be_bytes().to_vec();
    for &(kind, ticks) in steps {
        script.push(kind);
        script.extend(ticks.to_be_bytes());
    }
    script
}

fn check(script: &[u8]) -> Loss {
    let expected = match losses::first_loss(script) {
        Ok(step) => Loss { number: 0, step },
        Err(number) => Loss { number, step: 0 },
    };
    assert_eq!(calls::first_loss(script), expected, "{script:?}");
    expected
}

/// Exchanges that go somewhere, with steps of any kind among them, and ticks of any size now and then.
fn random_script(random: &mut Random) -> Vec<u8> {
    let parts: [&[u8]; 8] = [&[0, 3], &[1, 4], &[2, 4], &[7, 5, 6], &[5], &[6], &[4], &[7]];
    let most = random.within(0, 64) as usize;
    let mut kinds = [0, 3].repeat(random.within(1, 2) as usize);
    while kinds.len() < most {
        if random.once_in(5) {
            kinds.push(random.below(8) as u8);
        } else {
            kinds.extend(random.pick(&parts));
        }
    }
    let ticks = |random: &mut Random, kind| match kind {
        7 if random.once_in(40) => random.next() >> random.below(64),
        7 => random.below(4),
        _ => 0,
    };
    let steps: Vec<(u8, u64)> = kinds.iter().take(most).map(|&kind| (kind, ticks(random, kind))).collect();
    octets(random.within(1, 3), &steps)
}

#[test]
fn drawn_scripts() {
    let mut seen = [0; 8];
    let all = cases(300, |random| {
        let script = random_script(random);
        let step = check(&script).step;
        if step > 0 {
            seen[script[8 + 9 * (step - 1)] as usize] += 1;
        }
        let mut damaged = script.clone();
        let at = random.below(damaged.len() as u64) as usize;
        damaged[at] = random.next() as u8;
        check(&damaged);
        check(&script[..at]);
    });
    assert!(!all || [0, 1, 2, 5, 6].iter().all(|&kind| seen[kind] > 0), "{seen:?}");
}

#[test]
fn limits_of_a_script() {
    for script in [octets(0, &[]), octets((1 << 47) + 1, &[]), vec![0; 7], Vec::new()] {
        assert_eq!(check(&script).number, 1);
        assert_eq!(exercises::first_loss(&script), Err(Refusal::OutOfRange));
    }
    for steps in [vec![(8, 0)], vec![(0, 1)], vec![(7, 1); 65]] {
        assert_eq!(check(&octets(1, &steps)).number, 26);
    }
    assert_eq!(exercises::first_loss(&octets(1, &[(7, 1); 64])), Ok(None));
    let kinds = [0, 3, 0, 3, 1, 4, 7, 5, 6, 4, 1, 4, 7, 5, 6, 2, 4, 1, 7, 5, 6, 1, 4, 7, 5, 6];
    let steps: Vec<(u8, u64)> = kinds.iter().map(|&kind| (kind, (kind == 7) as u64)).collect();
    assert_eq!(exercises::first_loss(&octets(1, &steps)), Ok(Some(6)));
}
