//! AES-128, forward, from FIPS 197: the S-box is worked out from the inverse and the affine map, not listed.

use super::Key;
use std::sync::OnceLock;

/// Multiplication in GF(2^8) modulo x^8 + x^4 + x^3 + x + 1 (FIPS 197, 4.2).
fn times(mut a: u8, mut b: u8) -> u8 {
    let mut product = 0;
    while b != 0 {
        if b & 1 == 1 {
            product ^= a;
        }
        let carry = a & 0x80 != 0;
        a <<= 1;
        if carry {
            a ^= 0x1b;
        }
        b >>= 1;
    }
    product
}

/// The multiplicative inverse by search, 0 for 0 (FIPS 197, 5.1.1).
fn inverse(a: u8) -> u8 {
    (1..=255).find(|&b| times(a, b) == 1).unwrap_or(0)
}

/// The affine map of FIPS 197, 5.1.1, bit by bit.
fn affine(b: u8) -> u8 {
    let bit = |i: u32| b >> (i % 8) & 1;
    let c = 0x63u8;
    (0..8).map(|i| (bit(i) ^ bit(i + 4) ^ bit(i + 5) ^ bit(i + 6) ^ bit(i + 7) ^ (c >> i & 1)) << i).sum()
}

struct Tables {
    sub: [u8; 256],
    twice: [u8; 256],
    thrice: [u8; 256],
}

fn tables() -> &'static Tables {
    static TABLES: OnceLock<Tables> = OnceLock::new();
    TABLES.get_or_init(|| Tables {
        sub: std::array::from_fn(|a| affine(inverse(a as u8))),
        twice: std::array::from_fn(|a| times(a as u8, 2)),
        thrice: std::array::from_fn(|a| times(a as u8, 3)),
    })
}

/// The key schedule as its 44 words (FIPS 197, 5.2).
pub struct Schedule {
    words: [[u8; 4]; 44],
}

impl Schedule {
    pub fn new(key: &Key) -> Schedule {
        let sub = &tables().sub;
        let mut words = [[0; 4]; 44];
        let mut constant = 1;
        for i in 0..44 {
            words[i] = match i {
                0..=3 => std::array::from_fn(|j| key[4 * i + j]),
                _ => {
                    let mut last = words[i - 1];
                    if i % 4 == 0 {
                        last.rotate_left(1);
                        last = last.map(|octet| sub[usize::from(octet)]);
                        last[0] ^= constant;
                        constant = times(constant, 2);
                    }
                    std::array::from_fn(|j| words[i - 4][j] ^ last[j])
                }
            };
        }
        Schedule { words }
    }

    /// A schedule given as its round keys, one after the other.
    pub fn from_octets(octets: &[u8; 176]) -> Schedule {
        Schedule { words: std::array::from_fn(|i| std::array::from_fn(|j| octets[4 * i + j])) }
    }

    /// The round keys one after the other.
    pub fn octets(&self) -> [u8; 176] {
        std::array::from_fn(|i| self.words[i / 4][i % 4])
    }

    /// The cipher (FIPS 197, 5.1); the state is kept as its four columns.
    pub fn encrypt(&self, block: [u8; 16]) -> [u8; 16] {
        let t = tables();
        let mut state: [[u8; 4]; 4] = std::array::from_fn(|c| std::array::from_fn(|r| block[4 * c + r]));
        self.add_round_key(&mut state, 0);
        for round in 1..=10 {
            // SubBytes and ShiftRows: row r moves r columns to the left
            let s: [[u8; 4]; 4] = std::array::from_fn(|c| std::array::from_fn(|r| t.sub[usize::from(state[(c + r) % 4][r])]));
            state = match round {
                10 => s,
                _ => s.map(|column| {
                    std::array::from_fn(|r| {
                        let at = |i: usize| usize::from(column[(r + i) % 4]);
                        t.twice[at(0)] ^ t.thrice[at(1)] ^ column[(r + 2) % 4] ^ column[(r + 3) % 4]
                    })
                }),
            };
            self.add_round_key(&mut state, round);
        }
        std::array::from_fn(|i| state[i / 4][i % 4])
    }

    fn add_round_key(&self, state: &mut [[u8; 4]; 4], round: usize) {
        for (column, word) in state.iter_mut().zip(&self.words[4 * round..]) {
            column.iter_mut().zip(word).for_each(|(s, w)| *s ^= w);
        }
    }
}
