//! The capture reader (01, Capture block). What is wrong with a directory is told as 02, C-11 has it: 15 for the sizes, then pair
//! by pair 18 for the chain before 19 for the length.

use super::near::NearClock;
use super::{payload, refuse_if, Key, Passed, Reply, CLOCK};
use std::fmt::{Display, Formatter};
use std::ops::Range;

#[derive(Clone, Copy, Debug, PartialEq, Eq)]
pub struct Refused {
    pub number: u8,
    /// The first broken pair, from 1; 0 where there is none.
    pub pair: u16,
}

impl From<u8> for Refused {
    fn from(number: u8) -> Refused {
        Refused { number, pair: 0 }
    }
}

impl Display for Refused {
    fn fmt(&self, f: &mut Formatter<'_>) -> std::fmt::Result {
        match self.pair {
            0 => write!(f, "{}", self.number),
            pair => write!(f, "{} {pair}", self.number),
        }
    }
}

#[derive(Clone, Debug)]
pub struct Record {
    pub kind: u8,
    pub channel: u8,
    pub llid: u16,
    pub flags: u8,
    pub epam: u8,
    pub clock: u64,
    pub eqs: u64,
    /// Where the record starts, and where its payload lies.
    pub offset: usize,
    pub payload: Range<usize>,
}

fn number(octets: &[u8]) -> u64 {
    octets.iter().fold(0, |sum, &octet| sum << 8 | u64::from(octet))
}

/// The records of a block, in order.
pub fn directory(block: &[u8]) -> Result<Vec<Record>, Refused> {
    if block.len() < 2 || block.len() > 65_536 {
        return Err(Refused::from(15));
    }
    let n = number(&block[..2]) as usize;
    if n > 256 || block.len() < 2 + 8 * n || (n == 0 && block.len() != 2) {
        return Err(Refused::from(15));
    }
    let mut next = 2 + 8 * n;
    let mut records = Vec::new();
    for pair in 1..=n {
        let entry = &block[2 + 8 * (pair - 1)..][..8];
        let (offset, length) = (number(&entry[..4]) as usize, number(&entry[4..]) as usize);
        let end = offset + length;
        if offset != next || end > block.len() || (pair == n && end != block.len()) {
            return Err(Refused { number: 18, pair: pair as u16 });
        }
        let record = &block[offset..end];
        if length < 16 || length as u64 != 16 + 9 * number(&record[12..16]) {
            return Err(Refused { number: 19, pair: pair as u16 });
        }
        records.push(Record {
            kind: record[0],
            channel: record[1],
            llid: number(&record[2..4]) as u16,
            flags: record[4],
            epam: record[5],
            clock: number(&record[6..12]),
            eqs: number(&record[12..16]),
            offset,
            payload: offset + 16..end,
        });
        next = end;
    }
    Ok(records)
}

pub struct Settings {
    pub keys: [Option<Key>; 2],
    pub mac: u64,
    pub llid: u16,
}

pub fn settings(octets: &[u8]) -> Reply<Settings> {
    refuse_if(octets.len() != 41, 14)?;
    refuse_if(octets[0] & 0b1111_1100 != 0, 1)?;
    let key = |i: usize| (octets[0] >> i & 1 == 1).then(|| octets[1 + 16 * i..][..16].try_into().expect("16 octets"));
    Ok(Settings { keys: [key(0), key(1)], mac: number(&octets[33..39]), llid: number(&octets[39..41]) as u16 })
}

/// How the receive clock is taken: as recorded, or known only nearly (02, C-18).
#[derive(Clone, Copy, Debug, PartialEq, Eq)]
pub enum Way {
    Usual,
    Near,
}

/// What opening does with a record: `None` leaves it, being clear; else the index of the key, the key and the clock.
pub type Verdict = Reply<Option<(u8, Key, u64)>>;

fn past_1_and_2(settings: &Settings, record: &Record) -> Reply<()> {
    let channel_known = record.channel & 0b0111_1110 == 0;
    let (enabled, enckey) = (record.flags & 1, record.flags >> 1 & 1);
    refuse_if(record.kind > 1 || !channel_known || record.flags > 3 || enckey > enabled, 1)?;
    refuse_if(record.llid != settings.llid, 2)
}

/// The clock that a header past 1, 2 and 10 is read at.
pub fn clock_of(settings: &Settings, record: &Record, way: Way, near: &mut NearClock) -> Reply<u64> {
    past_1_and_2(settings, record)?;
    match way {
        Way::Usual => refuse_if(u64::from(record.epam) != record.clock % 64, 10).map(|()| record.clock % CLOCK),
        Way::Near => {
            let (clock, correction) = near.taken(record).ok_or(10)?;
            near.accept(record, correction);
            Ok(clock)
        }
    }
}

pub fn under_key(settings: &Settings, record: &Record, clock: u64) -> Verdict {
    let (enabled, enckey) = (record.flags & 1, record.flags >> 1 & 1);
    match enabled {
        0 => Ok(None),
        _ => settings.keys[usize::from(enckey)].ok_or(9).map(|key| Some((enckey, key, clock))),
    }
}

/// The verdicts on all records in their order, and the smallest and the largest correction.
fn judge(settings: &Settings, records: &[Record], way: Way) -> (Vec<Verdict>, (i8, i8)) {
    let mut near = NearClock::default();
    let verdicts = records.iter().map(|record| {
        let clock = clock_of(settings, record, way, &mut near)?;
        under_key(settings, record, clock)
    });
    (verdicts.collect(), near.extremes())
}

/// The verdict on record `k`, asked for alone.
pub fn verdict(octets: &[u8], block: &[u8], k: usize, way: Way) -> Result<Option<(u8, u64)>, Refused> {
    let settings = settings(octets)?;
    let records = directory(block)?;
    refuse_if(k < 1 || k > records.len(), 1)?;
    Ok(judge(&settings, &records, way).0[k - 1]?.map(|(enckey, _, clock)| (enckey, clock)))
}

/// The numbers of the verdicts on all records, for an output of so many octets, and the corrections.
pub fn verdicts(octets: &[u8], block: &[u8], output: usize, way: Way) -> Result<(Vec<u8>, (i8, i8)), Refused> {
    refuse_if(output != 256, 14)?;
    let settings = settings(octets)?;
    let (verdicts, corrections) = judge(&settings, &directory(block)?, way);
    Ok((verdicts.iter().map(|verdict| verdict.err().unwrap_or(0)).collect(), corrections))
}

/// The payload of record `k`, as bounds in the block.
pub fn part(block: &[u8], k: usize) -> Result<Range<usize>, Refused> {
    let records = directory(block)?;
    refuse_if(k < 1 || k > records.len(), 1)?;
    Ok(records[k - 1].payload.clone())
}

/// The block with every record opened that can be, and what that took (02, C-17): octets deciphered, runs of the cipher, keys expanded.
pub struct Opened {
    pub octets: Vec<u8>,
    pub count: u64,
    pub runs: u64,
    pub expansions: u8,
    /// The smallest and the largest.
    pub corrections: (i8, i8),
}

impl Opened {
    /// Puts a record, of which the octets are a copy, as the verdict on it has it.
    pub fn put(&mut self, record: &Record, mac: u64, verdict: Verdict) {
        if let Ok(Some((_, key, clock))) = verdict {
            let sealed = &self.octets[record.payload.clone()];
            let Passed { octets, count, runs } = payload::pass(&key, record.channel, mac, clock, sealed);
            self.octets[record.payload.clone()].copy_from_slice(&octets);
            self.octets[record.offset + 4] &= 0b1111_1100;
            self.count += count;
            self.runs += runs;
        }
    }
}

pub fn open(octets: &[u8], block: &[u8], output: usize, way: Way) -> Result<Opened, Refused> {
    refuse_if(octets.len() != 41 || output != block.len(), 14)?;
    let settings = settings(octets)?;
    let records = directory(block)?;
    let expansions = settings.keys.iter().flatten().count() as u8;
    let (verdicts, corrections) = judge(&settings, &records, way);
    let mut opened = Opened { octets: block.to_vec(), count: 0, runs: 0, expansions, corrections };
    for (record, verdict) in records.into_iter().zip(verdicts) {
        opened.put(&record, settings.mac, verdict);
    }
    Ok(opened)
}

pub const HEADING: &str = "no llid ch key eqs result\n";

pub fn result(verdict: Verdict) -> String {
    match verdict {
        Ok(_) => "open".to_string(),
        Err(refusal) => format!("refused {refusal}"),
    }
}

/// The line of record `k`.
pub fn line(k: usize, record: &Record, result: &str) -> String {
    let key = match record.flags & 1 {
        0 => "-".to_string(),
        _ => (record.flags >> 1 & 1).to_string(),
    };
    let (llid, channel, eqs) = (record.llid, record.channel, record.eqs);
    format!("{k} {llid:04x} {channel:02x} {key} {eqs} {result}\n")
}

/// What the reader program prints.
pub fn listing(octets: &[u8], block: &[u8], way: Way) -> String {
    let read = settings(octets).map_err(Refused::from).and_then(|settings| Ok((settings, directory(block)?)));
    match read {
        Err(refusal) => format!("{HEADING}refused {refusal}\n"),
        Ok((settings, records)) => {
            let (verdicts, _) = judge(&settings, &records, way);
            let lines = records.iter().zip(verdicts).enumerate();
            HEADING.to_string() + &lines.map(|(i, (record, verdict))| line(i + 1, record, &result(verdict))).collect::<String>()
        }
    }
}
