//! Two recordings held against each other (02, C-15, C-20).

use super::capture::{self, Record, Refused};
use std::collections::HashMap;

/// A refusal, and the block that earns it: 0 where it is of the call itself.
pub type Denied = (Refused, u8);

/// Channel index, LLID and clock.
type Key = (u8, u16, u64);

fn key(record: &Record) -> Key {
    (record.channel, record.llid, record.clock)
}

/// The records of a block whose headers are all of their values.
fn records(block: &[u8]) -> Result<Vec<Record>, Refused> {
    let records = capture::directory(block)?;
    let fits = |r: &Record| r.kind <= 1 && [0x00, 0x01, 0x80, 0x81].contains(&r.channel) && [0, 1, 3].contains(&r.flags);
    if records.iter().all(fits) {
        Ok(records)
    } else {
        Err(Refused::from(1))
    }
}

/// What is held against the partner's: EncKey, and the payload whole, EQ count, control octets and data octets.
fn held<'a>(block: &'a [u8], record: &Record) -> (bool, &'a [u8]) {
    (record.flags & 2 != 0, &block[record.payload.clone()])
}

/// The entries of two blocks for an output of so many octets, and the records of an LLID that are alone.
pub fn compare(llid: u16, first: &[u8], second: &[u8], output: usize) -> Result<(Vec<u8>, u16), Denied> {
    if output != 512 {
        return Err((Refused::from(14), 0));
    }
    let ours = records(first).map_err(|refused| (refused, 1))?;
    let theirs = records(second).map_err(|refused| (refused, 2))?;
    let places = |records: &[Record], block| {
        let places: HashMap<Key, usize> = records.iter().enumerate().map(|(place, record)| (key(record), place)).collect();
        if places.len() == records.len() {
            Ok(places)
        } else {
            Err((Refused::from(22), block))
        }
    };
    let (here, there) = (places(&ours, 1)?, places(&theirs, 2)?);
    let lost: Vec<&Record> = theirs.iter().filter(|record| !here.contains_key(&key(record))).collect();
    let mut entries: Vec<u8> = ours
        .iter()
        .map(|record| match there.get(&key(record)) {
            None => 0,
            Some(&place) if held(first, record) == held(second, &theirs[place]) => 1,
            Some(_) => 2,
        })
        .collect();
    let gone = ours.iter().filter(|record| !there.contains_key(&key(record)));
    let total = gone.chain(lost.iter().copied()).filter(|record| record.llid == llid).count() as u16;
    entries.extend(lost.iter().map(|_| 0));
    Ok((entries, total))
}
