//! The reader of a class (02, C-19).

use super::capture::{self, clock_of, directory, line, under_key, Opened, Record, Refused, Settings, Verdict, Way, HEADING};
use super::near::NearClock;
use super::{refuse_if, repeats, Key, Reply};
use jazmotip::Caller;
use std::collections::BTreeMap;

/// A set, and the rights on it of the user who asks.
struct Held {
    settings: Settings,
    right: u8,
}

/// By LLID. Whether what else the call was lent suits in length, and what it asks for in value, is told by two tests.
fn class(suits: bool, fits: bool, caller: Caller, sets: &[u8], rights: &[u8]) -> Reply<BTreeMap<u16, Held>> {
    refuse_if(caller.user == 0 || caller.user > caller.users, 23)?;
    let (n, m) = (usize::from(caller.sets), usize::from(caller.users));
    refuse_if(!suits || !(1..=16).contains(&n) || m > 16, 14)?;
    refuse_if(sets.len() != 41 * n || rights.len() != n * m, 14)?;
    refuse_if(!fits || rights.iter().any(|right| right & 0b1111_1000 != 0), 1)?;
    let read = sets.chunks(41).map(capture::settings).collect::<Reply<Vec<_>>>()?;
    refuse_if(repeats(read.iter().map(|settings| settings.llid)), 3)?;
    let own = &rights[n * usize::from(caller.user - 1)..][..n];
    Ok(read.into_iter().zip(own).map(|(settings, &right)| (settings.llid, Held { settings, right })).collect())
}

/// What the user is told of a record.
enum Told<'a> {
    Hidden,
    Seen,
    /// As document 01's reader tells it, with the set.
    All(&'a Settings, Verdict),
}

fn tell<'a>(class: &'a BTreeMap<u16, Held>, record: &Record, way: Way, near: &mut NearClock) -> Told<'a> {
    let Some(Held { settings, right }) = class.get(&record.llid).filter(|held| held.right & 0b011 != 0) else {
        return Told::Hidden;
    };
    match clock_of(settings, record, way, near) {
        Err(number) => Told::All(settings, Err(number)),
        Ok(_) if right & 0b010 == 0 => Told::Seen,
        Ok(clock) => Told::All(settings, under_key(settings, record, clock)),
    }
}

/// The block as the user gets it, and what that took.
pub fn open(caller: Caller, sets: &[u8], rights: &[u8], block: &[u8], output: usize, way: Way) -> Result<Opened, Refused> {
    let class = class(output == block.len(), true, caller, sets, rights)?;
    let records = directory(block)?;
    let opens = class.values().filter(|held| held.right & 0b010 != 0);
    let expansions = opens.map(|held| held.settings.keys.iter().flatten().count() as u8).sum();
    let mut opened = Opened { octets: block.to_vec(), count: 0, runs: 0, expansions, corrections: (0, 0) };
    let mut near = NearClock::default();
    for record in &records {
        match tell(&class, record, way, &mut near) {
            Told::Hidden => {
                opened.octets[record.offset..record.offset + 12].fill(0);
                opened.octets[record.payload.clone()].fill(0);
            }
            Told::Seen => (),
            Told::All(settings, verdict) => opened.put(record, settings.mac, verdict),
        }
    }
    opened.corrections = near.extremes();
    Ok(opened)
}

pub fn listing(caller: Caller, sets: &[u8], rights: &[u8], block: &[u8], way: Way) -> String {
    let read = class(true, true, caller, sets, rights).map_err(Refused::from).and_then(|class| Ok((class, directory(block)?)));
    match read {
        Err(refusal) => format!("{HEADING}refused {refusal}\n"),
        Ok((class, records)) => {
            let mut near = NearClock::default();
            let mut text = HEADING.to_string();
            for (i, record) in records.iter().enumerate() {
                text += &match tell(&class, record, way, &mut near) {
                    Told::Hidden => format!("{} -\n", i + 1),
                    Told::Seen => line(i + 1, record, "seen"),
                    Told::All(_, verdict) => line(i + 1, record, &capture::result(verdict)),
                };
            }
            text
        }
    }
}

/// The sets with a key loaded.
pub fn load(caller: Caller, sets: &[u8], rights: &[u8], llid: u16, index: u8, key: &Key) -> Reply<Vec<u8>> {
    let class = class(true, index <= 1, caller, sets, rights)?;
    refuse_if(class.get(&llid).is_none_or(|held| held.right & 0b100 == 0), 24)?;
    let mut loaded = sets.to_vec();
    for set in loaded.chunks_mut(41).filter(|set| set[39..] == llid.to_be_bytes()) {
        set[0] |= 1 << index;
        set[1 + 16 * usize::from(index)..][..16].copy_from_slice(key);
    }
    Ok(loaded)
}
