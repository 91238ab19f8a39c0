//! Cases made from a seed: records for `vectors`, and batches for `table`. The same seed gives the
//! same bytes everywhere.

mod batches;
pub mod files;
pub mod fixed;
pub mod maps;
pub mod readings;
pub mod texts;

use crate::vectors::Record;
use std::collections::{BTreeMap, HashSet};

/// A splitmix64 sequence.
pub struct Chance {
    state: u64,
}

impl Chance {
    pub fn new(seed: u64) -> Self {
        Chance { state: seed }
    }

    pub fn next(&mut self) -> u64 {
        self.state = self.state.wrapping_add(0x9E37_79B9_7F4A_7C15);
        let mut z = self.state;
        z = (z ^ (z >> 30)).wrapping_mul(0xBF58_476D_1CE4_E5B9);
        z = (z ^ (z >> 27)).wrapping_mul(0x94D0_49BB_1331_11EB);
        z ^ (z >> 31)
    }

    /// Below a bound.
    pub fn below(&mut self, bound: usize) -> usize {
        (self.next() % bound.max(1) as u64) as usize
    }

    /// Both ends included.
    pub fn within(&mut self, from: usize, to: usize) -> usize {
        from + self.below(to - from + 1)
    }

    /// True once in so many.
    pub fn once_in(&mut self, many: usize) -> bool {
        self.below(many) == 0
    }

    pub fn coin(&mut self) -> bool {
        self.once_in(2)
    }

    pub fn pick<'a, T>(&mut self, from: &'a [T]) -> &'a T {
        &from[self.below(from.len())]
    }

    pub fn word<'a>(&mut self, from: &[&'a str]) -> &'a str {
        from[self.below(from.len())]
    }

    pub fn shuffle<T>(&mut self, list: &mut [T]) {
        for i in (1..list.len()).rev() {
            list.swap(i, self.below(i + 1));
        }
    }
}

pub fn make(kind: &str, seed: u64, count: usize) -> Option<Vec<u8>> {
    let mut chance = Chance::new(seed);
    let mut records = Vec::new();
    match kind {
        "text" => {
            records = once_each(fixed::records());
            while records.len() < count {
                records.extend(texts::records(&mut chance));
            }
        }
        "device" => {
            let points = readings::devices().into_iter().map(|(_, case)| case.record);
            records = once_each(points.chain(files::fixed()).chain(maps::fixed()));
            while records.len() < count {
                records.push(device_record(&mut chance));
            }
        }
        // A text makes three or four records.
        "all" => {
            while records.len() < count {
                if chance.once_in(4) {
                    records.extend(texts::records(&mut chance));
                } else {
                    records.push(device_record(&mut chance));
                }
            }
        }
        "tables" => {
            let batches: String = (0..count).map(|_| batches::batch(&mut chance)).collect();
            return Some(batches.into_bytes());
        }
        _ => return None,
    }
    records.truncate(count);
    Some(records.iter().flat_map(Record::bytes).collect())
}

/// The same records without those that stand further in front already.
fn once_each(records: impl IntoIterator<Item = Record>) -> Vec<Record> {
    let mut seen = HashSet::new();
    records.into_iter().filter(|record| seen.insert(record.bytes())).collect()
}

/// Maps are large and files can be small, so most records are files to be read.
fn device_record(chance: &mut Chance) -> Record {
    match chance.below(1000) {
        0..=59 => maps::model_record(chance),
        60..=134 => maps::write_record(chance),
        _ => files::read_record(chance),
    }
}

/// How often each verb gives each answer: a refusal by its number, anything else as accepted.
pub fn census(records: &[Record]) -> Result<String, String> {
    let mut counts: BTreeMap<(String, u32), usize> = BTreeMap::new();
    for record in records {
        let verb = record.call.split(' ').next().unwrap_or("").to_string();
        let answer = record.answer()?;
        if verb == "model" {
            for line in answer.split_inclusive(|b| *b == b'\n') {
                *counts.entry((verb.clone(), refusal_number(line).unwrap_or(0))).or_default() += 1;
            }
        } else {
            *counts.entry((verb, refusal_number(&answer).unwrap_or(0))).or_default() += 1;
        }
    }
    let mut lines = String::new();
    for ((verb, number), count) in counts {
        let name = if number == 0 { "accepted".to_string() } else { number.to_string() };
        lines += &format!("{verb} {name} {count}\n");
    }
    Ok(lines)
}

/// The number of an answer that is a refusal: two numbers on one line.
pub fn refusal_number(answer: &[u8]) -> Option<u32> {
    let line = std::str::from_utf8(answer).ok()?.strip_suffix('\n')?;
    let (number, place) = line.split_once(' ')?;
    place.parse::<usize>().ok().filter(|_| number.len() <= 2)?;
    number.parse().ok()
}
