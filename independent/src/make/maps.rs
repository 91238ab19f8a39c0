//! Maps: compiled ones, sparse ones that the model takes, and ones with a single thing wrong.

use super::fixed::{exactly, Case};
use super::{texts, Chance};
use crate::cells::{design_of, map_of_cells};
use crate::device::*;
use crate::file;
use crate::vectors::Record;

pub fn compiled(chance: &mut Chance) -> Vec<u8> {
    for _ in 0..20 {
        if let Ok(design) = design_of(&texts::sound(chance)) {
            return map_of_cells(&design.cells);
        }
    }
    vec![0; FUSES]
}

/// Pins that a live product may read under these settings.
fn readable(map: &[u8]) -> Vec<usize> {
    let allowed = |pin: &usize| match pin {
        1 => false,
        14..=23 => !(cell_of(*pin).enabled(map) && cell_of(*pin).combinational(map)),
        _ => true,
    };
    PAIRS.iter().copied().filter(allowed).collect()
}

fn set_row(map: &mut [u8], number: usize, row: &[u8]) {
    map[COLUMNS * number..COLUMNS * (number + 1)].copy_from_slice(row);
}

fn product(chance: &mut Chance, pins: &[usize]) -> [u8; COLUMNS] {
    let mut row = [1; COLUMNS];
    if pins.is_empty() {
        return row;
    }
    let most = if chance.once_in(4) { 7 } else { 3 };
    for _ in 0..chance.within(0, most) {
        let pair = pair_of(*chance.pick(pins));
        let column = 2 * pair + chance.below(2);
        // Mostly keeps the product live.
        if row[column ^ 1] == 1 || chance.once_in(10) {
            row[column] = 0;
        }
    }
    row
}

/// A map inside the model, with cells of every setting and a few live products.
pub fn modelled(chance: &mut Chance) -> Vec<u8> {
    let mut map = vec![0; FUSES];
    for fuse in &mut map[SETTINGS_AT..] {
        *fuse = chance.below(2) as u8;
    }
    if chance.coin() {
        map[SIGNATURE_AT..].fill(0);
    }
    for cell in &CELLS {
        if chance.below(3) > 0 {
            set_row(&mut map, cell.enable, &[1; COLUMNS]);
        }
    }
    let pins = readable(&map);
    for cell in &CELLS {
        let kept = cell.enabled(&map) || !cell.combinational(&map);
        for number in cell.product_rows() {
            if chance.once_in(3) {
                let row = if kept { product(chance, &pins) } else { product(chance, &PAIRS) };
                set_row(&mut map, number, &row);
            } else if chance.once_in(12) {
                // A dead row may join anything besides.
                let mut row: Vec<u8> = (0..COLUMNS).map(|_| chance.below(2) as u8).collect();
                let pair = chance.below(PAIRS.len());
                row[2 * pair] = 0;
                row[2 * pair + 1] = 0;
                set_row(&mut map, number, &row);
            }
        }
    }
    map
}

/// One thing that the model does not take.
fn spoil(chance: &mut Chance, map: &mut [u8]) {
    let cell = chance.pick(&CELLS);
    match chance.below(7) {
        0 | 1 => {
            let number = if chance.coin() { RESET_ROW } else { PRESET_ROW };
            if chance.coin() {
                set_row(map, number, &[1; COLUMNS]);
            } else {
                map[COLUMNS * number + chance.below(COLUMNS)] = 1;
            }
        }
        2 | 3 => map[COLUMNS * cell.enable + chance.below(COLUMNS)] ^= 1,
        _ => {
            // A live product that reads pin 1 or a shown combinational pin, if its cell is in use.
            let shown: Vec<usize> = CELLS
                .iter()
                .filter(|c| c.enabled(map) && c.combinational(map))
                .map(|c| c.pin)
                .collect();
            let pin = if shown.is_empty() || chance.coin() { 1 } else { *chance.pick(&shown) };
            let mut row = product(chance, &readable(map));
            row[2 * pair_of(pin) + chance.below(2)] = 0;
            let number = chance.within(cell.enable + 1, cell.enable + cell.products);
            set_row(map, number, &row);
        }
    }
}

pub fn any_map(chance: &mut Chance) -> Vec<u8> {
    match chance.below(12) {
        0..=3 => compiled(chance),
        4..=7 => modelled(chance),
        8 => (0..FUSES).map(|_| chance.below(2) as u8).collect(),
        9 => {
            let mut map = vec![chance.below(2) as u8; FUSES];
            for _ in 0..chance.below(6) {
                map[chance.below(FUSES)] ^= 1;
            }
            map
        }
        _ => {
            let mut map = modelled(chance);
            spoil(chance, &mut map);
            map
        }
    }
}

fn digits(map: &[u8]) -> Vec<u8> {
    map.iter().map(|fuse| b'0' + fuse).collect()
}

/// Digits that are no map.
fn no_map(chance: &mut Chance) -> Vec<u8> {
    match chance.below(5) {
        0 => vec![],
        1 => vec![b'0'; chance.below(60)],
        2 => {
            let mut map = vec![b'0'; FUSES];
            map[chance.below(FUSES)] = *chance.pick(b"2 Oo9/\x00\x01\xff");
            map
        }
        3 => vec![b'1'; if chance.coin() { FUSES - 1 } else { FUSES + 1 }],
        _ => b"0101 ".to_vec(),
    }
}

pub fn write_record(chance: &mut Chance) -> Record {
    let mut payload = match chance.below(12) {
        0..=2 => match chance.below(4) {
            0 => no_map(chance),
            _ => vec![b'0' + chance.below(2) as u8; chance.below(40)],
        },
        _ => digits(&any_map(chance)),
    };
    match chance.below(8) {
        0 => payload.extend(b"\n"),
        1 => payload.extend(b"\r\n"),
        2 if payload.len() < 100 => payload.extend(b"\n\n"),
        3 if chance.once_in(3) => payload.extend(chance.word(&["\r", "\r\r\n", "\n\r", "\r\n\r\n"]).bytes()),
        4 if chance.once_in(6) => payload.insert(chance.below(payload.len() + 1), b'\r'),
        _ => {}
    }
    Record::new("write", payload)
}

/// A line for the model: mostly what the caller may give.
fn call(chance: &mut Chance, map: &[u8]) -> Vec<u8> {
    let mut line = vec![b'0'; 35];
    line[10] = b' ';
    for pin in 14..=23 {
        if !cell_of(pin).combinational(map) {
            line[pin - 14] += chance.below(2) as u8;
        } else if !cell_of(pin).enabled(map) {
            line[10 + pin] += chance.below(2) as u8;
        }
    }
    for pin in [2, 3, 4, 5, 6, 7, 8, 9, 10, 11, 13] {
        line[10 + pin] += chance.below(2) as u8;
    }
    if chance.once_in(5) {
        let mut at = chance.below(34);
        at += usize::from(at >= 10);
        line[at] = match chance.below(3) {
            0 => *chance.pick(b"23456789"),
            _ => b'1',
        };
    }
    if chance.once_in(40) {
        let at = chance.below(line.len());
        match chance.below(3) {
            0 => line[at] = *chance.pick(b"a :/-"),
            1 => line.truncate(at.max(1)),
            _ => line.insert(at, b'0'),
        }
    }
    line
}

pub fn model_record(chance: &mut Chance) -> Record {
    let map = match chance.below(24) {
        0..=6 => compiled(chance),
        7..=15 => modelled(chance),
        16..=22 => {
            let mut map = if chance.once_in(3) { compiled(chance) } else { modelled(chance) };
            spoil(chance, &mut map);
            map
        }
        _ => any_map(chance),
    };
    let mut payload = if chance.once_in(12) { no_map(chance) } else { digits(&map) };
    // One line in so many ends in CR LF: none, all, or some.
    let returns = *chance.pick(&[None, None, None, Some(1), Some(2), Some(3)]);
    let end = |chance: &mut Chance, payload: &mut Vec<u8>| {
        if returns.is_some_and(|many| chance.once_in(many)) {
            payload.push(b'\r');
        }
        payload.push(b'\n');
    };
    end(chance, &mut payload);
    let lines = if chance.once_in(4) { chance.within(7, 16) } else { chance.within(1, 6) };
    for i in 0..lines {
        payload.extend(call(chance, &map));
        if i + 1 < lines || chance.below(4) > 0 {
            end(chance, &mut payload);
        }
    }
    if chance.once_in(8) {
        // A CR more: at the very end, in front of a line's end, or anywhere behind the map's digits.
        let ends: Vec<usize> = (0..payload.len()).filter(|at| matches!(payload[*at], b'\r' | b'\n')).collect();
        let at = match chance.below(3) {
            0 => payload.len(),
            1 => *chance.pick(&ends),
            _ => chance.within(ends[0], payload.len()),
        };
        payload.insert(at, b'\r');
    }
    Record::new("model", payload)
}

/// Ends of lines: one LF and a CR directly before it are no part of a line, every other CR is.
pub fn line_ends() -> Vec<Case> {
    let unused = map_of_cells(&[]);
    let map = String::from_utf8_lossy(&digits(&unused)).into_owned();
    let (start, rest) = map.split_at(100);
    let quiet = format!("{} {}", "0".repeat(10), "0".repeat(PINS));
    let (bits, pins) = quiet.split_at(10);
    let answer = format!("{} {} {}\n", "0".repeat(PINS), "0".repeat(PINS), "0".repeat(10));
    let model = |input: String, answers: &[&str]| {
        let lines: String = answers.iter().map(|a| if a.is_empty() { answer.clone() } else { format!("{a} 0\n") }).collect();
        exactly("model", &input, &lines)
    };
    let mut reset = map.clone();
    reset.replace_range(..1, "1");
    let mut all = vec![
        // CR LF on some lines, on all, on the map's line.
        model(format!("{map}\n{quiet}\r\n{quiet}\n{quiet}\r\n"), &["", "", ""]),
        model(format!("{map}\r\n{quiet}\n{quiet}\n"), &["", ""]),
        model(format!("{map}\r\n{quiet}\r\n{quiet}\r\n"), &["", ""]),
        model(format!("{map}\r\n{quiet}\r\n{quiet}"), &["", ""]),
        model(format!("{reset}\r\n{quiet}\r\nx\r\n\r\n"), &["30", "30", "30"]),
        model(format!("{start}\r\n{quiet}\r\nx\r\n\r\n"), &["31", "31", "31"]),
        // A line of nothing but its end is a line.
        model(format!("{map}\r\n\r\n{quiet}\r\n\n"), &["32", "", "32"]),
        model(format!("{map}\n{}\r\n", &quiet[1..]), &["32"]),
        // A CR alone at the end of the input.
        model(format!("{map}\n{quiet}\r"), &["32"]),
        model(format!("{map}\r\n{quiet}\r\n\r"), &["", "32"]),
        model(format!("{map}\n{}\r", &quiet[1..]), &["32"]),
        model(format!("{map}\r"), &[]),
        // A CR in the middle.
        model(format!("{start}\r{rest}\n{quiet}\n"), &["31"]),
        model(format!("{start}\r{}\n{quiet}\n", &rest[1..]), &["31"]),
        model(format!("{map}\r{quiet}\n{quiet}\n"), &["31"]),
        model(format!("{map}\n{bits}\r{pins}\n{bits}\r{}\n{quiet}\n", &pins[1..]), &["32", "32", ""]),
        model(format!("{map}\n\r{quiet}\n{quiet}\r{quiet}\n{quiet}\n"), &["32", "32", ""]),
        // CR CR LF: one of the two stays.
        model(format!("{map}\r\r\n{quiet}\n"), &["31"]),
        model(format!("{}\r\r\n{quiet}\n", &map[1..]), &["31"]),
        model(format!("{map}\n{quiet}\r\r\n{quiet}\r\n"), &["32", ""]),
        model(format!("{map}\n{}\r\r\n\r\r\n", &quiet[1..]), &["32", "32"]),
    ];
    let written = String::from_utf8_lossy(&file::write(&unused)).into_owned();
    for end in ["", "\n", "\r\n"] {
        all.push(exactly("write", &format!("{map}{end}"), &written));
    }
    let less = &map[1..];
    for wrong in [
        format!("{map}\r"),
        format!("{map}\r\r\n"),
        format!("{map}\n\r"),
        format!("{map}\n\n"),
        format!("{map}\r\n\n"),
        format!("{map}\r\n\r\n"),
        format!("{start}\r{rest}"),
        format!("{start}\r{}\r\n", &rest[1..]),
        format!("{start}\r\n{rest}\r\n"),
        format!("\r{map}"),
        format!("\n{map}"),
        format!("{less}\n"),
        format!("{less}\r\n"),
        format!("{less}\r"),
        format!("{less}\r\r\n"),
        "\r".to_string(),
        "\r\n".to_string(),
    ] {
        all.push(exactly("write", &wrong, "31 0\n"));
    }
    all
}

/// One map for each reason to refuse it and each that comes close, and one map with every value.
pub fn fixed() -> Vec<Record> {
    let unused = map_of_cells(&[]);
    let quiet = format!("{} {}\n", "0".repeat(10), "0".repeat(PINS));
    let mut maps = Vec::new();
    for number in [RESET_ROW, PRESET_ROW] {
        let mut map = unused.clone();
        map[COLUMNS * number + 43] = 1;
        maps.push(map.clone());
        set_row(&mut map, number, &[1; COLUMNS]);
        maps.push(map);
    }
    let cell = cell_of(16);
    let last = cell.enable + cell.products;
    let s1 = SETTINGS_AT + 2 * cell.number() + 1;
    let mut mixed = unused.clone();
    mixed[COLUMNS * cell.enable + 7] = 1;
    maps.push(mixed);
    // A product that reads the clock: in an unused cell, an enabled one, a registered one.
    let mut clocked = unused.clone();
    set_row(&mut clocked, last, &[1; COLUMNS]);
    clocked[COLUMNS * last] = 0;
    maps.push(clocked.clone());
    let mut registered = clocked.clone();
    registered[s1] = 0;
    maps.push(registered);
    let mut enabled = clocked;
    set_row(&mut enabled, cell.enable, &[1; COLUMNS]);
    maps.push(enabled.clone());
    // Dead, the same product reads nothing.
    enabled[COLUMNS * last + 1] = 0;
    maps.push(enabled);
    // A cell that reads its own pin: combinational, then registered.
    let mut own = unused.clone();
    set_row(&mut own, cell.enable, &[1; COLUMNS]);
    set_row(&mut own, last, &[1; COLUMNS]);
    own[COLUMNS * last + 2 * pair_of(cell.pin) + 1] = 0;
    maps.push(own.clone());
    own[s1] = 0;
    maps.push(own.clone());
    let mut records: Vec<Record> = maps
        .iter()
        .map(|map| Record::new("model", [digits(map), b"\n".to_vec(), quiet.clone().into_bytes()].concat()))
        .collect();

    let mut every = digits(&own);
    every.push(b'\n');
    for at in (0..quiet.len() - 1).filter(|at| *at != 10) {
        for value in [b'1', b'2'] {
            let mut line = quiet.clone().into_bytes();
            line[at] = value;
            every.extend(line);
        }
    }
    records.push(Record::new("model", every));
    records
}
