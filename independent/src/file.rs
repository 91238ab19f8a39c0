//! Fuse files: writing one from a map, and judging and reading any.

use crate::device::{self, COLUMNS, FUSES, ROWS, SETTINGS_AT, SIGNATURE_AT};
use crate::words::{is_blank, refuse, Judged};

pub const LONGEST_FILE: usize = 65_536;
const STX: u8 = 2;
const ETX: u8 = 3;

/// The sum of fuses taken as bytes, the lowest fuse in the lowest bit.
pub fn fuse_sum(map: &[u8]) -> u16 {
    map.chunks(8).fold(0u16, |sum, eight| {
        let byte = eight.iter().enumerate().fold(0u16, |b, (i, fuse)| b | (*fuse as u16) << i);
        sum.wrapping_add(byte)
    })
}

pub fn byte_sum(bytes: &[u8]) -> u16 {
    bytes.iter().fold(0u16, |sum, byte| sum.wrapping_add(*byte as u16))
}

pub fn write(map: &[u8]) -> Vec<u8> {
    let mut file = vec![STX];
    let mut field = |content: &str| {
        file.extend_from_slice(content.as_bytes());
        file.extend_from_slice(b"*\r\n");
    };
    let list = |from: usize, to: usize| {
        let digits: String = map[from..to].iter().map(|f| if *f == 1 { '1' } else { '0' }).collect();
        format!("L{:04} {}", from, digits)
    };
    field("Lola GAL22V10");
    field("QP24");
    field("QF5892");
    field("G0");
    field("F0");
    for number in 0..ROWS {
        if device::row(map, number).contains(&1) {
            field(&list(COLUMNS * number, COLUMNS * (number + 1)));
        }
    }
    field(&list(SETTINGS_AT, SIGNATURE_AT));
    if map[SIGNATURE_AT..].contains(&1) {
        field(&list(SIGNATURE_AT, FUSES));
    }
    field(&format!("C{:04X}", fuse_sum(map)));
    file.push(ETX);
    let sum = byte_sum(&file);
    file.extend_from_slice(format!("{:04X}", sum).as_bytes());
    file
}

/// What the fields so far have said.
struct Reading {
    fuses_given: bool,
    pins_given: bool,
    security_given: bool,
    default: Option<u8>,
    any_list: bool,
    sum: Option<u16>,
    listed: Vec<Option<u8>>,
}

pub fn read(file: &[u8]) -> Judged<Vec<u8>> {
    let missing = file.len();
    if file.len() > LONGEST_FILE {
        return refuse(20, file.len());
    }
    match file.first() {
        None => return refuse(20, missing),
        Some(&STX) => {}
        Some(_) => return refuse(20, 0),
    }
    let etx = file.iter().position(|b| *b == ETX);
    let fields = &file[..etx.unwrap_or(file.len())];
    // Where a piece that begins at `from` has its star; without one it is a fault if byte 3 stands
    // behind it, and cut short if not.
    let star_after = |from: usize| match fields[from..].iter().position(|b| *b == b'*') {
        Some(offset) => Ok(from + offset),
        None => refuse(20, if etx.is_some() { from } else { missing }),
    };

    let mut at = star_after(1)? + 1;
    let mut reading = Reading {
        fuses_given: false,
        pins_given: false,
        security_given: false,
        default: None,
        any_list: false,
        sum: None,
        listed: vec![None; FUSES],
    };
    loop {
        while at < fields.len() && is_blank(fields[at]) {
            at += 1;
        }
        if at == fields.len() {
            break;
        }
        let star = star_after(at)?;
        if let Err(number) = reading.field(&fields[at..star]) {
            return refuse(number, at);
        }
        at = star + 1;
    }

    let Some(etx) = etx else {
        return refuse(20, missing);
    };
    let digits_at = etx + 1;
    let digits = &file[digits_at..file.len().min(digits_at + 4)];
    if !digits.iter().all(u8::is_ascii_hexdigit) {
        return refuse(20, digits_at);
    }
    if digits.len() < 4 {
        return refuse(20, missing);
    }
    if let Some(offset) = file[digits_at + 4..].iter().position(|b| !is_blank(*b)) {
        return refuse(20, digits_at + 4 + offset);
    }
    let all_known = reading.default.is_some() || reading.listed.iter().all(|f| f.is_some());
    if !reading.fuses_given || !all_known {
        return refuse(20, missing);
    }
    let default = reading.default.unwrap_or(0);
    let map: Vec<u8> = reading.listed.iter().map(|f| f.unwrap_or(default)).collect();
    if reading.sum.is_some_and(|sum| sum != fuse_sum(&map)) {
        return refuse(23, 0);
    }
    if hex(digits) != Some(byte_sum(&file[..=etx])) {
        return refuse(24, 0);
    }
    Ok(map)
}

fn hex(digits: &[u8]) -> Option<u16> {
    let mut value = 0u16;
    for digit in digits {
        value = value << 4 | (*digit as char).to_digit(16)? as u16;
    }
    Some(value)
}

/// A decimal number of one digit or more; large ones are all the same.
fn decimal(digits: &[u8]) -> Option<usize> {
    if digits.is_empty() || !digits.iter().all(u8::is_ascii_digit) {
        return None;
    }
    Some(digits.iter().fold(0usize, |v, d| (v * 10 + (d - b'0') as usize).min(1_000_000)))
}

fn bit(content: &[u8]) -> Option<u8> {
    match content {
        b"0" => Some(0),
        b"1" => Some(1),
        _ => None,
    }
}

impl Reading {
    /// Takes one field, its star left off; the error is the refusal's number.
    fn field(&mut self, field: &[u8]) -> Result<(), u32> {
        const FORM: u32 = 20;
        let (letter, content) = match field {
            [letter @ b'A'..=b'Z', content @ ..] => (*letter, content),
            _ => return Err(FORM),
        };
        match letter {
            b'C' => {
                if self.sum.is_some() || content.len() != 4 {
                    return Err(FORM);
                }
                self.sum = Some(hex(content).ok_or(FORM)?);
            }
            b'F' => {
                let value = bit(content).ok_or(FORM)?;
                if !self.fuses_given || self.default.is_some() || self.any_list {
                    return Err(FORM);
                }
                self.default = Some(value);
            }
            b'G' => {
                bit(content).ok_or(FORM)?;
                if self.security_given {
                    return Err(FORM);
                }
                self.security_given = true;
            }
            b'L' => return self.list(content),
            b'Q' => match content {
                [b'F', number @ ..] => {
                    let number = decimal(number).ok_or(FORM)?;
                    if self.fuses_given {
                        return Err(FORM);
                    }
                    if number != FUSES {
                        return Err(21);
                    }
                    self.fuses_given = true;
                }
                [b'P', number @ ..] => {
                    let number = decimal(number).ok_or(FORM)?;
                    if self.pins_given {
                        return Err(FORM);
                    }
                    if number != device::PINS {
                        return Err(21);
                    }
                    self.pins_given = true;
                }
                _ => {}
            },
            _ => {}
        }
        Ok(())
    }

    fn list(&mut self, content: &[u8]) -> Result<(), u32> {
        const FORM: u32 = 20;
        let digits = content.iter().take_while(|b| b.is_ascii_digit()).count();
        let first = decimal(&content[..digits]).ok_or(FORM)?;
        let rest = &content[digits..];
        let well_formed = rest.first().is_some_and(|b| is_blank(*b))
            && rest.iter().all(|b| is_blank(*b) || matches!(b, b'0' | b'1'));
        if !well_formed || !self.fuses_given {
            return Err(FORM);
        }
        let fuses: Vec<u8> = rest.iter().filter(|b| !is_blank(**b)).map(|b| b - b'0').collect();
        if fuses.is_empty() {
            return Err(FORM);
        }
        if first + fuses.len() > FUSES {
            return Err(22);
        }
        for (i, fuse) in fuses.into_iter().enumerate() {
            self.listed[first + i] = Some(fuse);
        }
        self.any_list = true;
        Ok(())
    }
}
