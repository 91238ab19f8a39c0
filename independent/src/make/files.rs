//! Fuse files: as this writer makes them, as others might, and with faults of every kind.

use super::{maps, Chance};
use crate::file::{self, byte_sum, fuse_sum};
use crate::vectors::Record;
use std::cell::RefCell;

/// A file in parts. Each field has its star.
struct Draft {
    start: Vec<u8>,
    heading: Vec<u8>,
    fields: Vec<Vec<u8>>,
    between: &'static [u8],
    end: Vec<u8>,
    behind: Vec<u8>,
}

fn field(content: &str) -> Vec<u8> {
    let mut bytes = content.as_bytes().to_vec();
    bytes.push(b'*');
    bytes
}

impl Draft {
    /// All up to and with byte 3.
    fn body(&self) -> Vec<u8> {
        let mut bytes = [self.start.clone(), self.heading.clone(), self.between.to_vec()].concat();
        for field in &self.fields {
            bytes.extend_from_slice(field);
            bytes.extend_from_slice(self.between);
        }
        bytes.extend_from_slice(&self.end);
        bytes
    }
}

/// The sum that goes behind the first byte 3.
fn mended(mut body: Vec<u8>, chance: &mut Chance) -> Vec<u8> {
    let end = body.iter().position(|b| *b == 3).map_or(body.len(), |at| at + 1);
    let sum = byte_sum(&body[..end]);
    let digits = hex(chance, sum);
    body.splice(end..end, digits.bytes());
    body
}

fn hex(chance: &mut Chance, value: u16) -> String {
    match chance.below(4) {
        0 => format!("{value:04x}"),
        1 => format!("{value:04X}").chars().map(|c| if chance.coin() { c.to_ascii_lowercase() } else { c }).collect(),
        _ => format!("{value:04X}"),
    }
}

fn bits(chance: &mut Chance, count: usize) -> String {
    (0..count).map(|_| if chance.coin() { '1' } else { '0' }).collect()
}

fn with_blanks(chance: &mut Chance, digits: &str) -> String {
    let mut spaced = String::new();
    for digit in digits.chars() {
        spaced.push(digit);
        if chance.once_in(5) {
            spaced += chance.word(&[" ", "\r\n", "\t", "\n", "  "]);
        }
    }
    spaced
}

fn list(chance: &mut Chance) -> Vec<u8> {
    let count = if chance.once_in(5) { 44 } else { chance.within(1, 12) };
    let first = match chance.below(4) {
        0 => 44 * chance.below(132),
        1 => chance.below(100),
        2 => 5_892 - count,
        _ => chance.below(5_892 - count),
    };
    let digits = bits(chance, count);
    let digits = if chance.once_in(3) { with_blanks(chance, &digits) } else { digits };
    let number = match chance.below(4) {
        0 => format!("{first}"),
        1 => format!("{first:07}"),
        _ => format!("{first:04}"),
    };
    let blank = chance.word(&[" ", " ", " ", "\n", " \t", "\r\n"]);
    field(&format!("L{number}{blank}{digits}"))
}

fn skipped(chance: &mut Chance) -> Vec<u8> {
    field(chance.word(&[
        "N note", "V0001 01XN", "J 1 2", "X0", "QV0", "Q", "QX5892", "Qf5892", "N", "A\u{2}", "D000", "P 1 2 3",
        "Z", "E0101", "U1", "M(* *)", "Nc", "H\r\n", "QE1",
    ]))
}

/// A sound file in someone else's style.
fn foreign(chance: &mut Chance) -> Draft {
    let heading = chance
        .word(&["", "x", "Lola GAL22V10", "ABEL 4.0\r\nDevice GAL22V10\r\n", "QF5892", "F0 L0000 1", "\u{2}\u{1}\t", "C0000"])
        .to_string();
    let mut fields = vec![field(chance.word(&["QF5892", "QF5892", "QF05892", "QF0000000000005892"]))];
    let whole = chance.once_in(60);
    if whole {
        // Every fuse listed, no default.
        let digits = bits(chance, 5_892);
        let cut = chance.below(5_892);
        let mut pieces = vec![format!("L0 {}", &digits[..cut.max(1)]), format!("L{} {}", cut, &digits[cut..])];
        if chance.coin() {
            pieces.swap(0, 1);
        }
        fields.extend(pieces.iter().map(|p| field(p)));
    } else {
        fields.push(field(if chance.coin() { "F0" } else { "F1" }));
    }
    for _ in 0..chance.below(5) {
        fields.push(list(chance));
    }
    if chance.once_in(4) {
        let again = fields[fields.len() - 1].clone();
        if again[0] == b'L' {
            let twisted = again.iter().enumerate().map(|(i, b)| if i > 8 && *b == b'0' { b'1' } else { *b }).collect();
            fields.push(twisted);
        }
    }
    let mut anywhere = |chance: &mut Chance, new: Vec<u8>| {
        let at = chance.below(fields.len() + 1);
        fields.insert(at, new);
    };
    if chance.coin() {
        let pins = field(chance.word(&["QP24", "QP24", "QP024"]));
        anywhere(chance, pins);
    }
    if chance.coin() {
        let security = if chance.coin() { "G0" } else { "G1" };
        anywhere(chance, field(security));
    }
    for _ in 0..chance.below(3) {
        let other = skipped(chance);
        anywhere(chance, other);
    }
    let between: &'static [u8] = [&b"\r\n"[..], b"", b"\n", b" \t\r\n", b" "][chance.below(5)];
    let behind = chance.word(&["", "", "\r\n", "\n \t", " "]).as_bytes().to_vec();
    Draft { start: vec![2], heading: field(&heading), fields, between, end: vec![3], behind }
}

/// Adds a fuse sum that is right if the file is sound so far.
fn with_sum(chance: &mut Chance, draft: &mut Draft) {
    let body = mended(draft.body(), chance);
    let sum = match file::read(&body) {
        Ok(map) => fuse_sum(&map),
        Err(_) => chance.next() as u16,
    };
    let sum = if chance.once_in(7) { sum ^ 1 << chance.below(16) } else { sum };
    let digits = hex(chance, sum);
    let at = if chance.coin() { draft.fields.len() } else { chance.below(draft.fields.len() + 1) };
    draft.fields.insert(at, field(&format!("C{digits}")));
}

/// Puts one fault (or something close to one) into a file's parts.
fn spoil(chance: &mut Chance, draft: &mut Draft) {
    let at = chance.below(draft.fields.len() + 1);
    let mut insert = |content: &str| draft.fields.insert(at, field(content));
    match chance.below(24) {
        0 => draft.start = chance.pick(&[&b""[..], b"\x03", b" \x02", b"\x00", b"\x02\x02"]).to_vec(),
        1 => draft.heading = chance.pick(&[&b""[..], b"no star", b"a\x03b*", b"\x03", b"*"]).to_vec(),
        2 => insert(chance.word(&["", "q", "lower", "0", " ", "(", "L", "\u{1}", "é", "c1234", "f0"])),
        3 => insert(chance.word(&["C1234", "C0000", "CABCD"])),
        4 => insert(chance.word(&["C", "C123", "C12345", "C12G4", "C 1234", "C1234 ", "C12 34", "Cabc-"])),
        5 => insert(chance.word(&["F0", "F1"])),
        6 => insert(chance.word(&["F", "F2", "F00", "F 0", "F0 ", "Fx"])),
        7 => insert(chance.word(&["G0", "G1"])),
        8 => insert(chance.word(&["G", "G2", "G01", "G 0", "G0\n"])),
        9 => insert(chance.word(&["L0000 1", "L5891 0", "L0 1", "L44\n0 1 0"])),
        10 => insert(chance.word(&["L", "L0", "L0000", "L0000 ", "L 0000 1", "L0000 2", "L00001", "Lx 1", "L0000 1x", "L0000\u{b}1", "L0000,1", "L-1 0", "L0000 \r\n"])),
        11 => insert(chance.word(&["QF5892", "QF5892", "QF1"])),
        12 => insert(chance.word(&["QF", "QFx", "QF 5892", "QF5892 ", "QF58a2", "QF-5892"])),
        13 => insert(chance.word(&["QP24", "QP24", "QP28"])),
        14 => insert(chance.word(&["QP", "QP 24", "QPx", "QP24 ", "QP2 4"])),
        15 => {
            let value = chance.word(&["5891", "5893", "0", "58920", "99999999999999999999"]);
            draft.fields[0] = field(&format!("QF{value}"));
        }
        16 => insert(chance.word(&["QP20", "QP0", "QP240", "QP99999999999999999999999"])),
        17 => insert(chance.word(&["L5892 0", "L5891 01", "L5890 0 1 0", "L99999999999999999999999 1", "L18446744073709551616 1", "L4294967296 1", "L65536 0"])),
        18 => {
            // A field without its star: the next one's serves, or none is left.
            let which = if chance.coin() { draft.fields.len() - 1 } else { chance.below(draft.fields.len()) };
            draft.fields[which].pop();
        }
        19 => {
            let which = chance.below(draft.fields.len());
            draft.fields.remove(which);
        }
        20 => {
            let (a, b) = (chance.below(draft.fields.len()), chance.below(draft.fields.len()));
            draft.fields.swap(a, b);
        }
        21 => draft.behind = chance.pick(&[&b"x"[..], b" \r\n0", b"\x03", b"\n*", b"\x00", b"1"]).to_vec(),
        22 => draft.end = chance.pick(&[&b""[..], b"\x03 ", b"\x03g", b"\x03\x03", b"N\x03", b"\x0312"]).to_vec(),
        _ => insert(chance.word(&["N \u{3} x", "V\u{3}", "Nx\u{3}1234"])),
    }
}

fn bytes_of(chance: &mut Chance, draft: &Draft) -> Vec<u8> {
    let body = draft.body();
    let sound_end = draft.end == [3];
    let mut bytes = if sound_end || chance.coin() { mended(body, chance) } else { body };
    bytes.extend_from_slice(&draft.behind);
    bytes
}

pub fn read_record(chance: &mut Chance) -> Record {
    let mut bytes;
    if chance.once_in(40) {
        let map = maps::compiled(chance);
        bytes = file::write(&map);
    } else {
        let mut draft = foreign(chance);
        if chance.below(3) > 0 {
            with_sum(chance, &mut draft);
        }
        let faults = match chance.below(10) {
            0..=1 => 0,
            2..=7 => 1,
            8 => 2,
            _ => 3,
        };
        for _ in 0..faults {
            if !draft.fields.is_empty() {
                spoil(chance, &mut draft);
            }
        }
        bytes = bytes_of(chance, &draft);
    }
    // Then bytes, without or with new sums.
    match chance.below(12) {
        0 if !bytes.is_empty() => bytes.truncate(chance.below(bytes.len())),
        1 if bytes.len() > 8 => {
            let cut = chance.within(1, 6);
            bytes.truncate(bytes.len() - cut);
        }
        2 | 3 if bytes.len() > 5 => {
            let at = chance.below(bytes.len());
            match chance.below(4) {
                0 => {
                    bytes.remove(at);
                }
                1 => bytes.insert(at, chance.below(256) as u8),
                2 => bytes[at] ^= 1 << chance.below(8),
                _ => bytes[at] = *chance.pick(b"*01LFQCG \x02\x03\r9aZ"),
            }
            if chance.coin() {
                if let Some(end) = bytes.iter().position(|b| *b == 3) {
                    bytes.truncate(end + 1);
                    bytes = mended(bytes, chance);
                }
            }
        }
        4 => {
            // Another sum.
            if let Some(end) = bytes.iter().position(|b| *b == 3) {
                let digits = format!("{:04X}", byte_sum(&bytes[..=end]) ^ 1 << chance.below(16));
                bytes.truncate(end + 1);
                bytes.extend(digits.bytes());
            }
        }
        _ => {}
    }
    Record::new("read", bytes)
}

/// What stands between byte 2 and byte 3, with both and the right sum.
pub fn summed(content: &[u8]) -> Vec<u8> {
    let mut bytes = [b"\x02", content, b"\x03"].concat();
    let sum = byte_sum(&bytes);
    bytes.extend(format!("{sum:04X}").bytes());
    bytes
}

/// Files with one fault or several, and how the first is refused.
pub fn faulty_files() -> Vec<(Vec<u8>, (u32, usize))> {
    let all = RefCell::new(Vec::new());
    let whole = |bytes: &[u8], number: u32, place: usize| all.borrow_mut().push((bytes.to_vec(), (number, place)));
    let gives = |content: &[u8], number: u32, place: usize| whole(&summed(content), number, place);
    // Byte 2, the heading, fields without a star.
    whole(b"", 20, 0);
    whole(b"*QF5892*", 20, 0);
    whole(b"\x03", 20, 0);
    whole(b"\x02", 20, 1);
    whole(b"\x02abc", 20, 4);
    whole(b"\x02abc\x03", 20, 1);
    whole(b"\x02\x03*", 20, 1);
    gives(b"*QF5892*F0*N", 20, 12);
    gives(b"*QF5892*F0* \r\nN x", 20, 15);
    // Without byte 3: what has its star is judged, the rest is not.
    whole(b"\x02*q*L", 20, 2);
    whole(b"\x02*QF5891*", 21, 2);
    whole(b"\x02*QF5892*L5892 1*", 22, 9);
    whole(b"\x02*QF5892*L5892 1", 20, 16);
    whole(b"\x02*QF5892*F0*", 20, 12);
    // Fields that begin wrongly.
    for field in [&b"*"[..], b"q*", b"0*", b"\x02*", b"(*", b"\x0bF0*"] {
        gives(&[b"*QF5892*F0*\n", field].concat(), 20, 13);
    }
    for field in [
        &b"C*"[..], b"C123*", b"C12345*", b"C123G*", b"C 1234*", b"C1234 *", b"F*", b"F2*", b"F00*", b"F 0*", b"F0 *",
        b"G*", b"G2*", b"G00*", b"G 0*", b"QF*", b"QF 5892*", b"QFx*", b"QF5892 *", b"QP*", b"QP 24*", b"QPx*", b"QP24 *",
    ] {
        gives(&[b"*", field, b"QF5892*F0*"].concat(), 20, 2);
    }
    for field in [&b"L*"[..], b"L0000*", b"L0000 *", b"L 0000 1*", b"L00001*", b"Lx 1*", b"L0 2*", b"L0 1x*", b"L0\x0b1*", b"L9999 \n*"] {
        gives(&[b"*QF5892*F0*", field].concat(), 20, 12);
    }
    // Order and number of fields.
    gives(b"*F0*QF5892*", 20, 2);
    gives(b"*L9999 1*QF5892*F0*", 20, 2);
    gives(b"*QF5892*F0*F0*", 20, 12);
    gives(b"*QF5892*L0 1*F0*", 20, 14);
    gives(b"*QF5892*QF5892*F0*", 20, 9);
    gives(b"*QF5892*QF1*F0*", 20, 9);
    gives(b"*QP24*QP25*QF5892*F0*", 20, 7);
    gives(b"*G0*G1*QF5892*F0*", 20, 5);
    gives(b"*C0000*C0000*QF5892*F0*", 20, 8);
    gives(b"*QP25*q*", 21, 2);
    gives(b"*QF58920*q*", 21, 2);
    gives(b"*QF99999999999999999999999999*", 21, 2);
    gives(b"*QF5892*F0*L5891 10*q*", 22, 12);
    gives(b"*QF5892*F0*L18446744073709551616 1*", 22, 12);
    gives(b"*QF5892*F0*L5892 1x*", 20, 12);
    // Missing things, behind every fault, in front of the sums.
    gives(b"*", 20, 7);
    gives(b"*C0001*", 20, 13);
    gives(b"*QF5892*", 20, 14);
    gives(b"*QF5892*L0000 1*C0000*", 20, 28);
    // The end.
    whole(b"\x02*\x03", 20, 3);
    whole(b"\x02*\x03002", 20, 6);
    whole(b"\x02*\x0300 ", 20, 3);
    whole(b"\x02*\x03 002F", 20, 3);
    whole(b"\x02*\x03002g", 20, 3);
    whole(b"\x02*\x03002F \nx", 20, 9);
    whole(b"\x02*\x03002F0", 20, 7);
    // Byte 3 ends the fields wherever it first stands.
    whole(b"\x02a\x03b*QF5892*", 20, 1);
    whole(b"\x02*QF5892*N\x03*F0*", 20, 9);
    // Sums: that of fuses before that of bytes.
    gives(b"*QF5892*F0*C0001*", 23, 0);
    for (content, number) in [(&b"*QF5892*F0*C0001*"[..], 23), (b"*QF5892*F0*C0000*", 24), (b"*QF5892*F0*", 24)] {
        let mut bytes = summed(content);
        let last = bytes.len() - 1;
        bytes[last] ^= 1;
        whole(&bytes, number, 0);
    }
    all.into_inner()
}

/// Files at the edge of what may be read, the smallest, and every known fault.
pub fn fixed() -> Vec<Record> {
    let padded = |length: usize| {
        let mut bytes = summed(b"*QF5892*F0*");
        bytes.resize(length, b' ');
        bytes
    };
    let mut files: Vec<Vec<u8>> = faulty_files().into_iter().map(|(bytes, _)| bytes).collect();
    let sound = [
        "*QF5892*F0*",
        "*QF5892*F1*",
        "*QF5892*F0*C0000*",
        "*C0000*G1*QP24*QF5892*F0*",
        "QF5891\u{2}*QF05892*\tF1*Q*N*L0000 0*L00000 1*L1 0 1\r\n0\t1*",
    ];
    files.extend(sound.iter().map(|content| summed(content.as_bytes())));
    files.extend([padded(65_536), padded(65_537)]);
    let mut records: Vec<Record> = files.into_iter().map(|bytes| Record::new("read", bytes)).collect();
    records.push(Record::new("write", ""));
    records.push(Record::new("write", "0".repeat(5_892)));
    records.push(Record::new("write", "1".repeat(5_892) + "\n"));
    records.push(Record::new("write", "1".repeat(5_891) + "0\r\n"));
    records.push(Record::new("write", "1".repeat(5_891)));
    records.push(Record::new("model", ""));
    records.push(Record::new("model", "0\n"));
    records
}
