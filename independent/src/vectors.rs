//! The verbs as functions from input bytes to answer bytes, and records of many calls in a row.

use crate::cells::{ask, design_of, fit_lines, map_of_cells};
use crate::device::{judge_map, map_of, model, Answer, PINS};
use crate::file;
use crate::sums::Verdict;
use crate::words::{Judged, Refusal};

fn printed(judged: Judged<Vec<u8>>) -> Vec<u8> {
    judged.unwrap_or_else(|refusal| refusal.line())
}

pub fn compile(text: &[u8]) -> Vec<u8> {
    printed(design_of(text).map(|design| file::write(&map_of_cells(&design.cells))))
}

pub fn fit(text: &[u8]) -> Vec<u8> {
    printed(design_of(text).map(|design| fit_lines(&design.cells)))
}

pub fn question(text: &[u8], pin: &str, number: &str) -> Vec<u8> {
    // Decimal digits beyond what is held here are beyond every product's number too.
    let value = |digits: &str| digits.parse::<u64>().ok();
    printed(design_of(text).and_then(|design| {
        Ok(match ask(&design, value(pin), value(number))? {
            Verdict::NoImplicant => b"0\n".to_vec(),
            Verdict::Implicant => b"1\n".to_vec(),
            Verdict::Prime => b"2\n".to_vec(),
        })
    }))
}

pub fn read_file(bytes: &[u8]) -> Vec<u8> {
    printed(file::read(bytes).map(|map| {
        let mut digits: Vec<u8> = map.iter().map(|fuse| b'0' + fuse).collect();
        digits.push(b'\n');
        digits
    }))
}

/// What a line says: all in front of its LF, and of a CR directly before that. Where no LF ends the
/// bytes, all of them.
fn said_by(line: &[u8]) -> &[u8] {
    match line {
        [said @ .., b'\r', b'\n'] | [said @ .., b'\n'] => said,
        unended => unended,
    }
}

pub fn write_file(digits: &[u8]) -> Vec<u8> {
    printed(map_of(said_by(digits)).map(|map| file::write(&map)))
}

/// The map's digits on the first line, then a line for each call of the model. The last line may
/// lack its LF; behind an LF at the very end no further line begins.
pub fn model_lines(input: &[u8]) -> Vec<u8> {
    let mut lines = input.split_inclusive(|byte| *byte == b'\n').map(said_by);
    let map = map_of(lines.next().unwrap_or_default());
    let mut answers = Vec::new();
    for line in lines {
        answers.extend(printed(match &map {
            Ok(map) => model_line(map, line),
            Err(refusal) => Err(*refusal),
        }));
    }
    answers
}

fn model_line(map: &[u8], line: &[u8]) -> Judged<Vec<u8>> {
    judge_map(map)?;
    let malformed = Refusal { number: 32, place: 0 };
    let digit = |i: usize| match line.get(i) {
        Some(d) if d.is_ascii_digit() => Ok(d - b'0'),
        _ => Err(malformed),
    };
    if line.len() != 10 + 1 + PINS || line[10] != b' ' {
        return Err(malformed);
    }
    let mut bits = [0; 10];
    let mut pins = [0; PINS];
    for (i, bit) in bits.iter_mut().enumerate() {
        *bit = digit(i)?;
    }
    for (i, pin) in pins.iter_mut().enumerate() {
        *pin = digit(11 + i)?;
    }
    model(map, &bits, &pins).map(|answer| answer_line(&answer))
}

fn answer_line(answer: &Answer) -> Vec<u8> {
    let digits = |bits: &[bool]| bits.iter().map(|b| if *b { '1' } else { '0' }).collect::<String>();
    format!("{} {} {}\n", digits(&answer.shown), digits(&answer.values), digits(&answer.registers))
        .into_bytes()
}

/// One call: its words in front of the length, and what it reads.
#[derive(Clone)]
pub struct Record {
    pub call: String,
    pub payload: Vec<u8>,
}

impl Record {
    pub fn new(call: &str, payload: impl Into<Vec<u8>>) -> Self {
        Record { call: call.to_string(), payload: payload.into() }
    }

    pub fn bytes(&self) -> Vec<u8> {
        let mut bytes = format!("{} {}\n", self.call, self.payload.len()).into_bytes();
        bytes.extend_from_slice(&self.payload);
        bytes.push(b'\n');
        bytes
    }

    pub fn answer(&self) -> Result<Vec<u8>, String> {
        let words: Vec<&str> = self.call.split(' ').collect();
        Ok(match words[..] {
            ["compile"] => compile(&self.payload),
            ["fit"] => fit(&self.payload),
            ["ask", pin, number] if is_decimal(pin) && is_decimal(number) => {
                question(&self.payload, pin, number)
            }
            ["read"] => read_file(&self.payload),
            ["write"] => write_file(&self.payload),
            ["model"] => model_lines(&self.payload),
            _ => return Err(format!("no such call: {}", self.call)),
        })
    }
}

pub fn is_decimal(word: &str) -> bool {
    !word.is_empty() && word.bytes().all(|b| b.is_ascii_digit())
}

/// Takes a head line apart from what its last word says follows it.
fn head(input: &[u8]) -> Result<(String, usize, &[u8]), String> {
    let end = input.iter().position(|b| *b == b'\n').ok_or("a head line without its end")?;
    let line = std::str::from_utf8(&input[..end]).map_err(|_| "a head line that is no text")?;
    let (words, length) = line.rsplit_once(' ').ok_or("a head line without a length")?;
    let length: usize = length.parse().map_err(|_| format!("no length: {length}"))?;
    Ok((words.to_string(), length, &input[end + 1..]))
}

/// A head line, its bytes and the line end behind them; and what is left.
fn piece(input: &[u8]) -> Result<(String, &[u8], &[u8]), String> {
    let (words, length, rest) = head(input)?;
    if rest.len() <= length || rest[length] != b'\n' {
        return Err(format!("{words}: the bytes do not end where the length says"));
    }
    Ok((words, &rest[..length], &rest[length + 1..]))
}

pub fn records_of(mut input: &[u8]) -> Result<Vec<Record>, String> {
    let mut records = Vec::new();
    while !input.is_empty() {
        let (call, payload, rest) = piece(input)?;
        records.push(Record { call, payload: payload.to_vec() });
        input = rest;
    }
    Ok(records)
}

pub fn answered(index: usize, answer: &[u8]) -> Vec<u8> {
    let mut bytes = format!("#{} {}\n", index, answer.len()).into_bytes();
    bytes.extend_from_slice(answer);
    bytes.push(b'\n');
    bytes
}

fn excerpt(bytes: &[u8]) -> String {
    const MOST: usize = 2_000;
    let shown = String::from_utf8_lossy(&bytes[..bytes.len().min(MOST)]).into_owned();
    if bytes.len() > MOST {
        format!("{shown}.. ({} bytes)", bytes.len())
    } else {
        shown
    }
}

/// Compares two runs over the same records: what to print, and how many answers differ. A run that
/// stops early or garbles its answers differs from there on.
pub fn compare(records: &[Record], left: &[u8], right: &[u8]) -> (String, usize) {
    let mut report = String::new();
    let mut differing = 0;
    let answers = |bytes: &[u8], side: &str, report: &mut String| {
        let mut answers = Vec::new();
        let mut rest = bytes;
        while !rest.is_empty() {
            match piece(rest) {
                Ok((index, bytes, left)) if index == format!("#{}", answers.len()) => {
                    answers.push(bytes.to_vec());
                    rest = left;
                }
                Ok((index, ..)) => {
                    *report += &format!("{side}: answer {} is headed {index}\n", answers.len());
                    break;
                }
                Err(fault) => {
                    *report += &format!("{side}: answer {}: {fault}\n", answers.len());
                    break;
                }
            }
        }
        answers
    };
    let left = answers(left, "first", &mut report);
    let right = answers(right, "second", &mut report);
    let surplus = left.len().max(right.len()).saturating_sub(records.len());
    for (i, record) in records.iter().enumerate() {
        let pair = (left.get(i), right.get(i));
        if pair.0.is_some() && pair.0 == pair.1 {
            continue;
        }
        differing += 1;
        if differing <= 10 {
            let side = |answer: Option<&Vec<u8>>| match answer {
                Some(bytes) => excerpt(bytes),
                None => "(no answer)".to_string(),
            };
            report += &format!(
                "--- record {i}: {}\n{}\n--- first answer\n{}\n--- second answer\n{}\n",
                record.call,
                excerpt(&record.payload),
                side(pair.0),
                side(pair.1)
            );
        }
    }
    if surplus > 0 {
        report += &format!("{surplus} answers to no record\n");
        differing += surplus;
    }
    (report, differing)
}
