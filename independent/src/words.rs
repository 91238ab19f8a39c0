//! The words of a Lola text: names, reserved words, numbers, logic values and signs.
//! Each call of `next` looks for the longest word at or behind a given byte.

/// What a text, a file, a map or a question is refused with.
#[derive(Clone, Copy, Debug, PartialEq, Eq)]
pub struct Refusal {
    pub number: u32,
    pub place: usize,
}

pub type Judged<T> = Result<T, Refusal>;

pub fn refuse<T>(number: u32, place: usize) -> Judged<T> {
    Err(Refusal { number, place })
}

impl Refusal {
    /// The one line every program prints for it.
    pub fn line(&self) -> Vec<u8> {
        format!("{} {}\n", self.number, self.place).into_bytes()
    }
}

pub const LONGEST_NAME: usize = 16;
pub const LARGEST_LITERAL: u32 = 65_535;

/// Words that can't be names. The second half belongs to forms that this language leaves out.
pub const RESERVED: [&str; 26] = [
    "MODULE", "CONST", "IN", "OUT", "VAR", "BEGIN", "END", "BIT", "FOR", "DO", "DIV", "MOD", "MUX", "REG", "TYPE",
    "IMPORT", "INOUT", "TS", "OC", "LATCH", "SR", "CLOCK", "IF", "THEN", "ELSIF", "ELSE",
];

/// Signs, the longer ones before their beginnings.
const SIGNS: [&str; 16] =
    [":=", "::", "..", ";", ":", ",", ".", "(", ")", "[", "]", "+", "-", "*", "~", "^"];

#[derive(Clone, Copy, Debug, PartialEq, Eq)]
pub enum Kind {
    Name,
    Reserved(&'static str),
    /// A literal; everything too large is held as one more than the largest.
    Number(u32),
    Logic(bool),
    Sign(&'static str),
    /// Nothing but blanks and comments was left.
    TextEnd,
    /// No word can begin here (or a comment was never closed).
    NoWord,
}

#[derive(Clone, Copy, Debug)]
pub struct Word {
    pub kind: Kind,
    pub at: usize,
    pub end: usize,
}

pub fn is_blank(byte: u8) -> bool {
    matches!(byte, b' ' | b'\t' | b'\r' | b'\n')
}

/// The first byte from `at` on that is in no blank and no comment; an open comment has none.
fn pass_blanks(text: &[u8], mut at: usize) -> Option<usize> {
    loop {
        if at < text.len() && is_blank(text[at]) {
            at += 1;
        } else if text[at..].starts_with(b"(*") {
            at += 2;
            let closing = text[at..].windows(2).position(|two| two == b"*)")?;
            at += closing + 2;
        } else {
            return Some(at);
        }
    }
}

pub fn next(text: &[u8], from: usize) -> Word {
    let Some(at) = pass_blanks(text, from) else {
        return Word { kind: Kind::NoWord, at: text.len(), end: text.len() };
    };
    let Some(&first) = text.get(at) else {
        return Word { kind: Kind::TextEnd, at, end: at };
    };
    let run = |fits: fn(&u8) -> bool| at + text[at..].iter().take_while(|b| fits(b)).count();

    if first.is_ascii_alphabetic() {
        let mut end = run(u8::is_ascii_alphanumeric);
        let closed = text.get(end) == Some(&b'\'');
        if closed {
            end += 1;
        }
        let spelled = &text[at..end];
        let kind = if spelled.len() > LONGEST_NAME {
            Kind::NoWord
        } else {
            match RESERVED.iter().find(|r| r.as_bytes() == spelled) {
                Some(reserved) => Kind::Reserved(reserved),
                None => Kind::Name,
            }
        };
        return Word { kind, at, end };
    }
    if first.is_ascii_digit() {
        let end = run(u8::is_ascii_digit);
        let value = text[at..end]
            .iter()
            .fold(0u32, |v, d| (v * 10 + (d - b'0') as u32).min(LARGEST_LITERAL + 1));
        return Word { kind: Kind::Number(value), at, end };
    }
    if first == b'\'' {
        return match text.get(at + 1) {
            Some(b'0') => Word { kind: Kind::Logic(false), at, end: at + 2 },
            Some(b'1') => Word { kind: Kind::Logic(true), at, end: at + 2 },
            _ => Word { kind: Kind::NoWord, at, end: at + 1 },
        };
    }
    match SIGNS.iter().find(|s| text[at..].starts_with(s.as_bytes())) {
        Some(sign) => Word { kind: Kind::Sign(sign), at, end: at + sign.len() },
        None => Word { kind: Kind::NoWord, at, end: at + 1 },
    }
}
