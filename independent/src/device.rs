//! The GAL22V10: where its fuses lie, and how a programmed one behaves.

use crate::words::{refuse, Judged};

pub const FUSES: usize = 5_892;
pub const COLUMNS: usize = 44;
pub const ROWS: usize = 132;
pub const PINS: usize = 24;
pub const SETTINGS_AT: usize = 5_808;
pub const SIGNATURE_AT: usize = 5_828;
pub const RESET_ROW: usize = 0;
pub const PRESET_ROW: usize = 131;

/// A cell: its pin, its enable row and how many product rows follow that.
#[derive(Clone, Copy, Debug)]
pub struct Cell {
    pub pin: usize,
    pub enable: usize,
    pub products: usize,
}

const fn cell(pin: usize, enable: usize, products: usize) -> Cell {
    Cell { pin, enable, products }
}

pub const CELLS: [Cell; 10] = [
    cell(23, 1, 8),
    cell(22, 10, 10),
    cell(21, 21, 12),
    cell(20, 34, 14),
    cell(19, 49, 16),
    cell(18, 66, 16),
    cell(17, 83, 14),
    cell(16, 98, 12),
    cell(15, 111, 10),
    cell(14, 122, 8),
];

/// The pin behind each pair of columns.
pub const PAIRS: [usize; 22] =
    [1, 23, 2, 22, 3, 21, 4, 20, 5, 19, 6, 18, 7, 17, 8, 16, 9, 15, 10, 14, 11, 13];

/// Where a pin's pair stands.
pub fn pair_of(pin: usize) -> usize {
    PAIRS.iter().position(|p| *p == pin).expect("a pin with columns")
}

impl Cell {
    /// The cell's place among the ten, from pin 23 down.
    pub fn number(&self) -> usize {
        23 - self.pin
    }
    pub fn s0(&self, map: &[u8]) -> bool {
        map[SETTINGS_AT + 2 * self.number()] == 1
    }
    pub fn combinational(&self, map: &[u8]) -> bool {
        map[SETTINGS_AT + 2 * self.number() + 1] == 1
    }
    pub fn enabled(&self, map: &[u8]) -> bool {
        row(map, self.enable).iter().all(|f| *f == 1)
    }
    pub fn product_rows(&self) -> std::ops::Range<usize> {
        self.enable + 1..self.enable + 1 + self.products
    }
}

pub fn cell_of(pin: usize) -> &'static Cell {
    CELLS.iter().find(|c| c.pin == pin).expect("an output pin")
}

pub fn row(map: &[u8], number: usize) -> &[u8] {
    &map[COLUMNS * number..COLUMNS * (number + 1)]
}

/// A row that joins both columns of some pair is never true.
pub fn is_dead(row: &[u8]) -> bool {
    (0..PAIRS.len()).any(|pair| row[2 * pair] == 0 && row[2 * pair + 1] == 0)
}

fn reads(row: &[u8], pair: usize) -> bool {
    row[2 * pair] == 0 || row[2 * pair + 1] == 0
}

/// Digits as a map: fuses 0 and 1, as many as the device has.
pub fn map_of(digits: &[u8]) -> Judged<Vec<u8>> {
    if digits.len() != FUSES || digits.iter().any(|d| !matches!(d, b'0' | b'1')) {
        return refuse(31, 0);
    }
    Ok(digits.iter().map(|d| d - b'0').collect())
}

#[derive(Clone, Debug, PartialEq, Eq)]
pub struct Answer {
    /// By pin, from pin 1.
    pub shown: [bool; PINS],
    pub values: [bool; PINS],
    /// By pin, from pin 14.
    pub registers: [bool; 10],
}

/// Whether the model speaks of this map at all.
pub fn judge_map(map: &[u8]) -> Judged<()> {
    let all = |number: usize, value: u8| row(map, number).iter().all(|f| *f == value);
    if !all(RESET_ROW, 0) || !all(PRESET_ROW, 0) {
        return refuse(30, 0);
    }
    if CELLS.iter().any(|c| !all(c.enable, 0) && !all(c.enable, 1)) {
        return refuse(30, 0);
    }
    for cell in CELLS.iter().filter(|c| c.enabled(map) || !c.combinational(map)) {
        for number in cell.product_rows() {
            let product = row(map, number);
            if is_dead(product) {
                continue;
            }
            for (pair, pin) in PAIRS.iter().enumerate() {
                let forbidden = match pin {
                    1 => true,
                    14..=23 => cell_of(*pin).combinational(map) && cell_of(*pin).enabled(map),
                    _ => false,
                };
                if forbidden && reads(product, pair) {
                    return refuse(30, 0);
                }
            }
        }
    }
    Ok(())
}

/// Register bits stand for pins 14 to 23, pin values for pins 1 to 24.
pub fn model(map: &[u8], bits: &[u8; 10], pins: &[u8; PINS]) -> Judged<Answer> {
    judge_map(map)?;
    judge_values(map, bits, pins)?;
    // What the plain column of each pair carries.
    let columns: Vec<bool> = PAIRS
        .iter()
        .map(|pin| match pin {
            14..=23 if !cell_of(*pin).combinational(map) => bits[pin - 14] == 0,
            _ => pins[pin - 1] == 1,
        })
        .collect();
    let mut answer =
        Answer { shown: [false; PINS], values: [false; PINS], registers: [false; 10] };
    for cell in &CELLS {
        let sum = cell.product_rows().any(|number| is_true(row(map, number), &columns));
        let held = bits[cell.pin - 14] == 1;
        let combinational = cell.combinational(map);
        if cell.enabled(map) {
            let inside = if combinational { sum } else { held };
            answer.shown[cell.pin - 1] = true;
            answer.values[cell.pin - 1] = inside == cell.s0(map);
        }
        if !combinational {
            answer.registers[cell.pin - 14] = sum;
        }
    }
    Ok(answer)
}

fn is_true(row: &[u8], columns: &[bool]) -> bool {
    columns.iter().enumerate().all(|(pair, plain)| {
        (row[2 * pair] == 1 || *plain) && (row[2 * pair + 1] == 1 || !*plain)
    })
}

fn judge_values(map: &[u8], bits: &[u8; 10], pins: &[u8; PINS]) -> Judged<()> {
    for cell in &CELLS {
        let most = if cell.combinational(map) { 0 } else { 1 };
        if bits[cell.pin - 14] > most {
            return refuse(32, 0);
        }
    }
    for pin in 1..=PINS {
        let callers = match pin {
            2..=11 | 13 => true,
            14..=23 => cell_of(pin).combinational(map) && !cell_of(pin).enabled(map),
            _ => false,
        };
        if pins[pin - 1] > u8::from(callers) {
            return refuse(32, 0);
        }
    }
    Ok(())
}
