//! From truth tables to programmed cells: all primes of an output become rows of its cell.

use crate::circuit::{circuit_of, Circuit, Form, Output};
use crate::device::{self, cell_of, COLUMNS, FUSES, SETTINGS_AT};
use crate::sums::{primes, verdicts, Product, Verdict};
use crate::words::{refuse, Judged};

/// A cell that has been given its products.
pub struct Fitted {
    pub pin: usize,
    pub registered: bool,
    pub s0: bool,
    pub pins: Vec<usize>,
    pub products: Vec<Product>,
}

/// The products of an output, if its cell has the rows for them.
pub fn fit(output: &Output) -> Option<Fitted> {
    let room = cell_of(output.pin).products;
    let fitted = |registered, s0, table: &[bool]| {
        let products = primes(table, output.pins.len());
        (products.len() <= room).then(|| Fitted {
            pin: output.pin,
            registered,
            s0,
            pins: output.pins.clone(),
            products,
        })
    };
    match output.form {
        Form::Registered { inverted } => fitted(true, !inverted, &output.table),
        Form::Combinational => fitted(false, true, &output.table).or_else(|| {
            let inverse: Vec<bool> = output.table.iter().map(|value| !value).collect();
            fitted(false, false, &inverse)
        }),
    }
}

impl Fitted {
    /// A line of the fit program, without its end.
    pub fn line(&self) -> String {
        let kind = if self.registered { 'R' } else { 'C' };
        let shown = if self.s0 { 'H' } else { 'L' };
        let factors: u32 = self.products.iter().map(|p| p.picked.count_ones()).sum();
        format!("{} {} {} {} {}", self.pin, kind, shown, self.products.len(), factors)
    }
}

/// The row of one product. A column pair of a registered pin carries the inverse of Q, so where
/// the pin shows Q itself the two columns change places.
fn row_of(product: &Product, pins: &[usize], all: &[Fitted]) -> [u8; COLUMNS] {
    let mut row = [1; COLUMNS];
    for (i, pin) in pins.iter().enumerate() {
        if product.picked >> i & 1 == 1 {
            let shows_q = all.iter().any(|f| f.pin == *pin && f.registered && f.s0);
            let plain_column = (product.plain >> i & 1 == 1) != shows_q;
            row[2 * device::pair_of(*pin) + usize::from(!plain_column)] = 0;
        }
    }
    row
}

/// The map of a device whose used cells are these.
pub fn map_of_cells(all: &[Fitted]) -> Vec<u8> {
    let mut map = vec![0; FUSES];
    for fuse in &mut map[SETTINGS_AT..device::SIGNATURE_AT] {
        *fuse = 1;
    }
    for fitted in all {
        let cell = cell_of(fitted.pin);
        let mut rows: Vec<[u8; COLUMNS]> =
            fitted.products.iter().map(|p| row_of(p, &fitted.pins, all)).collect();
        rows.sort_unstable();
        rows.insert(0, [1; COLUMNS]);
        for (i, row) in rows.iter().enumerate() {
            let start = COLUMNS * (cell.enable + i);
            map[start..start + COLUMNS].copy_from_slice(row);
        }
        map[SETTINGS_AT + 2 * cell.number()] = u8::from(fitted.s0);
        map[SETTINGS_AT + 2 * cell.number() + 1] = u8::from(!fitted.registered);
    }
    map
}

/// A text whose every OUT fits.
pub struct Design {
    #[cfg_attr(not(test), allow(dead_code))]
    pub circuit: Circuit,
    pub outputs: Vec<Output>,
    pub cells: Vec<Fitted>,
}

pub fn design_of(text: &[u8]) -> Judged<Design> {
    let circuit = circuit_of(text)?;
    let mut outputs = Vec::new();
    let mut cells = Vec::new();
    for element in circuit.outs() {
        let output = circuit.output(element)?;
        match fit(&output) {
            Some(cell) => cells.push(cell),
            None => return refuse(12, circuit.elements[element].declared_at),
        }
        outputs.push(output);
    }
    Ok(Design { circuit, outputs, cells })
}

pub fn fit_lines(cells: &[Fitted]) -> Vec<u8> {
    let mut rising: Vec<&Fitted> = cells.iter().collect();
    rising.sort_by_key(|cell| cell.pin);
    let mut lines = Vec::new();
    for cell in rising {
        lines.extend_from_slice(cell.line().as_bytes());
        lines.push(b'\n');
    }
    lines
}

/// The verdicts on all products of what an OUT pin shows (a registered one: shows next).
pub fn verdicts_on(output: &Output) -> Vec<Verdict> {
    let table: Vec<bool> = match output.form {
        Form::Registered { inverted: true } => output.table.iter().map(|v| !v).collect(),
        _ => output.table.clone(),
    };
    verdicts(&table, output.pins.len())
}

/// The verdict on one product. Numbers too large to hold are given as None.
pub fn ask(design: &Design, pin: Option<u64>, number: Option<u64>) -> Judged<Verdict> {
    let Some(output) = design.outputs.iter().find(|o| Some(o.pin as u64) == pin) else {
        return refuse(14, 0);
    };
    let all = verdicts_on(output);
    match number {
        Some(number) if number < all.len() as u64 => Ok(all[number as usize]),
        _ => refuse(14, 0),
    }
}
