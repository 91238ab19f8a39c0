//! Cells given by truth tables instead of equations: the part between the text and the rows alone.

use crate::cells::{fit, map_of_cells, Fitted};
use crate::circuit::{Form, Output};
use crate::file::fuse_sum;

fn line_of(line: &str) -> Option<Output> {
    let words: Vec<&str> = line.split(' ').collect();
    let [pin, kind, shown, named, table] = words[..] else { return None };
    let pin: usize = pin.parse().ok().filter(|p| (14..=23).contains(p))?;
    let form = match (kind, shown) {
        ("C", "-") => Form::Combinational,
        ("R", "H") => Form::Registered { inverted: false },
        ("R", "L") => Form::Registered { inverted: true },
        _ => return None,
    };
    let mut pins = Vec::new();
    if named != "-" {
        for word in named.split(',') {
            let pin: usize = word.parse().ok()?;
            let rising = pins.last().is_none_or(|last| *last < pin);
            if !rising || !matches!(pin, 2..=11 | 13..=23) {
                return None;
            }
            pins.push(pin);
        }
    }
    if pins.len() > 10 || table.len() != 1 << pins.len() || table.bytes().any(|b| b != b'0' && b != b'1') {
        return None;
    }
    Some(Output { pin, form, pins, table: table.bytes().map(|b| b == b'1').collect() })
}

/// Every output pin that a cell reads must be a registered one of the batch, every cell its own.
fn is_whole(batch: &[Output]) -> bool {
    let registered = |pin: usize| batch.iter().any(|o| o.pin == pin && o.form != Form::Combinational);
    batch.iter().enumerate().all(|(i, output)| {
        batch[..i].iter().all(|before| before.pin != output.pin)
            && output.pins.iter().all(|pin| *pin < 14 || registered(*pin))
    })
}

pub fn answer(input: &str) -> Result<String, String> {
    let mut answers = String::new();
    let mut batch = Vec::new();
    for (number, line) in input.lines().enumerate() {
        if line != "." {
            batch.push(line_of(line).ok_or(format!("line {}: not a cell", number + 1))?);
            continue;
        }
        if !is_whole(&batch) {
            return Err(format!("line {}: cells that do not stand together", number + 1));
        }
        let fitted: Vec<Option<Fitted>> = batch.iter().map(fit).collect();
        match fitted.iter().position(|f| f.is_none()) {
            Some(unfit) => answers += &format!("12 {}\n", batch[unfit].pin),
            None => {
                let mut cells: Vec<Fitted> = fitted.into_iter().flatten().collect();
                cells.sort_by_key(|cell| cell.pin);
                for cell in &cells {
                    answers += &format!("{}\n", cell.line());
                }
                answers += &format!("{:04X}\n", fuse_sum(&map_of_cells(&cells)));
            }
        }
        answers += ".\n";
        batch.clear();
    }
    if batch.is_empty() { Ok(answers) } else { Err("a batch without its end".to_string()) }
}
