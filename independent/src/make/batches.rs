//! Cells as truth tables.

use super::Chance;
use crate::device::CELLS;

fn table(chance: &mut Chance, pins: usize) -> String {
    let size = 1usize << pins;
    let kind = chance.below(6);
    let masks: Vec<(usize, usize)> = (0..chance.within(1, 6))
        .map(|_| {
            let picked = chance.below(size) & chance.below(size);
            (picked, chance.below(size) & picked)
        })
        .collect();
    let turned = chance.coin();
    let parity = chance.below(size) & chance.below(size);
    (0..size)
        .map(|s| {
            let value = match kind {
                0 => chance.coin(),
                1 => chance.once_in(16),
                2 => (s & parity).count_ones() % 2 == 1,
                _ => masks.iter().any(|(picked, plain)| s & picked == *plain),
            };
            if value != turned { '1' } else { '0' }
        })
        .collect()
}

pub fn batch(chance: &mut Chance) -> String {
    let mut cells: Vec<usize> = CELLS.iter().map(|c| c.pin).collect();
    chance.shuffle(&mut cells);
    cells.truncate(if chance.once_in(8) { 10 } else { chance.within(0, 4) });
    let forms: Vec<&str> = cells.iter().map(|_| chance.word(&["C -", "C -", "R H", "R L"])).collect();
    let registered: Vec<usize> =
        cells.iter().zip(&forms).filter(|(_, f)| **f != "C -").map(|(pin, _)| *pin).collect();
    let mut lines = String::new();
    for (pin, form) in cells.iter().zip(&forms) {
        let mut named: Vec<usize> = [2, 3, 4, 5, 6, 7, 8, 9, 10, 11, 13].into_iter().chain(registered.clone()).collect();
        chance.shuffle(&mut named);
        let most = if chance.once_in(5) { 10 } else { 5 };
        named.truncate(chance.within(0, most));
        named.sort_unstable();
        let list = match named.is_empty() {
            true => "-".to_string(),
            false => named.iter().map(|p| p.to_string()).collect::<Vec<_>>().join(","),
        };
        lines += &format!("{pin} {form} {list} {}\n", table(chance, named.len()));
    }
    lines + ".\n"
}
