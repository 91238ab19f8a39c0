//! Products over a few pins, numbered in base three, and the complete sum of a function.

/// A product: which of the named pins it picks, and which of the picked ones plain.
#[derive(Clone, Copy, Debug, PartialEq, Eq)]
pub struct Product {
    pub picked: u16,
    pub plain: u16,
}

#[derive(Clone, Copy, Debug, PartialEq, Eq)]
pub enum Verdict {
    NoImplicant,
    Implicant,
    Prime,
}

pub fn power_of_three(pins: usize) -> usize {
    3usize.pow(pins as u32)
}

/// Digit 0 picks a pin inverse, 1 plain, 2 leaves it out; the least digit is the first pin's.
pub fn product_of(mut number: usize, pins: usize) -> Product {
    let mut product = Product { picked: 0, plain: 0 };
    for pin in 0..pins {
        match number % 3 {
            0 => product.picked |= 1 << pin,
            1 => {
                product.picked |= 1 << pin;
                product.plain |= 1 << pin;
            }
            _ => {}
        }
        number /= 3;
    }
    product
}

/// For every product number, whether the function is true wherever the product is.
fn implicants(table: &[bool], pins: usize) -> Vec<bool> {
    let powers: Vec<usize> = (0..pins).map(power_of_three).collect();
    let mut implies = vec![false; power_of_three(pins)];
    for number in 0..implies.len() {
        let mut setting = 0;
        let mut left_out = None;
        for (pin, power) in powers.iter().enumerate() {
            match number / power % 3 {
                0 => {}
                1 => setting |= 1 << pin,
                _ => left_out = Some(*power),
            }
        }
        // A pin left out: both ways of picking it must be implicants; both have smaller numbers.
        implies[number] = match left_out {
            Some(power) => implies[number - power] && implies[number - 2 * power],
            None => table[setting],
        };
    }
    implies
}

/// The verdict on every product of the named pins.
pub fn verdicts(table: &[bool], pins: usize) -> Vec<Verdict> {
    let implies = implicants(table, pins);
    (0..implies.len())
        .map(|number| {
            if !implies[number] {
                return Verdict::NoImplicant;
            }
            let mut power = 1;
            for _ in 0..pins {
                let digit = number / power % 3;
                if digit != 2 && implies[number + (2 - digit) * power] {
                    return Verdict::Implicant;
                }
                power *= 3;
            }
            Verdict::Prime
        })
        .collect()
}

/// All primes, in the order of their numbers.
pub fn primes(table: &[bool], pins: usize) -> Vec<Product> {
    verdicts(table, pins)
        .iter()
        .enumerate()
        .filter(|(_, verdict)| **verdict == Verdict::Prime)
        .map(|(number, _)| product_of(number, pins))
        .collect()
}
