//! A compiler from Lola texts to fuse files for the GAL22V10, with a reader and a writer of such
//! files, a model of the device, and a generator of cases for all of them.

mod cells;
mod circuit;
mod device;
mod file;
mod grammar;
mod make;
#[cfg(test)]
mod marked;
#[cfg(test)]
mod simulation;
mod sums;
mod tables;
#[cfg(test)]
mod tests;
mod unroll;
mod vectors;
mod words;

use std::hint::black_box;
use std::io::{self, Read, Write};
use std::num::NonZeroU32;
use std::process::ExitCode;
use std::time::Instant;

const USAGE: &str = "usage: independent compile | fit | ask PIN NUMBER | read | write | model | table | vectors
       independent make device|text|tables|all SEED COUNT
       independent diff RECORDS ANSWERS ANSWERS
       independent count RECORDS
       independent bench compile|read FILE ROUNDS";

fn input() -> Result<Vec<u8>, String> {
    let mut bytes = Vec::new();
    io::stdin().lock().read_to_end(&mut bytes).map_err(|e| e.to_string())?;
    Ok(bytes)
}

fn content(path: &str) -> Result<Vec<u8>, String> {
    std::fs::read(path).map_err(|e| format!("{path}: {e}"))
}

/// How long a call takes, the mean of some rounds.
fn nanoseconds(run: fn(&[u8]) -> Vec<u8>, bytes: &[u8], rounds: NonZeroU32) -> u128 {
    let start = Instant::now();
    for _ in 0..rounds.get() {
        black_box(run(black_box(bytes)));
    }
    start.elapsed().as_nanos() / u128::from(rounds.get())
}

/// What to print, and whether all is well.
fn run(words: &[&str]) -> Result<(Vec<u8>, bool), String> {
    let bytes = match words {
        ["compile"] => vectors::compile(&input()?),
        ["fit"] => vectors::fit(&input()?),
        ["ask", pin, number] if vectors::is_decimal(pin) && vectors::is_decimal(number) => {
            vectors::question(&input()?, pin, number)
        }
        ["read"] => vectors::read_file(&input()?),
        ["write"] => vectors::write_file(&input()?),
        ["model"] => vectors::model_lines(&input()?),
        ["table"] => {
            let bytes = input()?;
            let text = std::str::from_utf8(&bytes).map_err(|e| e.to_string())?;
            tables::answer(text)?.into_bytes()
        }
        ["vectors"] => {
            let mut answers = Vec::new();
            for (i, record) in vectors::records_of(&input()?)?.iter().enumerate() {
                answers.extend(vectors::answered(i, &record.answer()?));
            }
            answers
        }
        ["make", kind, seed, count] => {
            let seed = seed.parse().map_err(|_| USAGE)?;
            let count = count.parse().map_err(|_| USAGE)?;
            make::make(kind, seed, count).ok_or(USAGE)?
        }
        ["diff", records, left, right] => {
            let records = vectors::records_of(&content(records)?)?;
            let (mut report, differing) = vectors::compare(&records, &content(left)?, &content(right)?);
            report += &format!("{} cases, {} differences\n", records.len(), differing);
            return Ok((report.into_bytes(), differing == 0));
        }
        ["bench", verb, path, rounds] => {
            let run = match *verb {
                "compile" => vectors::compile,
                "read" => vectors::read_file,
                _ => return Err(USAGE.to_string()),
            };
            let rounds = rounds.parse::<NonZeroU32>().map_err(|_| USAGE)?;
            format!("{}\n", nanoseconds(run, &content(path)?, rounds)).into_bytes()
        }
        ["count", records] => make::census(&vectors::records_of(&content(records)?)?)?.into_bytes(),
        _ => return Err(USAGE.to_string()),
    };
    Ok((bytes, true))
}

fn main() -> ExitCode {
    let words: Vec<String> = std::env::args().skip(1).collect();
    let words: Vec<&str> = words.iter().map(String::as_str).collect();
    match run(&words) {
        Ok((bytes, well)) => match io::stdout().lock().write_all(&bytes) {
            Ok(()) if well => ExitCode::SUCCESS,
            _ => ExitCode::FAILURE,
        },
        Err(fault) => {
            eprintln!("{fault}");
            ExitCode::from(2)
        }
    }
}
