//! The marked examples, the known cases, and the parts held against one another.

use crate::cells::{ask, design_of, map_of_cells};
use crate::circuit::circuit_of;
use crate::device::{self, cell_of, judge_map, map_of, model, CELLS, COLUMNS, FUSES, PINS};
use crate::file;
use crate::grammar::Class;
use crate::make::files::{faulty_files, summed};
use crate::make::fixed::{cases, wide, Case, Known, ADDER, BARREL, COUNTER, EXAMPLE, EXAMPLE_FILE};
use crate::make::maps::{line_ends, model_record, write_record};
use crate::make::texts::question;
use crate::make::{census, make, readings, refusal_number, texts, Chance};
use crate::simulation::Simulation;
use crate::sums::{primes, product_of, verdicts, Verdict};
use crate::vectors::{self, Record};
use std::collections::HashMap;

fn said(bytes: Vec<u8>) -> String {
    String::from_utf8_lossy(&bytes).into_owned()
}

fn refused(number: u32, place: usize) -> String {
    format!("{number} {place}\n")
}

fn read(bytes: &[u8]) -> Result<Vec<u8>, (u32, usize)> {
    file::read(bytes).map_err(|refusal| (refusal.number, refusal.place))
}

#[test]
fn the_example_is_244_bytes_as_given() {
    let bytes = vectors::compile(EXAMPLE.as_bytes());
    assert_eq!(bytes.len(), 244);
    assert_eq!(bytes, EXAMPLE_FILE.as_bytes());
    assert_eq!(vectors::fit(EXAMPLE.as_bytes()), b"23 R H 2 4\n");
}

#[test]
fn every_known_case_gives_its_answer() {
    give_their_answers(cases());
}

#[test]
fn a_cr_counts_unless_an_lf_follows_it_directly() {
    let all = line_ends();
    for verb in ["model", "write"] {
        assert!(all.iter().any(|case| case.record.call == verb));
    }
    give_their_answers(all);
}

#[test]
fn made_records_have_every_end_of_line() {
    let mut chance = Chance::new(17);
    let inputs: Vec<String> = (0..600).map(|_| said(model_record(&mut chance).payload)).collect();
    let some = |has: &dyn Fn(&str) -> bool| inputs.iter().any(|input| has(input));
    let map_line = |input: &str| input.split_inclusive('\n').next().unwrap_or("").to_string();
    let calls = |input: &str| input[map_line(input).len()..].to_string();
    let within = |line: &str| line.trim_end_matches(['\r', '\n']).contains('\r');
    assert!(some(&|i| map_line(i).ends_with("1\r\n") && calls(i).ends_with("0\n")), "on the map's line alone");
    assert!(some(&|i| calls(i).contains("0\r\n") && calls(i).contains("0\n")), "on some lines");
    assert!(some(&|i| i.ends_with("0\r") || i.ends_with("1\r")), "a CR alone at the end");
    assert!(some(&|i| i.ends_with("\n\r")), "a CR alone behind the last LF");
    assert!(some(&|i| calls(i).lines().any(within)), "a CR inside a line");
    assert!(some(&|i| map_line(i).ends_with("\r\r\n")), "CR CR LF behind the map");
    assert!(some(&|i| calls(i).contains("\r\r\n")), "CR CR LF behind a call");
    let digits: Vec<Vec<u8>> = (0..600).map(|_| write_record(&mut chance).payload).collect();
    for end in ["0\n", "0\r\n", "0\r", "0\r\r\n", "0\n\r", "0\r\n\r\n"] {
        assert!(digits.iter().any(|d| d.len() > FUSES && d.ends_with(end.as_bytes())), "{end:?}");
    }
    assert!(digits.iter().any(|d| d.len() > FUSES && d[..FUSES].contains(&b'\r')));
}

fn give_their_answers(cases: Vec<Case>) {
    let mut wrong = Vec::new();
    for case in cases {
        let answer = case.record.answer().unwrap();
        let right = match &case.known {
            Known::Anything => true,
            Known::Accepted => refusal_number(&answer).is_none(),
            Known::Refused { number, place } => answer == refused(*number, *place).into_bytes(),
            Known::Exactly(whole) => answer == whole.as_bytes(),
        };
        if !right {
            let text = String::from_utf8_lossy(&case.record.payload).chars().take(300).collect::<String>();
            let answer = said(answer).chars().take(80).collect::<String>();
            wrong.push(format!("{} {text}\n  known {:?}\n  gives {answer}", case.record.call, case.known));
        }
    }
    assert!(wrong.is_empty(), "{} wrong\n{}", wrong.len(), wrong.join("\n"));
}

/// What y shows, from power-up, at each of some clocks with all inputs at the given values.
pub fn shows(text: &str, inputs: &[(usize, bool)], clocks: usize) -> Vec<bool> {
    let design = design_of(text.as_bytes()).unwrap();
    let map = map_of_cells(&design.cells);
    let pin = design.outputs[0].pin;
    let mut bits = [0; 10];
    let mut pins = [0; PINS];
    for (input, value) in inputs {
        pins[input - 1] = u8::from(*value);
    }
    (0..clocks)
        .map(|_| {
            let answer = model(&map, &bits, &pins).unwrap();
            bits = answer.registers.map(u8::from);
            answer.values[pin - 1]
        })
        .collect()
}

#[test]
fn marked_examples_of_values() {
    let all = [(2, true), (3, true), (4, true)];
    assert_eq!(shows(&wide(3, 23, "a+b-c"), &all, 1), [false]);
    assert_eq!(shows(&wide(1, 23, "MUX('0: '1, '0)"), &[], 1), [true]);
    assert_eq!(shows(&wide(1, 23, "~REG('1)"), &[], 4), [true, false, false, false]);
    assert_eq!(shows(&wide(1, 23, "REG('1)"), &[], 3), [false, true, true]);
    assert_eq!(shows(EXAMPLE, &[(2, true)], 4), [false, true, false, true]);
    assert_eq!(shows(&wide(2, 23, "~REG(b, a)"), &[(2, true), (3, false)], 3), [true, true, true]);
    assert_eq!(shows(&wide(2, 23, "~REG(b, a)"), &[(2, true), (3, true)], 3), [true, false, false]);
}

/// The number that some pins make, the first its lowest bit.
fn number_on(values: &[bool; PINS], pins: &[usize]) -> usize {
    pins.iter().enumerate().map(|(i, pin)| usize::from(values[pin - 1]) << i).sum()
}

#[test]
fn the_examples_do_what_they_say() {
    let map = |text: &str| file::read(&vectors::compile(text.as_bytes())).unwrap();
    let give = |pins: &[usize], number: usize| {
        let mut values = [0; PINS];
        for (i, pin) in pins.iter().enumerate() {
            values[pin - 1] = (number >> i & 1) as u8;
        }
        values
    };
    let adder = map(ADDER);
    for given in 0..32 {
        let answer = model(&adder, &[0; 10], &give(&[2, 3, 4, 5, 6], given)).unwrap();
        assert_eq!(number_on(&answer.values, &[23, 19, 22]), given % 4 + given / 4 % 4 + given / 16);
    }
    let barrel = map(BARREL);
    for given in 0..64 {
        let answer = model(&barrel, &[0; 10], &give(&[2, 3, 4, 5, 6, 7], given)).unwrap();
        let (turns, data) = (given % 4, given / 4);
        assert_eq!(number_on(&answer.values, &[22, 21, 20, 19]), (data >> turns | data << (4 - turns)) % 16);
    }
    let counter = map(COUNTER);
    let mut bits = [0; 10];
    let mut count = 0;
    for clock in 0..600 {
        let on = clock % 7 != 3;
        let answer = model(&counter, &bits, &give(&[2], usize::from(on))).unwrap();
        assert_eq!(number_on(&answer.values, &[23, 22, 21, 20, 19, 18, 17, 16]), count % 256);
        count += usize::from(on);
        bits = answer.registers.map(u8::from);
    }
}

fn primes_of(pins: usize, f: impl Fn(usize) -> bool) -> usize {
    let table: Vec<bool> = (0..1 << pins).map(f).collect();
    primes(&table, pins).len()
}

#[test]
fn marked_examples_of_sums() {
    let parity = |s: usize| s.count_ones() % 2 == 1;
    assert_eq!(primes_of(4, parity), 8);
    assert_eq!(primes_of(5, parity), 16);
    assert_eq!(primes_of(3, |s| if s & 1 == 1 { s & 2 != 0 } else { s & 4 != 0 }), 3);
    assert_eq!(primes_of(0, |_| false), 0);
    assert_eq!(primes_of(0, |_| true), 1);
    assert_eq!(primes_of(2, |_| true), 1);
    assert_eq!(primes_of(10, |s| s != 0), 10);
    let or = verdicts(&[false, true, true, true], 2);
    assert_eq!((or[4], or[7], or[8], or[0]), (Verdict::Implicant, Verdict::Prime, Verdict::NoImplicant, Verdict::NoImplicant));
}

#[test]
fn verdicts_follow_the_definition_setting_by_setting() {
    let mut chance = Chance::new(7);
    for round in 0..60 {
        let pins = round % 5;
        let table: Vec<bool> = (0..1 << pins).map(|_| chance.below(3) > 0).collect();
        let implies = |picked: usize, plain: usize| {
            (0..1usize << pins).all(|s| s & picked != plain || table[s])
        };
        for (number, verdict) in verdicts(&table, pins).iter().enumerate() {
            let product = product_of(number, pins);
            let (picked, plain) = (product.picked as usize, product.plain as usize);
            let shorter = (0..pins).filter(|p| picked >> p & 1 == 1).any(|p| implies(picked & !(1 << p), plain & !(1 << p)));
            let expected = match (implies(picked, plain), shorter) {
                (false, _) => Verdict::NoImplicant,
                (true, true) => Verdict::Implicant,
                (true, false) => Verdict::Prime,
            };
            assert_eq!(*verdict, expected);
        }
    }
}

#[test]
fn fits_and_misfits() {
    let parity = "a - b - c - d - e";
    assert_eq!(said(vectors::fit(wide(5, 19, parity).as_bytes())), "19 C H 16 80\n");
    let text = wide(5, 20, parity);
    let place = text.find("y: BIT").unwrap();
    assert_eq!(said(vectors::compile(text.as_bytes())), refused(12, place));
    let ors = |n: usize| (0..n).map(crate::make::fixed::input_name).collect::<Vec<_>>().join("+");
    assert_eq!(said(vectors::fit(wide(10, 23, &ors(10)).as_bytes())), "23 C L 1 10\n");
    let text = wide(11, 23, &ors(11));
    let place = text.find("y: BIT").unwrap();
    assert_eq!(said(vectors::fit(text.as_bytes())), refused(11, place));
}

#[test]
fn fit_lines_count_what_the_rows_hold() {
    let mut chance = Chance::new(11);
    let mut seen = 0;
    while seen < 60 {
        let text = texts::sound(&mut chance);
        let Ok(design) = design_of(&text) else { continue };
        seen += 1;
        let map = map_of_cells(&design.cells);
        let mut lines = String::new();
        for pin in 14..=23 {
            let cell = cell_of(pin);
            if !cell.enabled(&map) {
                assert!(cell.product_rows().all(|r| device::row(&map, r).iter().all(|f| *f == 0)));
                assert!(cell.s0(&map) && cell.combinational(&map));
                continue;
            }
            let live: Vec<&[u8]> =
                cell.product_rows().map(|r| device::row(&map, r)).filter(|r| !device::is_dead(r)).collect();
            assert!(live.windows(2).all(|two| two[0] < two[1]), "rows rise");
            let factors: usize = live.iter().map(|r| r.iter().filter(|f| **f == 0).count()).sum();
            let kind = if cell.combinational(&map) { 'C' } else { 'R' };
            let shown = if cell.s0(&map) { 'H' } else { 'L' };
            lines += &format!("{pin} {kind} {shown} {} {factors}\n", live.len());
        }
        assert_eq!(said(vectors::fit(&text)), lines);
    }
}

#[test]
fn the_model_of_a_compiled_map_follows_the_equations() {
    let mut chance = Chance::new(3);
    let mut seen = 0;
    while seen < 250 {
        let text = texts::text(&mut chance);
        let Ok(design) = design_of(&text) else { continue };
        seen += 1;
        let circuit = &design.circuit;
        let bytes = file::write(&map_of_cells(&design.cells));
        let map = file::read(&bytes).unwrap();
        let mut simulation = Simulation::new(circuit);
        let mut bits = [0; 10];
        for _ in 0..12 {
            let mut pins = [0; PINS];
            let mut values = [false; PINS + 1];
            for (e, element) in circuit.elements.iter().enumerate() {
                if element.class == Class::In && chance.coin() {
                    pins[circuit.pin(e) - 1] = 1;
                    values[circuit.pin(e)] = true;
                }
            }
            let answer = model(&map, &bits, &pins).unwrap();
            let shown = simulation.shown(&values);
            let outs = circuit.outs();
            assert_eq!(answer.shown.iter().filter(|s| **s).count(), outs.len());
            for e in outs {
                assert!(answer.shown[circuit.pin(e) - 1]);
                assert_eq!(answer.values[circuit.pin(e) - 1], shown[e], "{}", String::from_utf8_lossy(&text));
            }
            simulation.clock(&values);
            bits = answer.registers.map(u8::from);
        }
    }
}

#[test]
fn questions_agree_with_the_rows() {
    // For an output that is not shown inverted, as many products are prime as rows are live.
    let mut chance = Chance::new(5);
    let mut seen = 0;
    while seen < 40 {
        let text = texts::sound(&mut chance);
        let Ok(design) = design_of(&text) else { continue };
        for (output, cell) in design.outputs.iter().zip(&design.cells) {
            if output.pins.len() > 6 || !cell.s0 {
                continue;
            }
            seen += 1;
            let all = 3u64.pow(output.pins.len() as u32);
            let count = (0..all)
                .filter(|n| ask(&design, Some(output.pin as u64), Some(*n)) == Ok(Verdict::Prime))
                .count();
            assert_eq!(count, cell.products.len());
            assert!(ask(&design, Some(output.pin as u64), Some(all)).is_err());
            assert!(ask(&design, Some(output.pin as u64), None).is_err());
        }
    }
}

#[test]
fn what_is_written_is_read_back() {
    let mut chance = Chance::new(9);
    for round in 0..60 {
        let density = round % 5;
        let map: Vec<u8> = (0..FUSES).map(|_| u8::from(chance.below(4) < density)).collect();
        let bytes = file::write(&map);
        assert!(bytes.len() <= 7_154);
        assert_eq!(read(&bytes), Ok(map));
    }
    assert_eq!(file::write(&vec![1; FUSES]).len(), 7_154);
    assert_eq!(read(&file::write(&vec![0; FUSES])), Ok(vec![0; FUSES]));
}

#[test]
fn writing_takes_only_maps() {
    let digits = "01".repeat(FUSES / 2);
    for end in ["", "\n", "\r\n"] {
        assert_eq!(vectors::write_file(format!("{digits}{end}").as_bytes())[0], 2);
    }
    for wrong in ["", "0", "\n", &digits[1..], &format!("{digits}0"), &format!("{digits}\n\n"), &format!("{digits}\r"), &digits.replacen('1', "2", 1)] {
        assert_eq!(said(vectors::write_file(wrong.as_bytes())), "31 0\n");
    }
}

#[test]
fn the_reader_takes_other_styles() {
    let zeros = vec![0; FUSES];
    let mut some = zeros.clone();
    some[3] = 1;
    some[5_891] = 1;
    assert_eq!(read(&summed(b"*QF5892*F0*")), Ok(zeros.clone()));
    assert_eq!(read(&summed(b"any\r\nheading*\n QF05892*\t\r\nF0*L3 1*L0005891\n1 * ")), Ok(some.clone()));
    let sum = file::fuse_sum(&some);
    let mixed = format!("*G1*N note*QP024*QV9*Q*QF5892*V1 x*F0*L0000 0 0\r\n0 1*L5890 01*C{sum:04x}*");
    assert_eq!(read(&summed(mixed.as_bytes())), Ok(some.clone()));
    assert_eq!(read(&summed(b"*QF5892*F0*L0 1111*L0 000*L5891 0*L5891 1*")), Ok(some));
    assert_eq!(read(&summed(b"*QF5892*F1*")), Ok(vec![1; FUSES]));
    let listed = format!("*QF5892*L100 {}*L0000 {}*", "0".repeat(5_792), "0".repeat(100));
    assert_eq!(read(&summed(listed.as_bytes())), Ok(zeros.clone()));
    let mut lower = summed(b"*QF5892*F0*");
    let at = lower.len() - 4;
    lower[at..].make_ascii_lowercase();
    lower.extend(b" \r\n\t");
    assert_eq!(read(&lower), Ok(zeros));
}

#[test]
fn the_reader_finds_the_first_fault() {
    for (bytes, refusal) in faulty_files() {
        assert_eq!(read(&bytes), Err(refusal), "{}", String::from_utf8_lossy(&bytes[..bytes.len().min(200)]));
    }
    let mut long = summed(b"*QF5892*F0*");
    long.resize(65_536, b' ');
    assert!(read(&long).is_ok());
    long.push(b' ');
    assert_eq!(read(&long), Err((20, 65_537)));
    assert_eq!(read(&vec![0; 70_000]), Err((20, 70_000)));
}

/// A map whose cells are all unused.
fn unused() -> Vec<u8> {
    map_of_cells(&[])
}

fn set(map: &mut [u8], row: usize, column: usize, value: u8) {
    map[COLUMNS * row + column] = value;
}

fn fill(map: &mut [u8], row: usize, value: u8) {
    map[COLUMNS * row..COLUMNS * (row + 1)].fill(value);
}

fn number_of(map: &[u8]) -> u32 {
    judge_map(map).map_or_else(|refusal| refusal.number, |_| 0)
}

#[test]
fn the_model_judges_maps() {
    assert_eq!(number_of(&unused()), 0);
    for row in [0, 131] {
        let mut map = unused();
        set(&mut map, row, 43, 1);
        assert_eq!(number_of(&map), 30);
        fill(&mut map, row, 1);
        assert_eq!(number_of(&map), 30);
    }
    for cell in &CELLS {
        let mut map = unused();
        set(&mut map, cell.enable, 0, 1);
        assert_eq!(number_of(&map), 30, "neither open nor all joined");
        // A product of an unused cell may read pin 1.
        let mut map = unused();
        let product = cell.enable + cell.products;
        fill(&mut map, product, 1);
        set(&mut map, product, 0, 0);
        assert_eq!(number_of(&map), 0);
        // The same in an enabled cell, and in a registered one that is not enabled.
        let mut enabled = map.clone();
        fill(&mut enabled, cell.enable, 1);
        assert_eq!(number_of(&enabled), 30);
        let mut registered = map.clone();
        registered[device::SETTINGS_AT + 2 * cell.number() + 1] = 0;
        assert_eq!(number_of(&registered), 30);
        // Dead, it reads nothing.
        set(&mut enabled, product, 8, 0);
        set(&mut enabled, product, 9, 0);
        assert_eq!(number_of(&enabled), 0);
        // An enabled combinational pin may not be read, not even by its own cell.
        let mut own = unused();
        fill(&mut own, cell.enable, 1);
        fill(&mut own, product, 1);
        set(&mut own, product, 2 * device::pair_of(cell.pin) + 1, 0);
        assert_eq!(number_of(&own), 30);
        own[device::SETTINGS_AT + 2 * cell.number() + 1] = 0;
        assert_eq!(number_of(&own), 0, "a registered one feeds back");
    }
}

#[test]
fn the_model_judges_values() {
    let mut map = unused();
    fill(&mut map, cell_of(20).enable, 1);
    map[device::SETTINGS_AT + 2 * cell_of(15).number() + 1] = 0;
    let number = |bits: &[u8; 10], pins: &[u8; PINS]| model(&map, bits, pins).map_or_else(|r| r.number, |_| 0);
    for at in 0..10 {
        let mut bits = [0; 10];
        bits[at] = 1;
        assert_eq!(number(&bits, &[0; PINS]), if at + 14 == 15 { 0 } else { 32 });
        bits[at] = 2;
        assert_eq!(number(&bits, &[0; PINS]), 32);
    }
    for pin in 1..=PINS {
        let mut pins = [0; PINS];
        pins[pin - 1] = 1;
        let not_callers = matches!(pin, 1 | 12 | 15 | 20 | 24);
        assert_eq!(number(&[0; 10], &pins), if not_callers { 32 } else { 0 }, "pin {pin}");
        pins[pin - 1] = 2;
        assert_eq!(number(&[0; 10], &pins), 32);
    }
}

#[test]
fn a_registered_cell_feeds_back_the_inverse_of_q() {
    for s0 in [0, 1] {
        let mut map = unused();
        let cell = cell_of(18);
        fill(&mut map, cell.enable, 1);
        fill(&mut map, cell.enable + 1, 1);
        set(&mut map, cell.enable + 1, 2 * device::pair_of(18), 0);
        map[device::SETTINGS_AT + 2 * cell.number()] = s0;
        map[device::SETTINGS_AT + 2 * cell.number() + 1] = 0;
        let mut bits = [0; 10];
        for clock in 0..4 {
            let answer = model(&map, &bits, &[0; PINS]).unwrap();
            let q = clock % 2 == 1;
            assert_eq!(answer.values[17], q == (s0 == 1));
            assert_eq!(answer.registers[18 - 14], !q);
            bits = answer.registers.map(u8::from);
        }
    }
}

#[test]
fn model_lines_in_order_of_refusal() {
    let digits: String = unused().iter().map(|f| if *f == 1 { '1' } else { '0' }).collect();
    let zeros = format!("{} {}", "0".repeat(10), "0".repeat(24));
    let answer = format!("{} {} {}\n", "0".repeat(24), "0".repeat(24), "0".repeat(10));
    let ask = |map: &str, lines: &str| said(vectors::model_lines(format!("{map}\n{lines}").as_bytes()));
    assert_eq!(ask(&digits, ""), "");
    assert_eq!(ask(&digits, &zeros), answer);
    assert_eq!(ask(&digits, &format!("{zeros}\n")), answer);
    assert_eq!(ask(&digits, &format!("{zeros}\nx\n\n{zeros}")), format!("{answer}32 0\n32 0\n{answer}"));
    assert_eq!(ask(&format!("{digits}\r"), &zeros), answer);
    let open = digits.replacen('0', "1", 1);
    assert_eq!(ask(&open, &format!("{zeros}\nx\n")), "30 0\n30 0\n");
    assert_eq!(ask("0", &format!("{zeros}\nx\n")), "31 0\n31 0\n");
    assert_eq!(ask(&digits, &zeros.replacen('0', "7", 1)), "32 0\n");
    assert_eq!(vectors::model_lines(digits.as_bytes()), b"");
    assert_eq!(map_of(digits.as_bytes()), Ok(unused()));
}

#[test]
fn records_there_and_back() {
    let records = [Record::new("compile", EXAMPLE), Record::new("ask 23 4", "x\ny\n"), Record::new("read", "")];
    let bytes: Vec<u8> = records.iter().flat_map(Record::bytes).collect();
    let again = vectors::records_of(&bytes).unwrap();
    assert_eq!(again.len(), 3);
    for (one, other) in records.iter().zip(&again) {
        assert_eq!((&one.call, &one.payload), (&other.call, &other.payload));
    }
    let answers = |records: &[Record]| -> Vec<u8> {
        records.iter().enumerate().flat_map(|(i, r)| vectors::answered(i, &r.answer().unwrap())).collect()
    };
    let right = answers(&records);
    assert_eq!(vectors::compare(&records, &right, &right).1, 0);
    assert_eq!(vectors::compare(&records, &right, &answers(&records[..2])).1, 1);
    assert_eq!(vectors::compare(&records, &right, b"").1, 3);
    assert_eq!(vectors::compare(&records[..2], &right, &right).1, 1);
}

#[test]
fn makers_repeat_themselves_and_reach_every_number() {
    for kind in ["text", "device", "all", "tables"] {
        assert_eq!(make(kind, 4, 60), make(kind, 4, 60));
    }
    for (kind, seed, count) in [("all", 1, 10_000), ("text", 1, 3_500), ("device", 1, 3_000)] {
        let records = vectors::records_of(&make(kind, seed, count).unwrap()).unwrap();
        assert_eq!(records.len(), count);
        let census = census(&records).unwrap();
        let mut wanted = Vec::new();
        if kind != "device" {
            for verb in ["compile", "fit", "ask"] {
                wanted.extend((1..=12).map(|n| format!("{verb} {n} ")));
                wanted.push(format!("{verb} accepted "));
            }
            wanted.push("ask 14 ".to_string());
        }
        if kind != "text" {
            wanted.extend([20, 21, 22, 23, 24].map(|n| format!("read {n} ")));
            wanted.extend([30, 31, 32].map(|n| format!("model {n} ")));
            wanted.extend(["read accepted ", "write accepted ", "write 31 ", "model accepted "].map(str::to_string));
        }
        for start in wanted {
            assert!(census.lines().any(|line| line.starts_with(&start)), "{kind}: {start}\n{census}");
        }
    }
}

#[test]
fn every_text_is_put_to_every_verb() {
    let records = vectors::records_of(&make("text", 1, 3_500).unwrap()).unwrap();
    let mut calls: HashMap<&[u8], Vec<&str>> = HashMap::new();
    for record in &records {
        calls.entry(&record.payload).or_default().push(&record.call);
    }
    let last = &records[records.len() - 1].payload;
    for (text, calls) in calls.iter().filter(|(text, _)| *text != last) {
        for verb in ["compile", "fit", "ask"] {
            assert!(calls.iter().any(|call| call.starts_with(verb)), "{verb} {}", String::from_utf8_lossy(text));
        }
    }
    // A refused text is refused alike by all of them.
    for case in cases() {
        if let Known::Refused { number, place } = case.known {
            for call in ["compile", "fit", "ask 23 0", "ask 99 99999999999999999999"] {
                let answer = Record::new(call, case.record.payload.clone()).answer().unwrap();
                assert_eq!(said(answer), refused(number, place));
            }
        }
    }
}

#[test]
fn questions_are_about_all_sorts_of_pins_and_numbers() {
    let design = design_of(wide(3, 19, "a*b + ~a*c").as_bytes()).unwrap();
    let mut chance = Chance::new(1);
    let asked: Vec<(String, String)> = (0..3_000)
        .map(|_| {
            let call = question(&mut chance, Some(&design));
            let (pin, number) = call.strip_prefix("ask ").unwrap().split_once(' ').unwrap();
            (pin.to_string(), number.to_string())
        })
        .collect();
    for pin in ["19", "0", "1", "12", "24", "25", "18446744073709551635"] {
        assert!(asked.iter().any(|(p, _)| p == pin), "pin {pin}");
    }
    for number in 0..=30 {
        assert!(asked.iter().any(|(p, n)| p == "19" && *n == number.to_string()), "number {number}");
    }
    assert!(asked.iter().any(|(p, n)| p == "19" && n.len() > 20 && n.parse::<u64>().is_err()));
    assert!(asked.iter().any(|(p, n)| p == "19" && n.starts_with("184467440737095516")));
    assert!(question(&mut chance, None).starts_with("ask "));
}

#[test]
fn every_reading_has_a_case_that_comes_first() {
    let texts = readings::texts();
    let devices = readings::devices();
    for point in (1..=46).chain([55]) {
        assert!(texts.iter().chain(&devices).any(|(of, _)| *of == point), "point {point}");
    }
    for (kind, points) in [("text", &texts), ("device", &devices)] {
        let first = vectors::records_of(&make(kind, 1, 2 + 4 * points.len()).unwrap()).unwrap();
        for (point, case) in points {
            assert!(first.iter().any(|r| r.bytes() == case.record.bytes()), "point {point}: {}", said(case.record.bytes()));
        }
    }
    give_their_answers(texts.into_iter().chain(devices).map(|(_, case)| case).collect());
}

#[test]
fn tables_are_cells_without_equations() {
    let answer = crate::tables::answer("23 R H 2,23 0110\n.\n.\n20 C - 2,3,4,5,6 01101001100101101001011001101001\n14 C - - 1\n.\n").unwrap();
    assert_eq!(answer, "23 R H 2 4\n1255\n.\n020D\n.\n12 20\n.\n");
    assert!(crate::tables::answer("23 C - 22 01\n.\n").is_err());
    let batches = make("tables", 2, 50).unwrap();
    assert!(crate::tables::answer(std::str::from_utf8(&batches).unwrap()).is_ok());
}

#[test]
fn chains_of_names_are_valued_once_each() {
    let text = "MODULE T; IN a: BIT; OUT y: BIT; VAR v: [32] BIT; w: [28] BIT; BEGIN a::2; y::23; v.0 := a; \
                FOR i := 1 .. 31 DO v.i := v[i-1] * v[i-1] END; w.0 := v.31; \
                FOR i := 1 .. 27 DO w.i := w[i-1] + w[i-1] END; y := w.27 END T.";
    assert!(circuit_of(text.as_bytes()).is_ok());
    assert_eq!(said(vectors::fit(text.as_bytes())), "23 C H 1 1\n");
}

#[test]
fn bench_prints_one_number() {
    let file = concat!(env!("CARGO_MANIFEST_DIR"), "/README.md");
    for verb in ["compile", "read"] {
        let (printed, well) = crate::run(&["bench", verb, file, "3"]).unwrap();
        let line = said(printed);
        assert!(well && line.ends_with('\n') && line.trim_end().parse::<u64>().is_ok(), "{line}");
    }
    for wrong in [["bench", "compile", file, "0"], ["bench", "fit", file, "3"], ["bench", "read", "nowhere", "3"]] {
        assert!(crate::run(&wrong).is_err());
    }
}
