//! The marked examples of the paper, one by one, each through the programs' own verbs.

use crate::device::FUSES;
use crate::make::fixed::{input_name, joined, wide, EXAMPLE, EXAMPLE_FILE};
use crate::tests::shows;
use crate::vectors;

fn fit(text: &str) -> String {
    String::from_utf8_lossy(&vectors::fit(text.as_bytes())).into_owned()
}

fn ask(text: &str, pin: &str, number: &str) -> String {
    String::from_utf8_lossy(&vectors::question(text.as_bytes(), pin, number)).into_owned()
}

fn refused(number: u32, text: &str, piece: &str) -> String {
    format!("{number} {}\n", text.find(piece).unwrap())
}

fn parity(inputs: usize, pin: usize) -> String {
    wide(inputs, pin, &joined(inputs, "-"))
}

fn or(inputs: usize, pin: usize) -> String {
    wide(inputs, pin, &joined(inputs, "+"))
}

#[test]
fn the_whole_output_for_t() {
    assert_eq!(EXAMPLE_FILE.len(), 244);
    assert_eq!(vectors::compile(EXAMPLE.as_bytes()), EXAMPLE_FILE.as_bytes());
    assert_eq!(fit(EXAMPLE), "23 R H 2 4\n");
    assert_eq!(vectors::read_file(EXAMPLE_FILE.as_bytes()).len(), FUSES + 1);
}

#[test]
fn or_and_xor_bind_alike_from_the_left() {
    assert_eq!(shows(&wide(3, 23, "a+b-c"), &[(2, true), (3, true), (4, true)], 1), [false]);
}

#[test]
fn mux_of_0_takes_the_first() {
    assert_eq!(shows(&wide(0, 23, "MUX('0: '1, '0)").replace("IN : BIT; ", ""), &[], 1), [true]);
}

/// The values that an expression may have, as far as a text can tell: those that, taken away from
/// it, leave the only index of an array of one.
fn worth(expression: &str) -> Vec<i32> {
    let is = |value: i32| {
        let text = format!(
            "MODULE T; IN x: [1] BIT; OUT y: BIT; BEGIN x.0::2; y::23; y := x[({expression}) + 20 - {}] END T.",
            value + 20
        );
        fit(&text) == "23 C H 1 1\n"
    };
    (-20..=20).filter(|value| is(*value)).collect()
}

#[test]
fn div_rounds_down_and_mod_fits_it() {
    assert_eq!(worth("(0-7) DIV 2"), [-4]);
    assert_eq!(worth("(0-7) MOD 2"), [1]);
    assert_eq!(worth("(0-7) DIV 2 * 2 + (0-7) MOD 2"), [-7]);
}

#[test]
fn index_7_of_8_is_taken_and_8_is_refused() {
    let text = |index: &str| {
        format!("MODULE T; IN x: [8] BIT; OUT y: BIT; BEGIN x::[2;3;4;5;6;7;8;9]; y::23; y := x{index} END T.")
    };
    assert_eq!(fit(&text(".7")), "23 C H 1 1\n");
    assert_eq!(fit(&text("[7]")), "23 C H 1 1\n");
    assert_eq!(fit(&text(".8")), refused(5, &text(".8"), ".8"));
    assert_eq!(fit(&text("[8]")), refused(5, &text("[8]"), "[8] END"));
}

#[test]
fn parity_of_four_has_8_primes_and_of_five_16() {
    assert_eq!(fit(&parity(4, 23)), "23 C H 8 32\n");
    assert_eq!(fit(&parity(5, 18)), "18 C H 16 80\n");
}

#[test]
fn a_choice_has_3_primes() {
    assert_eq!(fit(&wide(3, 23, "a*b + ~a*c")), "23 C H 3 6\n");
    assert_eq!(fit(&wide(3, 23, "MUX(a: c, b)")), "23 C H 3 6\n");
}

#[test]
fn or_of_two_and_its_products_4_and_7() {
    let text = or(2, 23);
    assert!(text.contains("a::2; b::3;"));
    assert_eq!(ask(&text, "23", "4"), "1\n");
    assert_eq!(ask(&text, "23", "7"), "2\n");
}

#[test]
fn none_for_0_and_one_without_factors_for_1() {
    for (value, line) in [("'0", "23 C H 0 0\n"), ("'1", "23 C H 1 0\n")] {
        assert_eq!(fit(&format!("MODULE T; OUT y: BIT; BEGIN y::23; y := {value} END T.")), line);
        assert_eq!(fit(&wide(2, 23, &format!("{value} + a*~a*b"))), line);
    }
}

#[test]
fn an_inverted_register_of_1_shows_1_then_0() {
    let text = "MODULE T; OUT y: BIT; BEGIN y::23; y := ~REG('1) END T.";
    assert_eq!(shows(text, &[], 2), [true, false]);
    assert_eq!(fit(text), "23 R L 1 0\n");
}

#[test]
fn parity_of_five_fits_pin_19_and_not_pin_20() {
    assert_eq!(fit(&parity(5, 19)), "19 C H 16 80\n");
    assert_eq!(fit(&parity(5, 20)), refused(12, &parity(5, 20), "y: BIT"));
}

#[test]
fn or_of_ten_passes_and_of_eleven_is_refused() {
    for pin in 14..=23 {
        let line = if matches!(pin, 14 | 23) { format!("{pin} C L 1 10\n") } else { format!("{pin} C H 10 10\n") };
        assert_eq!(fit(&or(10, pin)), line);
        assert_eq!(fit(&or(11, pin)), refused(11, &or(11, pin), "y: BIT"));
    }
    assert_eq!(input_name(10), "k");
}

/// The slips marked: a REG's plain column taken for its pin, any cover for all primes, and a
/// register inverted to save rows.
#[test]
fn the_marked_slips_are_not_made() {
    let toggle = wide(1, 23, "REG(y - a)");
    assert_eq!(shows(&toggle, &[(2, true)], 4), [false, true, false, true]);
    let follow = wide(1, 23, "~REG(y)");
    assert_eq!(shows(&follow, &[], 4), [true, false, true, false]);
    assert_eq!(fit(&wide(3, 14, "a*b + ~a*c")), "14 C H 3 6\n");
    let register = wide(9, 23, &format!("REG({})", joined(9, "+")));
    assert_eq!(fit(&register), refused(12, &register, "y: BIT"));
}
