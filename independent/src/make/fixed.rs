//! Texts with known answers: each limit, each rule that has an edge, and the marked examples.

use super::texts::question;
use super::{readings, Chance};
use crate::cells::design_of;
use crate::vectors::Record;

/// What a text is known to give.
#[derive(Clone, Debug, PartialEq, Eq)]
pub enum Known {
    Accepted,
    /// Only that there is an answer.
    Anything,
    Refused { number: u32, place: usize },
    /// The whole answer.
    Exactly(String),
}

pub struct Case {
    pub record: Record,
    #[cfg_attr(not(test), allow(dead_code))]
    pub known: Known,
}

/// A text with `@` in front of the word at fault, and the refusal's number; 0 for none.
pub fn case(number: u32, marked: &str) -> Case {
    let (text, known) = match (number, marked.find('@')) {
        (0, _) => (marked.to_string(), Known::Accepted),
        (_, Some(place)) => (marked.replacen('@', "", 1), Known::Refused { number, place }),
        (_, None) => (marked.to_string(), Known::Refused { number, place: 0 }),
    };
    Case { record: Record::new("compile", text), known }
}

pub fn exactly(call: &str, text: &str, answer: &str) -> Case {
    answered(call, text.as_bytes(), answer)
}

pub fn answered(call: &str, bytes: &[u8], answer: &str) -> Case {
    Case { record: Record::new(call, bytes), known: Known::Exactly(answer.to_string()) }
}

/// A refusal where a piece of the text first stands.
pub fn refused_at(call: &str, text: &str, piece: &str, number: u32) -> Case {
    let place = text.find(piece).unwrap_or(0);
    Case { record: Record::new(call, text), known: Known::Refused { number, place } }
}

/// One input `a` on pin 2, one output `y` on pin 23, and an array `x` of two on pins 3 and 4.
pub fn around(statements: &str) -> String {
    format!(
        "MODULE T; CONST N := 2; IN a: BIT; x: [N] BIT; OUT y: BIT; BEGIN a::2; x::[3; 4]; y::23; {statements} END T."
    )
}

pub fn equation(right: &str) -> String {
    around(&format!("y := {right}"))
}

/// Inputs a, b, c, .. on pins 2, 3, .. and y on a pin.
pub fn wide(inputs: usize, pin: usize, right: &str) -> String {
    let names: Vec<String> = (0..inputs).map(input_name).collect();
    let pins = [2, 3, 4, 5, 6, 7, 8, 9, 10, 11, 13];
    let positions: Vec<String> = (0..inputs).map(|i| format!("{}::{}; ", names[i], pins[i])).collect();
    format!(
        "MODULE T; IN {}: BIT; OUT y: BIT; BEGIN {}y::{}; y := {} END T.",
        names.join(", "),
        positions.concat(),
        pin,
        right
    )
}

pub fn input_name(i: usize) -> String {
    ((b'a' + i as u8) as char).to_string()
}

pub fn joined(inputs: usize, operator: &str) -> String {
    (0..inputs).map(input_name).collect::<Vec<_>>().join(operator)
}

pub const EXAMPLE: &str = "MODULE T; IN a: BIT; OUT y: BIT; BEGIN a::2; y::23; y := REG(y - a) END T.";

pub const EXAMPLE_FILE: &str = "\u{2}Lola GAL22V10*\r\nQP24*\r\nQF5892*\r\nG0*\r\nF0*\r\n\
L0044 11111111111111111111111111111111111111111111*\r\n\
L0088 11010111111111111111111111111111111111111111*\r\n\
L0132 11101011111111111111111111111111111111111111*\r\n\
L5808 10111111111111111111*\r\nC1255*\r\n\u{3}2C8F";

pub const ADDER: &str = include_str!("../../../examples/adder.lola");
pub const BARREL: &str = include_str!("../../../examples/barrel.lola");
pub const COUNTER: &str = include_str!("../../../examples/counter.lola");
const SHEET: &str = include_str!("../../../examples/sheet.lola");

pub fn cases() -> Vec<Case> {
    let mut all = vec![
        exactly("compile", EXAMPLE, EXAMPLE_FILE),
        exactly("fit", EXAMPLE, "23 R H 2 4\n"),
    ];
    all.extend(readings::texts().into_iter().map(|(_, case)| case));
    all.extend(examples());
    all.extend(words());
    all.extend(grammar());
    all.extend(kinds_and_declarations());
    all.extend(statements());
    all.extend(over_all_names());
    all.extend(outputs_and_questions());
    all.extend(limits());
    all.extend(heavy());
    all
}

/// The texts that are handed out: three that pass, and a sheet with a fault.
fn examples() -> Vec<Case> {
    vec![
        exactly("fit", ADDER, "19 C H 12 48\n22 C H 7 20\n23 C H 4 12\n"),
        exactly("fit", BARREL, "19 C H 9 28\n20 C H 9 28\n21 C H 9 28\n22 C H 9 28\n"),
        exactly(
            "fit",
            COUNTER,
            "16 R H 9 25\n17 R H 8 22\n18 R H 7 19\n19 R H 6 16\n20 R H 5 13\n21 R H 4 10\n22 R H 3 7\n23 R H 2 4\n",
        ),
        refused_at("fit", SHEET, ".9", 5),
    ]
}

/// Every text with a known answer: the call of which it is known, and the other verbs.
pub fn records() -> Vec<Record> {
    let mut all = Vec::new();
    for (i, Case { record, .. }) in cases().into_iter().enumerate() {
        let mut calls = vec![record.call.clone(), "compile".to_string(), "fit".to_string()];
        if !record.call.starts_with("ask") {
            let design = design_of(&record.payload).ok();
            calls.push(question(&mut Chance::new(i as u64), design.as_ref()));
        }
        all.extend(calls.iter().map(|call| Record::new(call, record.payload.clone())));
    }
    all
}

fn words() -> Vec<Case> {
    let mut all = vec![
        case(2, "MODULE T; IN @abcdefghijklmnopq: BIT; END T."),
        case(2, "MODULE T; IN @abcdefghijklmnop': BIT; END T."),
        case(2, "MODULE T; IN @MODULEMODULEMODULE: BIT; END T."),
        case(0, "MODULE T; IN abcdefghijklmnop, abcdefghijklmno': BIT; BEGIN abcdefghijklmnop::2; abcdefghijklmno'::3 END T."),
        case(2, "MODULE @abcdefghijklmnopq; END abcdefghijklmnopq."),
        case(2, "MODULE T; (* END T.@"),
        case(2, "MODULE T; END T. (*@"),
        case(2, "MODULE T; END T. (*)@"),
        case(2, "MODULE T; END T. (* *@"),
        case(0, "MODULE T; (*)*) END T."),
        case(0, "(* (* *)MODULE(**)T(***);\t\r\nEND T.(*END*) \n"),
        case(2, "MODULE T; (* (* *) @*) END T."),
        case(2, &equation("@'")),
        case(2, "MODULE T; @'"),
        case(2, "MODULE T; END T.@'"),
        case(2, &equation("@'2")),
        case(2, "MODULE T; IN a': BIT; OUT y: BIT; BEGIN a'::2; y::23; y := a'@0 END T."),
        case(0, "MODULE T; IN a': BIT; OUT y: BIT; BEGIN a'::2; y::23; y := a'*'0 END T."),
        case(0, "MODULE T; IN POS, IN', END': BIT; BEGIN POS::2; IN'::3; END'::4 END T."),
        case(0, "MODULE MUX'; END MUX'."),
        case(0, "MODULE T; IN a, A: BIT; BEGIN a::2; A::3 END T."),
        case(2, "MODULE T; @in a: BIT; END T."),
        case(3, &equation("@65536")),
        case(3, "MODULE T; CONST N := @65536; END T."),
        case(0, "MODULE T; CONST N := 65535; M := 00000000000000000000000007; END T."),
        case(3, "MODULE T; CONST N := @99999999999999999999999999999999; END T."),
        case(3, "MODULE T; CONST N := @000065536; END T."),
        case(3, &equation("x.@65536")),
        case(2, "MODULE @65536; END T."),
        case(2, "MODULE T; CONST N @65536; END T."),
        case(2, "MODULE T; END T@.."),
        case(2, "MODULE T; END T@"),
        case(2, "MODULE T; END T  @"),
        case(2, "@"),
        case(2, "  \n@"),
        case(2, "(*@"),
        case(2, "MODULE T; END T. @END"),
        case(2, "MODULE T; CONST N := 5@a; END T."),
        case(0, "MODULE T; CONST N := 5DIV 2; END T."),
        case(2, &equation("5 @DIV2")),
        case(2, "MODULE T; CONST N := @-5; END T."),
        case(2, "MODULE T; CONST N @:: 5; END T."),
        case(2, "MODULE T; CONST N @: = 5; END T."),
        case(2, "MODULE T; CONST N := 2 * @* 3; END T."),
    ];
    for word in crate::words::RESERVED {
        all.push(case(2, &format!("MODULE @{word}; END T.")));
    }
    for byte in ["/", "=", "#", "<", ">", "|", "!", "\"", "_", "{", "&", "\u{7f}", "\u{0}", "\u{b}", "\u{c}", "é"] {
        all.push(case(2, &format!("MODULE T; @{byte} END T.")));
        all.push(case(2, &equation(&format!("a @{byte} a"))));
        all.push(case(0, &format!("MODULE T; (* {byte} *) END T.")));
    }
    all
}

fn grammar() -> Vec<Case> {
    vec![
        case(2, "MODULE T; END @U."),
        case(2, "MODULE T; END @5."),
        case(0, "MODULE T; END T."),
        case(0, "MODULE T; IN T: BIT; BEGIN T::2 END T."),
        case(0, "MODULE T; CONST T := 5; END T."),
        case(4, &equation("@T")),
        case(0, "MODULE T; CONST IN OUT VAR BEGIN END T."),
        case(0, "MODULE T; BEGIN ;;; END T."),
        case(0, "MODULE T; BEGIN FOR i := 0 .. 3 DO ;; END;; END T."),
        case(2, "MODULE T; OUT @IN END T."),
        case(2, "MODULE T; CONST @CONST END T."),
        case(2, "MODULE T; IN a: BIT; @, END T."),
        case(2, "MODULE T; IN a, @: BIT; END T."),
        case(2, "MODULE T; IN a: @TS; END T."),
        case(2, "MODULE T; IN a: BIT @END T."),
        case(2, "MODULE T; CONST N := 1 @END T."),
        case(2, &equation("x.0@.1")),
        case(2, &equation("x.@[0]")),
        case(2, &equation("x.@'0")),
        case(2, &equation("x[0]@[1]")),
        case(2, &equation("x[0@..1]")),
        case(2, "MODULE T; VAR v: [2]@[2] BIT; END T."),
        case(2, "MODULE T; VAR v: [@] BIT; END T."),
        case(10, "MODULE T; IN @z: [2] BIT; BEGIN z.0 :: [5]; z.1 :: 6 END T."),
        case(2, "MODULE T; IN z: [2] BIT; BEGIN z :: [@] END T."),
        case(2, "MODULE T; IN z: [2] BIT; BEGIN z :: [5@, 6] END T."),
        case(2, "MODULE T; IN z: [2] BIT; BEGIN z :: [5; @] END T."),
        case(2, "MODULE T; IN z: [2] BIT; BEGIN z :: [5; @[6]] END T."),
        case(2, &equation("MUX(a@, a, a)")),
        case(2, &equation("MUX(a: a@)")),
        case(2, &equation("MUX @a: a, a)")),
        case(2, &equation("REG(a@: a)")),
        case(2, &equation("REG(a, a@, a)")),
        case(2, &equation("REG(@)")),
        case(2, &equation("a @~ a")),
        case(2, &equation("~@+ a")),
        case(2, &equation("@+ a")),
        case(2, &equation("a +").replace("END T.", "@END T.")),
        case(2, &equation("(a").replace("END T.", "@END T.")),
        case(2, &around("y @= a")),
        case(2, &around("y @: a")),
        case(2, &around("FOR @5 := 0 .. 1 DO END")),
        case(2, &around("FOR i @:: 0 .. 1 DO END")),
        case(2, &around("FOR i := 0@. 1 DO END")),
        case(2, &around("FOR i := 0 .. 1 @BEGIN END")),
        case(2, &around("FOR i := 0 .. 1 DO a @END")),
        case(2, &around("@IF a = a THEN END")),
        case(2, &around("@(a) := a")),
        case(2, "MODULE T@, END T."),
        case(2, "MODULE @; END T."),
        case(2, "@Module T; END T."),
    ]
}

fn constants(right: &str) -> String {
    format!("MODULE T; CONST K := 4; N := {right}; END T.")
}

pub fn length(inside: &str) -> String {
    format!("MODULE T; CONST K := 2; IN a: BIT; x: [2] BIT; VAR v: [{inside}] BIT; END T.")
}

fn kinds_and_declarations() -> Vec<Case> {
    vec![
        case(4, &equation("a DIV @2")),
        case(4, &equation("a @DIV a")),
        case(4, &equation("@1 DIV 0")),
        case(4, &equation("a @^ a * 5")),
        case(4, &equation("a @MOD a + 5")),
        case(4, &equation("a * @N")),
        case(4, &equation("~@3")),
        case(4, &equation("MUX(a: @0, 1)")),
        case(4, &length("@~1")),
        case(4, &length("~@a")),
        case(3, &length("~(1 @DIV 0)")),
        case(4, &length("@MUX(a: a, a)")),
        case(4, &length("MUX(a: a, @1)")),
        case(4, &length("@REG(a)")),
        case(4, &length("REG(@q, a)")),
        case(5, &length("REG(@x, a)")),
        case(4, &length("REG(a @DIV a, a)")),
        case(4, &length("@'1")),
        case(4, &length("@x.0")),
        case(4, &length("@a.0")),
        case(5, &length("K@.0")),
        case(5, &length("K@[1 DIV 0]")),
        case(4, &equation("@N.0")),
        case(4, &equation("@N[q]")),
        case(4, &around("@N.0 := a")),
        case(4, &around("@N := a")),
        case(4, &around("FOR i := 0 .. 1 DO @i := a END")),
        case(4, &around("FOR i := 0 .. 1 DO y := @i END")),
        case(5, &around("FOR i := 0 .. 1 DO y := x[i@.0] END")),
        case(4, "MODULE T; CONST N := 1; @N := 2; END T."),
        case(4, "MODULE T; CONST N := @N; END T."),
        case(4, "MODULE T; CONST N := @M; M := 1; END T."),
        case(4, "MODULE T; CONST N := 1; IN @N: BIT; END T."),
        case(4, "MODULE T; IN a, @a: BIT; END T."),
        case(4, "MODULE T; IN a, @a: [1 DIV 0] BIT; END T."),
        case(4, "MODULE T; IN a: BIT; OUT @a: [33] BIT; END T."),
        case(4, "MODULE T; IN v: [@v] BIT; END T."),
        case(5, "MODULE T; IN v: [@33] BIT; END T."),
        case(5, "MODULE T; IN v: [@0] BIT; END T."),
        case(5, "MODULE T; IN v: [@(33)] BIT; END T."),
        case(5, "MODULE T; IN v: [@0-1] BIT; END T."),
        case(5, "MODULE T; IN v: [ (**) @16*3 ] BIT; END T."),
        case(3, &constants("65535 @+ 1")),
        case(3, &constants("0 - 65535 @- 1")),
        case(3, &constants("256 @* 256")),
        case(3, &constants("K @DIV 0")),
        case(3, &constants("K @MOD (K - 4)")),
        case(3, &constants("K @DIV (0 - 1)")),
        case(3, &constants("K @^ 2")),
        case(3, &constants("2 @^ 16")),
        case(3, &constants("2 @^ (0 - 1)")),
        case(3, &constants("2 ^ 2 @^ 2")),
        case(0, &constants("2 ^ 15 - 1 + 2 ^ 15")),
        case(3, &constants("2 ^ 15 @+ 2 ^ 15 - 1")),
        case(0, &constants("65535 - 65535 - 65535")),
        case(3, &constants("65535 + 1 DIV 0 + @65536 - q")),
        // Halves of negative numbers are rounded down, and what is left fits that.
        case(0, "MODULE T; IN x: [(0-7) DIV 2 + 5] BIT; y: [(0-7) MOD 2] BIT; BEGIN x.0::2; y.0::3 END T."),
        case(5, "MODULE T; IN x: [@(0-7) DIV 2 + 4] BIT; END T."),
        case(5, "MODULE T; IN x: [@(0-7) MOD 2 - 1] BIT; END T."),
        // Operators of one level from the left, tighter levels first.
        case(0, "MODULE T; IN x: [9 - 4 - 4] BIT; y: [7 DIV 2 * 2 - 5] BIT; BEGIN x.0::2; y.0::3 END T."),
    ]
}

fn statements() -> Vec<Case> {
    vec![
        case(5, &equation("x@.2")),
        case(5, &equation("x@[2]")),
        case(5, &equation("x@[0-1]")),
        case(5, &equation("x@.N")),
        case(0, &equation("x[N-1] + x.1")),
        case(5, &equation("a@[1 DIV 0]")),
        case(5, &equation("a@.0")),
        case(5, &equation("a@.q")),
        case(5, &equation("@x")),
        case(4, &equation("x.@q")),
        case(4, &equation("x.@a")),
        case(4, &equation("x[@a]")),
        case(4, &equation("@q[1 DIV 0]")),
        case(3, &equation("x[1 @DIV 0]")),
        case(4, &equation("x[@'0]")),
        case(5, &around("@x := 1 DIV 0")),
        case(5, &around("y@.0 := 1")),
        case(5, &around("x@.2 := a")),
        case(5, &around("x@.2 :: 1 DIV 0")),
        case(5, &around("y@.0 :: 1")),
        case(4, &around("@q :: 1")),
        case(4, &around("@N :: 1")),
        case(4, &around("y :: @a")),
        case(3, &around("x :: [1; 2 @DIV 0; q]")),
        case(4, &around("FOR i := 0 .. @i DO END")),
        case(4, &around("FOR i := @i .. 0 DO END")),
        case(4, &around("FOR i := 0 .. 1 DO FOR j := 0 .. 1 DO END; y := x.@j END")),
        case(0, &around("FOR i := 1 .. 0 DO q := 5; a := a; y :: '1 END; y := a")),
        case(4, &around("FOR i := 1 .. 1 DO @q := 5 END; y := a")),
        case(0, &around("FOR a := 1 .. 1 DO y := x.a END")),
        case(4, &around("FOR a := 1 .. 1 DO y := @a END")),
        case(0, &around("FOR N := N-1 .. N-1 DO y := x.N END")),
        case(0, &around("FOR i := 0 .. 1 DO FOR i := i .. 0 DO y := x.i END END")),
        case(0, &around("FOR i := 0 - 3 .. 0 - 3 DO y := x[i + 4] END")),
        case(5, &around("FOR i := 0 - 3 .. 0 - 3 DO y := x@.i END")),
        case(0, "MODULE T; IN x: [8] BIT; OUT y: BIT; BEGIN x::[2;3;4;5;6;7;8;9]; y::23; y := x.7 END T."),
        case(5, "MODULE T; IN x: [8] BIT; OUT y: BIT; BEGIN x::[2;3;4;5;6;7;8;9]; y::23; y := x@.8 END T."),
    ]
}

fn over_all_names() -> Vec<Case> {
    let two = |statements: &str| {
        format!("MODULE T; IN a: BIT; OUT y, z: BIT; VAR v, w: BIT; BEGIN a::2; y::23; z::22; {statements} END T.")
    };
    let mark = |number: u32, name: &str, statements: &str| {
        let text = two(statements);
        let place = text.find(name).unwrap_or(0);
        Case { record: Record::new("compile", text), known: Known::Refused { number, place } }
    };
    let rest = "v := a; w := a";
    vec![
        case(0, &two("y := v; z := w; v := a; w := ~v")),
        mark(7, "a: BIT", "a := a; y := a; z := a; v := a; w := a"),
        mark(7, "y, z", "y := a; y := a; z := a; v := a; w := a"),
        mark(7, "y, z", "z := a; v := a; w := a"),
        mark(7, "w: BIT", "y := a; z := a; v := a"),
        mark(7, "w: BIT", "y := ~~REG(a); z := a; v := a"),
        mark(8, "y, z", &format!("y := ~~REG(a); z := a; {rest}")),
        mark(8, "z: BIT", &format!("y := ~((REG(a))); z := REG(a) + a; {rest}")),
        mark(8, "v, w", "y := a; z := a; v := REG(a); w := a"),
        mark(8, "y, z", &format!("y := REG(REG(a)); z := a; {rest}")),
        mark(8, "y, z", &format!("y := REG(a, ~REG(a)); z := a; {rest}")),
        mark(8, "y, z", &format!("y := MUX(a: REG(a), a); z := a; {rest}")),
        mark(8, "w: BIT", "y := y; z := a; v := v; w := ~REG(a)"),
        mark(9, "y, z", &format!("y := '0*y; z := a; {rest}")),
        mark(9, "v, w", "y := v; z := a; v := w; w := v + a"),
        mark(9, "w: BIT", "y := a; z := a; v := w; w := w"),
        mark(9, "z: BIT", &format!("y := z; z := ~z; {rest}")),
        case(0, &two("y := REG(z); z := ~y; v := y; w := z * v")),
        case(0, &two("y := REG(y, z); z := REG(z, y - z); v := y; w := z * v")),
        case(0, &two("y := ~REG(z, z); z := v; v := y; w := z * v")),
        case(10, "MODULE T; IN @a: BIT; END T."),
        case(10, "MODULE T; IN a, @b: BIT; BEGIN a::2 END T."),
        case(10, "MODULE T; OUT @y: BIT; BEGIN y := '0 END T."),
        case(10, "MODULE T; IN @a: BIT; BEGIN a::2; a::2 END T."),
        case(10, "MODULE T; IN @a: BIT; BEGIN a::2; a::3 END T."),
        case(10, "MODULE T; IN @a, b: BIT; BEGIN b::2; a::2 END T."),
        case(10, "MODULE T; IN a, @b, c: BIT; BEGIN c::5; a::2; b::5 END T."),
        case(10, "MODULE T; IN @a: BIT; VAR v: BIT; BEGIN a::2; v::2; v := a END T."),
        case(10, "MODULE T; IN a: BIT; VAR @v: BIT; BEGIN a::2; v::3; v := a END T."),
        case(10, "MODULE T; IN a: BIT; VAR @v: BIT; BEGIN a::2; v::[2]; v := a END T."),
        case(10, "MODULE T; IN @a, b: BIT; BEGIN a::2; b::3; b::2 END T."),
        case(10, "MODULE T; IN a, @b: BIT; BEGIN a::2; b::3; b::[2] END T."),
        case(10, "MODULE T; IN @a: [1] BIT; BEGIN a::2 END T."),
        case(10, "MODULE T; IN a: BIT; @z: [3] BIT; BEGIN a::2; z::[2; 3] END T."),
        case(10, "MODULE T; IN @a: BIT; z: [2] BIT; BEGIN a::2; z::[2; 3] END T."),
        case(10, "MODULE T; IN @a: BIT; BEGIN a::[2] END T."),
        case(10, "MODULE T; IN z: [2] BIT; @b: BIT; BEGIN z::[2; 3]; b::[4; 5] END T."),
        case(0, "MODULE T; IN z: [1] BIT; BEGIN z::[2] END T."),
        case(0, "MODULE T; IN z: [1] BIT; BEGIN z.0::2 END T."),
        case(10, "MODULE T; IN @z: [1] BIT; BEGIN z.0::2; z::[3] END T."),
        case(10, "MODULE T; IN @a: BIT; BEGIN a::1 END T."),
        case(10, "MODULE T; IN @a: BIT; BEGIN a::12 END T."),
        case(10, "MODULE T; IN @a: BIT; BEGIN a::14 END T."),
        case(10, "MODULE T; IN @a: BIT; BEGIN a::65535 END T."),
        case(10, "MODULE T; IN @a: BIT; BEGIN a::0-2 END T."),
        case(0, "MODULE T; IN a: BIT; BEGIN a::13 END T."),
        case(10, "MODULE T; OUT @y: BIT; BEGIN y::13; y := '0 END T."),
        case(10, "MODULE T; OUT @y: BIT; BEGIN y::24; y := '0 END T."),
        case(0, "MODULE T; OUT y, z: BIT; BEGIN y::14; z::23; y := '0; z := '1 END T."),
    ]
}

/// Eleven inputs, y on pin 20 and z on pin 23.
pub fn two_outs(first: &str, second: &str) -> String {
    wide(11, 20, "a").replace("OUT y: BIT", "OUT y, z: BIT").replace("y := a END", &format!("z::23; z := {second}; y := {first} END"))
}

fn outputs_and_questions() -> Vec<Case> {
    let register = "MODULE T; IN a: BIT; OUT y: BIT; BEGIN a::2; y::23; y := ~REG(a) END T.";
    let keeping = "MODULE T; IN a: BIT; OUT y: BIT; BEGIN a::2; y::23; y := REG('1, a) END T.";
    let or_of_two = wide(2, 23, "a + b");
    let mut all = vec![
        exactly("ask 23 0", register, "2\n"),
        exactly("ask 23 1", register, "0\n"),
        exactly("ask 23 2", register, "0\n"),
        exactly("ask 23 3", register, "14 0\n"),
        exactly("ask 23 7", keeping, "2\n"),
        exactly("ask 23 8", keeping, "0\n"),
        exactly("ask 23 9", keeping, "14 0\n"),
        exactly("ask 23 4", keeping, "1\n"),
        exactly("ask 23 4", &or_of_two, "1\n"),
        exactly("ask 23 7", &or_of_two, "2\n"),
        exactly("ask 23 5", &or_of_two, "2\n"),
        exactly("ask 23 0", &or_of_two, "0\n"),
        exactly("ask 23 8", &or_of_two, "0\n"),
        exactly("ask 23 9", &or_of_two, "14 0\n"),
        exactly("ask 22 0", &or_of_two, "14 0\n"),
        exactly("ask 2 0", &or_of_two, "14 0\n"),
        exactly("ask 0 0", &or_of_two, "14 0\n"),
        exactly("ask 18446744073709551639 4", &or_of_two, "14 0\n"),
        exactly("ask 23 18446744073709551620", &or_of_two, "14 0\n"),
        exactly("ask 23 99999999999999999999999999999999999999", &or_of_two, "14 0\n"),
        exactly("ask 23 0", "MODULE T; OUT y: BIT; BEGIN y::23; y := '1 END T.", "2\n"),
        exactly("ask 23 0", "MODULE T; OUT y: BIT; BEGIN y::23; y := '0 END T.", "0\n"),
        exactly("ask 23 1", "MODULE T; OUT y: BIT; BEGIN y::23; y := '0 END T.", "14 0\n"),
        refused_at("ask 99 0", &wide(5, 20, "a - b - c - d - e"), "y: BIT", 12),
        exactly("fit", "MODULE T; END T.", ""),
        exactly("fit", "MODULE T; OUT y: BIT; BEGIN y::23; y := '0 END T.", "23 C H 0 0\n"),
        exactly("fit", "MODULE T; OUT y: BIT; BEGIN y::23; y := '1 END T.", "23 C H 1 0\n"),
        exactly("fit", "MODULE T; OUT y: BIT; BEGIN y::23; y := ~REG('1) END T.", "23 R L 1 0\n"),
        exactly("fit", "MODULE T; IN a, b, c: BIT; OUT y: BIT; BEGIN a::2; b::3; c::4; y::14; y := a*b + ~a*c END T.", "14 C H 3 6\n"),
        exactly("fit", &wide(4, 23, "a - b - c - d"), "23 C H 8 32\n"),
        exactly("fit", &wide(5, 19, "a - b - c - d - e"), "19 C H 16 80\n"),
        // Nine products in a cell of eight rows; the inverse is a single one.
        exactly("fit", &wide(9, 23, &joined(9, "+")), "23 C L 1 9\n"),
        exactly("fit", &wide(10, 14, &joined(10, "+")), "14 C L 1 10\n"),
        exactly("fit", &wide(10, 15, &joined(10, "+")), "15 C H 10 10\n"),
        refused_at("fit", &wide(11, 15, &joined(11, "+")), "y: BIT", 11),
        refused_at("fit", &wide(11, 15, "a * '0 * b * c * d * e * f * g * h * i * j * k"), "y: BIT", 11),
        exactly("fit", &wide(10, 15, "REG(a*b*c*d*e*f*g*h*i*j)"), "15 R H 1 10\n"),
        refused_at("fit", &wide(10, 15, "REG('1, a*b*c*d*e*f*g*h*i*j)"), "y: BIT", 11),
        refused_at("fit", &wide(9, 23, &format!("REG({})", joined(9, "+"))), "y: BIT", 12),
        exactly("fit", &wide(8, 23, &format!("~REG({})", joined(8, "+"))), "23 R L 8 8\n"),
        exactly("fit", &wide(2, 23, "~REG(a, b)"), "23 R L 3 6\n"),
        exactly("fit", &wide(2, 23, "REG(a, b)"), "23 R H 3 6\n"),
    ];
    // In the order of declaration, 11 and 12 of one OUT before those of the next.
    let eleven = joined(11, "*");
    let parity = joined(5, "-");
    all.push(refused_at("fit", &two_outs(&parity, &eleven), "y, z: BIT", 12));
    all.push(refused_at("fit", &two_outs(&eleven, &parity), "y, z: BIT", 11));
    all.push(refused_at("fit", &two_outs("a", &parity), "z: BIT", 12));
    all.push(exactly("fit", &two_outs("a", "b"), "20 C H 1 1\n23 C H 1 1\n"));
    for pin in 14..=23 {
        all.push(Case {
            record: Record::new("compile", wide(4, pin, "REG(a*b + ~a*c, d - y)")),
            known: Known::Accepted,
        });
        let text = wide(5, pin, &parity);
        all.push(match pin {
            18 | 19 => exactly("fit", &text, &format!("{pin} C H 16 80\n")),
            _ => refused_at("fit", &text, "y: BIT", 12),
        });
    }
    all
}

fn repeated(piece: &str, count: usize) -> String {
    piece.repeat(count)
}

/// So many operators, and 2n + 1 tree nodes.
pub fn chain(operators: usize) -> String {
    format!("a{}", repeated("+a", operators))
}

fn limits() -> Vec<Case> {
    let mut all = Vec::new();
    // Nesting: each kind alone, and together.
    for (open, close) in [("(", ")"), ("~", "")] {
        let right = |depth: usize, mark: &str| {
            format!("{}{}{}a{}", repeated(open, depth - 1), mark, open, repeated(close, depth))
        };
        all.push(case(0, &equation(&right(32, ""))));
        all.push(case(6, &equation(&right(33, "@"))));
    }
    all.push(case(0, &equation(&format!("{}a{}", repeated("(~", 16), repeated(")", 16)))));
    all.push(case(6, &equation(&format!("{}@(a{}", repeated("(~", 16), repeated(")", 17)))));
    let nested_index = |depth: usize| format!("{}1{}", repeated("(", depth), repeated(")", depth));
    all.push(case(0, &equation(&format!("x[{}]", nested_index(31)))));
    all.push(case(6, &equation(&format!("x[{}@(1{}]", repeated("(", 31), repeated(")", 32)))));
    all.push(case(0, &equation(&format!("{}REG(a){}", repeated("(", 31), repeated(")", 31)))));
    all.push(case(6, &equation(&format!("{}REG@(a){}", repeated("(", 32), repeated(")", 32)))));
    all.push(case(6, &equation(&format!("{}MUX@(a: a, a){}", repeated("(", 32), repeated(")", 32)))));
    all.push(case(6, &equation(&format!("{}x@[0]{}", repeated("(", 32), repeated(")", 32)))));
    all.push(case(6, &equation(&format!("{}@~a{}", repeated("(", 32), repeated(")", 32)))));
    all.push(case(2, &equation(&format!("{}a@(a{}", repeated("(", 32), repeated(")", 32)))));
    all.push(case(0, &equation(&format!("{}a + {}a", repeated("~", 32), repeated("~", 32)))));
    let fors = |depth: usize, mark: &str, inside: &str| {
        let rounds = "FOR i := 1 .. 1 DO ";
        format!("{}{}{}{}{}", repeated(rounds, depth - 1), mark, rounds, inside, repeated(" END", depth))
    };
    all.push(case(0, &around(&fors(32, "", "y := a"))));
    all.push(case(6, &around(&fors(33, "@", "y := a"))));
    all.push(case(0, &around(&fors(31, "", "y := (a)"))));
    all.push(case(6, &around(&fors(32, "", "y := @(a)"))));
    all.push(case(6, &around(&fors(32, "", "y @[0] := a"))));
    all.push(case(6, &around(&fors(32, "", "x :: @[3; 4]"))));
    all.push(case(6, &around(&format!("{}FOR i := @(1) .. 1 DO END{}", repeated("FOR i := 1 .. 1 DO ", 31), repeated(" END", 31)))));
    all.push(case(0, &format!("MODULE T; IN z: [{}] BIT; BEGIN z.0::2 END T.", nested_index(31))));
    all.push(case(6, &format!("MODULE T; IN z: [{}@(1{}] BIT; BEGIN z.0::2 END T.", repeated("(", 31), repeated(")", 32))));

    // Elements.
    all.push(case(7, "MODULE T; VAR @v, w: [32] BIT; END T."));
    all.push(case(6, "MODULE T; VAR v, w: [32] BIT; @u: BIT; END T."));
    all.push(case(6, "MODULE T; VAR v: BIT; u, @w, z: [32] BIT; END T."));
    all.push(case(6, "MODULE T; IN a: BIT; OUT y: BIT; VAR u: [32] BIT; @w: [31] BIT; END T."));
    let bits = |count: usize| (0..count).map(|i| format!("v{i}")).collect::<Vec<_>>().join(", ");
    all.push(case(7, &format!("MODULE T; VAR @{}: BIT; END T.", bits(64))));
    all.push(case(6, &format!("MODULE T; VAR {}, @w: BIT; END T.", bits(64))));
    all.push(case(4, &format!("MODULE T; VAR {}, w, @w: BIT; END T.", bits(64))));
    all.push(case(5, &format!("MODULE T; VAR {}, w: [@0] BIT; END T.", bits(64))));

    // Constants.
    let constants = |count: usize| (0..count).map(|i| format!("c{i} := {i}; ")).collect::<String>();
    all.push(case(0, &format!("MODULE T; CONST {}END T.", constants(32))));
    all.push(case(6, &format!("MODULE T; CONST {}@d := q; END T.", constants(32))));
    all.push(case(4, &format!("MODULE T; CONST {}@c31 := q; END T.", constants(32))));

    // Rounds and simple statements together; `around` has three positions of its own.
    all.push(case(0, &around("y := a; FOR i := 1 .. 4092 DO END")));
    all.push(case(6, &around("y := a; @FOR i := 1 .. 4093 DO END")));
    all.push(case(6, &around("FOR i := 1 .. 4093 DO END; @y := a")));
    all.push(case(6, &around("FOR i := 1 .. 4093 DO END; @q := 1 DIV 0")));
    all.push(case(0, &around("FOR i := 1 .. 4092 DO ;;; END; y := a")));
    all.push(case(6, &around("@FOR i := 0 - 65535 .. 65535 DO END")));
    all.push(case(6, &around("FOR i := 1 .. 64 DO @FOR j := 1 .. 63 DO END END")));
    all.push(case(0, &around("FOR i := 1 .. 63 DO FOR j := 1 .. 63 DO END END; y := a")));
    all.push(case(6, &around("FOR i := 1 .. 2047 DO @x :: [3; 4] END; y := a")));
    all.push(case(10, &around("FOR i := 1 .. 2046 DO x :: [3; 4] END; y := a").replace("x: [N]", "@x: [N]")));
    all.push(case(6, &around("FOR i := 1 .. 2046 DO x :: [3; 4] END; y := a; @x :: q")));

    // Tree nodes.
    all.push(case(0, &equation(&chain(1023))));
    all.push(case(0, &equation(&format!("~{}", chain(1023)))));
    all.push(case(6, &equation(&format!("{}@+a", chain(1023)))));
    all.push(case(6, &equation(&format!("~~{}@+a", chain(1022)))));
    all.push(case(6, &equation(&format!("~{} + @a", chain(1023)))));
    all.push(case(6, &equation(&format!("~{} + @x[1]", chain(1023)))));
    all.push(case(6, &equation(&format!("~{} + @'1", chain(1023)))));
    all.push(case(6, &equation(&format!("{} + @~a", chain(1023)))));
    all.push(case(6, &equation(&format!("{} + @REG(a)", chain(1023)))));
    all.push(case(6, &equation(&format!("{} + @MUX(a: a, a)", chain(1022)))));
    all.push(case(5, &equation(&format!("~{} + x@[2]", chain(1023)))));
    all.push(case(4, &equation(&format!("~{} + x[@MUX(a: a, a)]", chain(1023)))));
    all.push(case(4, &equation(&format!("{}+@1", chain(1023)))));
    all.push(case(5, &equation(&format!("{}+x@[2]", chain(1023)))));
    all.push(case(6, &around("y := a; FOR i := 1 .. 1024 DO y := @~a END")));
    all.push(case(7, &around("y := a; FOR i := 1 .. 1023 DO y := ~a END").replace("OUT y", "OUT @y")));

    // Length of the text.
    let padded = |length: usize| {
        let text = EXAMPLE.to_string();
        let blanks = length - text.len();
        text + &repeated(" ", blanks)
    };
    all.push(case(0, &padded(32_768)));
    all.push(case(1, &padded(32_769)));
    all.push(case(2, &format!("{}@(", padded(32_767))));
    all.push(case(1, &repeated("(", 32_769)));
    all
}

/// Texts that cost a naive compiler dear.
fn heavy() -> Vec<Case> {
    let mut all = Vec::new();
    // Sixty names, each used twice by the next: replaced as text, 2^60 leaves.
    let doubling = |right: &str, last: &str| {
        format!(
            "MODULE T; IN a, b: BIT; OUT y: BIT; VAR v: [32] BIT; w: [28] BIT; BEGIN a::2; b::3; y::23; v.0 := a; \
             FOR i := 1 .. 31 DO v.i := {} END; w.0 := v.31; FOR i := 1 .. 27 DO w.i := {} END; y := {last} END T.",
            right,
            right.replace('v', "w")
        )
    };
    all.push(exactly("fit", &doubling("v[i-1] + v[i-1]", "w.27"), "23 C H 1 1\n"));
    all.push(exactly("fit", &doubling("v[i-1] - v[i-1] - b", "w.27"), "23 C H 1 1\n"));
    all.push(exactly("fit", &doubling("v[i-1] * b + ~v[i-1]", "REG(w.27)"), "23 R H 2 2\n"));
    all.push(exactly("ask 23 7", &doubling("MUX(v[i-1]: v[i-1], v[i-1])", "~REG(w.27, b)"), "0\n"));
    // A long expression of numbers valued in each of 4,096 rounds.
    let long = format!("0{}", repeated("+i-i", 3_000));
    all.push(case(6, &format!("MODULE T; BEGIN @FOR i := 1 .. 5000 DO FOR j := {long} .. 0 - 1 DO END END END T.")));
    all.push(case(0, &format!("MODULE T; BEGIN FOR i := 1 .. 4096 DO FOR j := {long} .. 0 - 1 DO END END END T.")));
    // The largest equation over ten pins, and one operator past it.
    let ring = |nodes: usize| {
        let mut right = joined(10, "-");
        let mut count = 19;
        let mut turn = 0;
        while count + 2 <= nodes {
            right += ["*", "+", "-"][turn % 3];
            right += &input_name((turn * 7 + 3) % 10);
            count += 2;
            turn += 1;
        }
        if count < nodes {
            right = format!("~({right})");
        }
        right
    };
    for nodes in [2_047, 2_048] {
        all.push(Case { record: Record::new("ask 23 59048", wide(10, 23, &ring(nodes))), known: Known::Anything });
    }
    let too_large = wide(10, 23, &ring(2_048));
    let place = too_large.find("~(").unwrap_or(0);
    all.push(Case {
        record: Record::new("fit", too_large.replacen("~(", "~~(", 1)),
        known: Known::Refused { number: 6, place },
    });
    let names: Vec<String> = (0..9).map(|i| format!("{}*~{}", input_name(i), input_name(i + 1))).collect();
    all.push(Case { record: Record::new("fit", wide(10, 18, &names.join("+"))), known: Known::Accepted });
    all.push(Case { record: Record::new("fit", wide(10, 18, &names.join("-"))), known: Known::Anything });
    all
}
