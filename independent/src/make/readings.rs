//! The points on which readers of the paper could differ, each with cases that tell the reading
//! taken from another one. The numbers are those of docs/DECISIONS.md.

use super::files::summed;
use super::fixed::{
    answered, around, case, chain, equation, exactly, joined, length, refused_at, two_outs, wide, Case,
};
use super::maps;
use crate::cells::map_of_cells;
use crate::device::{cell_of, COLUMNS, FUSES, PINS, SETTINGS_AT, SIGNATURE_AT};

/// A point's number and a case for it.
pub type Point = (u32, Case);

fn names(number: u32, at: &str, statements: &str) -> Case {
    let text = format!("MODULE T; IN a: BIT; OUT y, z: BIT; VAR v, w: BIT; BEGIN a::2; y::23; z::22; {statements} END T.");
    refused_at("compile", &text, at, number)
}

fn ins(number: u32, list: &str, statements: &str) -> Case {
    case(number, &format!("MODULE T; IN {list}; BEGIN {statements} END T."))
}

fn words() -> Vec<Point> {
    let deep = "(".repeat(32);
    vec![
        (1, case(2, "MODULE T; IN @abcdefghijklmnopq: BIT; END T.")),
        (1, case(2, "MODULE T; IN @abcdefghijklmnop': BIT; END T.")),
        (1, case(2, "MODULE T; @ENDENDENDENDENDENDEND T.")),
        (2, case(2, "MODULE T; (* END T.@")),
        (2, case(2, "MODULE T; END T. (*@")),
        (2, case(2, "MODULE T; (*) END T.@")),
        (2, case(0, "MODULE T; (*)*) END T.")),
        (3, case(2, &equation("@'"))),
        (3, case(2, "MODULE T; END T.@'")),
        (3, case(2, "MODULE T; IN a': BIT; OUT y: BIT; BEGIN a'::2; y::23; y := a'@0 END T.")),
        (4, case(0, "MODULE T; IN POS, IN', END': BIT; BEGIN POS::2; IN'::3; END'::4 END T.")),
        (4, case(2, "MODULE T; IN @ELSIF: BIT; END T.")),
        (4, case(2, "MODULE T; BEGIN @CLOCK END T.")),
        (5, case(0, "MODULE T; IN a, A: BIT; BEGIN a::2; A::3 END T.")),
        (5, case(2, "MODULE T; IN a@_b: BIT; END T.")),
        (5, case(2, "MODULE T; IN @_b: BIT; END T.")),
        (5, case(2, "MODULE T; IN a@é: BIT; END T.")),
        (5, case(0, "MODULE T; (* é_\u{0}\u{3}/=#<>| *) END T.")),
        (5, case(2, &equation("a @/ a"))),
        (5, case(2, "MODULE T;@\u{c} END T.")),
        (6, case(0, "MODULE T; CONST N := 0000000000000000000000065535; END T.")),
        (6, case(3, "MODULE T; CONST N := @65536; END T.")),
        (6, case(3, "MODULE T; CONST N := @000000000000000000000065536; END T.")),
        (7, case(2, "MODULE @65536; END T.")),
        (7, case(3, &equation("@65536"))),
        (7, case(2, &equation(&format!("{deep}a@(")))),
        (7, case(2, &equation(&format!("{deep}MUX @a")))),
        (7, case(3, &equation(&format!("{deep}@65536(")))),
        (7, case(6, &equation(&format!("{deep}@(65536")))),
        (8, case(2, "MODULE T; END T@..")),
        (8, case(0, &around("FOR i := 0..1 DO END; y := a"))),
        (8, case(2, &equation("x@..0"))),
    ]
}

fn grammar() -> Vec<Point> {
    let fors = |depth: usize, inside: &str| format!("{}{inside}{}", "FOR i := 1 .. 1 DO ".repeat(depth), " END".repeat(depth));
    let tildes = "~".repeat(32);
    vec![
        (9, case(2, "MODULE T; CONST N := q; END @U.")),
        (9, case(0, "MODULE T; IN T: BIT; BEGIN T::2 END T.")),
        (9, case(4, &equation("@T"))),
        (10, case(0, "MODULE T; CONST IN OUT VAR BEGIN END T.")),
        (11, case(2, &equation("x.0@.1"))),
        (11, case(2, "MODULE T; VAR v: [2]@[2] BIT; END T.")),
        (12, ins(10, "@z: [2] BIT", "z.0 :: [5]; z.1 :: 6")),
        (12, ins(2, "z: [2] BIT", "z :: [@]")),
        (13, case(6, &around(&fors(31, "FOR i := @(1) .. 1 DO END")))),
        (13, case(0, &around(&fors(31, "y := (a)")))),
        (13, case(6, &around(&fors(31, "y := ~@(a)")))),
        (13, case(6, &around(&fors(32, "x :: @[3; 4]")))),
        (13, case(0, &equation(&format!("{tildes}a + {tildes}x.1")))),
        (13, case(6, &equation(&format!("{tildes}x@[1]")))),
        (13, case(6, &format!("MODULE T; IN z: [{}MUX(@(", "(".repeat(30)))),
    ]
}

fn kinds() -> Vec<Point> {
    vec![
        (14, case(4, &equation("a DIV @2"))),
        (14, case(4, &equation("a @DIV a"))),
        (14, case(4, &equation("@1 DIV 0"))),
        (15, case(4, &length("@~1"))),
        (15, case(4, &length("~@a"))),
        (15, case(3, &length("~(1 @DIV 0)"))),
        (15, case(4, &length("MUX(a: a, @1)"))),
        (15, case(4, &length("@REG(a, a)"))),
        (15, case(5, &length("REG(@x)"))),
        (15, case(4, &equation(&format!("~{} + x[@MUX(a: a, a)]", chain(1_023))))),
        (16, case(5, &length("K@[1 DIV 0]"))),
        (16, case(4, &equation("@N[q]"))),
        (16, case(4, &around("@N.0 := a"))),
        (16, case(4, &around("FOR i := 0 .. 1 DO @i.0 := a END"))),
    ]
}

fn declarations() -> Vec<Point> {
    let constants: String = (0..32).map(|i| format!("c{i} := {i}; ")).collect();
    vec![
        (17, case(4, &format!("MODULE T; CONST {constants}@c31 := q; END T."))),
        (17, case(6, &format!("MODULE T; CONST {constants}@d := q; END T."))),
        (17, case(4, "MODULE T; CONST N := @N; END T.")),
        (17, case(0, "MODULE T; CONST N := 1; M := N; END T.")),
        (18, case(4, "MODULE T; IN v: [@v] BIT; END T.")),
        (18, case(5, "MODULE T; IN v: [@33] BIT; END T.")),
        (18, case(5, "MODULE T; IN v: [@(2) - 2] BIT; END T.")),
    ]
}

fn statements() -> Vec<Point> {
    vec![
        (19, case(5, &equation("x@.2"))),
        (19, case(5, &equation("x@[2]"))),
        (20, case(5, &equation("a@[1 DIV 0]"))),
        (20, case(5, &equation("a@.q"))),
        (20, case(5, &equation("@x"))),
        (20, case(5, &around("@x := q"))),
        (21, case(4, &around("FOR i := 0 .. @i DO END"))),
        (21, case(0, &around("FOR N := N-1 .. N-1 DO y := x.N END"))),
        (21, case(4, &around("FOR a := 1 .. 1 DO y := @a END"))),
        (21, case(0, &around("FOR i := 1 .. 1 DO FOR i := 5 .. 5 DO END; y := x.i END"))),
        (21, case(4, &around("FOR i := 0 .. 1 DO END; y := x.@i"))),
        (21, case(0, &around("FOR i := 1 .. 0 DO q := 5; a := a; y :: '1 END; y := a"))),
        (21, case(2, &around("FOR i := 1 .. 0 DO q @= 5 END; y := a"))),
        (22, case(0, &around("FOR i := 1 .. 4092 DO END; FOR i := 1 .. 0 DO END; y := a"))),
        (22, case(6, &around("FOR i := 1 .. 4093 DO END; @q[1 DIV 0] := 5"))),
        (22, case(6, &around("y := a; @FOR i := 1 .. 4093 DO END"))),
        (22, case(6, &around("FOR i := 1 .. 4092 DO END; @FOR i := 1 .. 2 DO FOR i := 1 .. 0 DO END END"))),
        (23, case(0, &around(&format!("y := ~(({})); x[1 - 1] :: N + 1", chain(1_023))).replacen("x::[3; 4]", "x.1::4", 1))),
        (23, case(6, &equation(&format!("{}@+a", chain(1_023))))),
        (23, case(5, &equation(&format!("~{} + x@[2]", chain(1_023))))),
        (23, case(4, &equation(&format!("{}+@1", chain(1_023))))),
        (23, case(6, &around("y := a; FOR i := 1 .. 1024 DO y := @~a END"))),
        (44, case(6, &equation(&format!("~{} + @x[1]", chain(1_023))))),
        (44, case(6, &equation(&format!("{} + @REG(a)", chain(1_023))))),
        (44, case(4, &equation("x[@a[1 DIV 0]]"))),
    ]
}

fn over_all_names() -> Vec<Point> {
    vec![
        (24, names(7, "w: BIT", "y := ~~REG(a); z := a; v := a")),
        (24, names(8, "w: BIT", "y := y; z := a; v := v; w := ~REG(a)")),
        (24, names(9, "w: BIT", "a::5; y := a; z := a; v := a; w := w")),
        (24, case(7, "MODULE T; OUT y: BIT; @z: [3] BIT; BEGIN y := '0; z.0 := '0; z.2 := '0; z.2 := '0 END T.")),
        (25, names(9, "z: BIT", "y := z; z := ~z; v := a; w := a")),
        (25, names(9, "y, z", "y := '0*y; z := a; v := a; w := a")),
        (25, names(9, "w: BIT", "y := a; z := a; v := w; w := w")),
        (25, case(0, "MODULE T; OUT y, z: BIT; BEGIN y::23; z::22; y := REG(z, y); z := ~y END T.")),
        (26, ins(10, "@a, b: BIT", "b::2; a::2")),
        (26, case(10, "MODULE T; IN @a: BIT; VAR v: BIT; BEGIN a::2; v::2; v := a END T.")),
        (26, ins(10, "@a, b: BIT", "a::2; b::3; b::2")),
        (26, ins(10, "a, @b: BIT", "a::2; b::3; b::[2]")),
        (26, ins(10, "@a: [1] BIT", "a::2")),
        (26, ins(10, "a: BIT; @z: [3] BIT", "a::2; z::[2; 3]")),
        (26, ins(10, "@a: BIT", "a::2; a::2")),
        (26, ins(10, "@a: BIT", "a::65535")),
        (45, ins(10, "a: BIT; @z: [2] BIT", "a::2; z::[3; 4]; z::5")),
        (45, ins(10, "a: BIT; @z: [2] BIT", "a::2; z.1::[6]; z::[3; 4]")),
        (46, ins(10, "a: BIT; @z: [3] BIT", "a::2; z::[3; 4; 3]")),
    ]
}

fn outputs() -> Vec<Point> {
    let register = wide(1, 23, "~REG(a)");
    let always = wide(1, 23, "REG('1, a)");
    let keeping = wide(2, 23, "~REG(a, b)");
    let or = wide(2, 23, "a + b");
    let parity = joined(5, "-");
    let eleven = joined(11, "*");
    let elements = |first: &str, second: &str| {
        wide(11, 20, "a")
            .replacen("OUT y: BIT", "OUT y: [2] BIT", 1)
            .replacen("y::20; y := a", &format!("y::[20; 21]; y.1 := {second}; y.0 := {first}"), 1)
    };
    vec![
        (27, refused_at("fit", &wide(11, 15, &format!("'0 * ({eleven})")), "y: BIT", 11)),
        (27, refused_at("fit", &two_outs(&parity, &eleven), "y, z: BIT", 12)),
        (27, refused_at("fit", &two_outs(&eleven, &parity), "y, z: BIT", 11)),
        (27, refused_at("fit", &two_outs("a", &parity), "z: BIT", 12)),
        (27, refused_at("fit", &elements(&parity, &eleven), "y: [2]", 12)),
        (27, refused_at("fit", &elements(&eleven, &parity), "y: [2]", 11)),
        (28, exactly("ask 23 0", &register, "2\n")),
        (28, exactly("ask 23 1", &register, "0\n")),
        (28, exactly("ask 23 7", &always, "2\n")),
        (28, exactly("ask 23 9", &always, "14 0\n")),
        // Next it shows y where a is 0, and not b where a is 1.
        (29, exactly("ask 23 15", &keeping, "2\n")),
        (29, exactly("ask 23 6", &keeping, "0\n")),
        (29, exactly("ask 23 19", &keeping, "2\n")),
        (29, exactly("ask 23 22", &keeping, "0\n")),
        (30, refused_at("ask 99 0", &wide(5, 20, &parity), "y: BIT", 12)),
        (30, refused_at("ask 20 0", &two_outs("a", &parity), "z: BIT", 12)),
        (30, exactly("ask 20 0", "MODULE T; END ", "2 14\n")),
        (30, exactly("ask 23 18446744073709551620", &or, "14 0\n")),
        (30, exactly("ask 18446744073709551639 4", &or, "14 0\n")),
        (31, exactly("fit", &wide(9, 23, &joined(9, "+")), "23 C L 1 9\n")),
        (41, exactly("compile", "MODULE T; END", "2 13\n")),
        (41, exactly("fit", "MODULE T; END", "2 13\n")),
        (41, exactly("fit", "MODULE T; END T.", "")),
        (43, exactly("compile", &" ".repeat(40_000), "1 0\n")),
    ]
}

/// Texts.
pub fn texts() -> Vec<Point> {
    [words(), grammar(), kinds(), declarations(), statements(), over_all_names(), outputs()].into_iter().flatten().collect()
}

/// Fuse files, maps to write and lines for the model.
pub fn devices() -> Vec<Point> {
    let mut all: Vec<Point> = Vec::new();
    let accepted = |map: &[u8]| map.iter().map(|fuse| (b'0' + fuse) as char).collect::<String>() + "\n";
    let blank = accepted(&[0; FUSES]);
    let mut whole = |point: u32, bytes: &[u8], answer: &str| all.push((point, answered("read", bytes, answer)));

    whole(32, b"\x02*q*L", "20 2\n");
    whole(32, b"\x02*QF5892*L5892 1", "20 16\n");
    whole(32, b"\x02*QF5892*L5892 1*", "22 9\n");
    whole(32, b"\x02*QF5892*F0*", "20 12\n");
    whole(32, b"\x02Lola\x03", "20 1\n");
    whole(32, &summed(b"*QF5892*F0*L5892 1"), "20 12\n");
    whole(33, b"\x02*\x03 002F", "20 3\n");
    whole(33, b"\x02*\x0300 ", "20 3\n");
    whole(33, b"\x02*\x03002", "20 6\n");
    whole(34, &summed(b"*QF5892*F0* *"), "20 13\n");
    whole(34, &summed(b"*QF5892*F0*qF0*"), "20 12\n");
    whole(34, &summed(b"*Qf1*QF5892*Q*QE1*F0*"), &blank);
    whole(35, &summed(b"*F0*QF5892*"), "20 2\n");
    whole(35, &summed(b"*L9999 1*QF5892*F0*"), "20 2\n");
    whole(35, &summed(b"*QF5892*QF1*F0*"), "20 9\n");
    whole(35, &summed(b"*QP24*QP25*QF5892*F0*"), "20 7\n");
    whole(36, &summed(b"*QF0000000000000000000005892*F0*L000000000000000000000000 0*"), &blank);
    whole(36, &summed(b"*QF18446744073709557508*F0*"), "21 2\n");
    whole(36, &summed(b"*QF5892*F0*L5892 0*"), "22 12\n");
    whole(36, &summed(b"*QF5892*F0*L5891 00*"), "22 12\n");
    whole(36, &summed(b"*QF5892*F0*L18446744073709551616 0*"), "22 12\n");
    whole(36, &summed(b"*QF5892*F0*L 0*"), "20 12\n");
    whole(37, &summed(b"*C0000*G1*QP24*QF5892*F0*"), &blank);
    whole(37, &summed(b"*QF5892*F0*L0 0*QP24*G0*C0000*"), &blank);
    whole(37, &summed(b"*QF5892*F0*"), &blank);
    whole(37, &summed(b"\x02 q\xff\x00(QF1*\t\r\n QF5892*F0*"), &blank);
    whole(37, &summed(b"*\x0bQF5892*F0*"), "20 2\n");
    whole(38, &summed(b"*"), "20 7\n");
    whole(38, b"\x02*C0001*\x030000", "20 13\n");
    whole(38, b"\x02*QF5892*L0000 1*C0000*\x030000", "20 28\n");
    whole(38, b"\x02*QF5892*L0000 1*C0000*\x030000 x", "20 29\n");
    let padded = |length: usize, bytes: &[u8]| [bytes, &vec![b' '; length - bytes.len()]].concat();
    whole(39, &padded(65_536, &summed(b"*QF5892*F0*")), &blank);
    whole(39, &padded(65_537, &summed(b"*QF5892*F0*")), "20 65537\n");
    whole(39, &padded(65_537, b"x"), "20 65537\n");
    whole(43, &padded(70_000, &summed(b"*QF5892*F0*")), "20 70000\n");
    whole(43, &padded(131_077, b""), "20 131077\n");
    all.push((43, exactly("write", &"0".repeat(70_000), "31 0\n")));
    all.extend(model());
    for case in maps::line_ends() {
        let point = if case.record.call == "write" { 42 } else { 55 };
        all.push((point, case));
    }
    all
}

fn model() -> Vec<Point> {
    let unused = map_of_cells(&[]);
    let quiet = format!("{} {}", "0".repeat(10), "0".repeat(PINS));
    let zero = |count: usize| "0".repeat(count);
    let with = |line: &str, at: usize, digit: &str| {
        let mut line = line.to_string();
        line.replace_range(at..at + 1, digit);
        line
    };
    let bit = |pin: usize, digit: &str| with(&quiet, pin - 14, digit);
    let pin = |pin: usize, digit: &str| with(&quiet, 10 + pin, digit);
    let nothing = format!("{} {} {}", zero(PINS), zero(PINS), zero(10));
    let asked = |map: &[u8], lines: &[String], answers: &[&str]| {
        let digits: String = map.iter().map(|fuse| (b'0' + fuse) as char).collect();
        let point = exactly("model", &format!("{digits}\n{}\n", lines.join("\n")), &(answers.join("\n") + "\n"));
        (40, point)
    };
    let fill = |map: &mut [u8], row: usize, fuse: u8| map[COLUMNS * row..COLUMNS * (row + 1)].fill(fuse);
    let s1 = |pin: usize| SETTINGS_AT + 2 * cell_of(pin).number() + 1;
    let mut all = Vec::new();

    // Registered and not enabled: its bit is the caller's, its pin is not.
    let mut hidden = unused.clone();
    hidden[s1(15)] = 0;
    all.push(asked(&hidden, &[bit(15, "1"), pin(15, "1"), pin(16, "1"), bit(16, "1")], &[&nothing, "32 0", &nothing, "32 0"]));
    // Shown before the clock; Q takes 1 at each.
    let mut shown = unused.clone();
    shown[s1(23)] = 0;
    fill(&mut shown, cell_of(23).enable, 1);
    fill(&mut shown, cell_of(23).enable + 1, 1);
    let at_23 = |digit: &str| format!("{}{digit}0", zero(22));
    let powered = format!("{} {} {}1", at_23("1"), at_23("0"), zero(9));
    let clocked = format!("{} {} {}1", at_23("1"), at_23("1"), zero(9));
    all.push(asked(&shown, &[quiet.clone(), bit(23, "1")], &[&powered, &clocked]));
    let above: Vec<String> = [1, 2, 12, 13, 14, 24].iter().map(|p| pin(*p, "2")).chain([bit(14, "9")]).collect();
    all.push(asked(&unused, &above, &["32 0"; 7]));
    // Not all 0, though dead.
    for (row, column) in [(0, 43), (131, 0), (cell_of(18).enable, 20)] {
        let mut map = unused.clone();
        map[COLUMNS * row + column] = 1;
        all.push(asked(&map, &[quiet.clone()], &["30 0"]));
    }
    // Open but for one pair, so dead, and not all 1.
    let mut map = unused.clone();
    fill(&mut map, cell_of(18).enable, 1);
    map[COLUMNS * cell_of(18).enable + 2..COLUMNS * cell_of(18).enable + 4].fill(0);
    all.push(asked(&map, &[quiet.clone()], &["30 0"]));
    // No matter: signature fuses, and what a cell reads that is neither enabled nor registered.
    let mut map = unused.clone();
    map[SIGNATURE_AT..].fill(1);
    let product = cell_of(18).enable + 1;
    fill(&mut map, product, 1);
    map[COLUMNS * product] = 0;
    all.push(asked(&map, &[quiet.clone(), pin(18, "1")], &[&nothing, &nothing]));
    map[s1(18)] = 0;
    all.push(asked(&map, &[quiet.clone(), "x".to_string()], &["30 0", "30 0"]));
    all
}
