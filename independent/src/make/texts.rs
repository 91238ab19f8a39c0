//! Texts: modules made by the grammar, most of them sound, and what becomes of them when words,
//! numbers or bytes are changed.

use super::fixed::wide;
use super::Chance;
use crate::cells::{design_of, verdicts_on, Design};
use crate::sums::{power_of_three, Verdict};
use crate::vectors::Record;
use crate::words::RESERVED;

type Words = Vec<String>;

fn words(line: &str) -> Words {
    line.split_whitespace().map(str::to_string).collect()
}

#[derive(Clone)]
struct Signal {
    name: String,
    /// 0 IN, 1 OUT, 2 VAR.
    class: usize,
    length: Option<usize>,
    /// One pin per element; none for VAR.
    pins: Vec<usize>,
    registered: bool,
}

/// A module in parts, so that a part can be spoiled.
struct Draft {
    title: String,
    constants: Vec<(String, i32, Words)>,
    signals: Vec<Signal>,
    /// Names, length words and class of each list.
    lists: Vec<(usize, Vec<String>, Option<Words>)>,
    statements: Vec<Words>,
}

const NAMES: [&str; 34] = [
    "a", "b", "c", "d", "e", "x", "y", "z", "q", "s", "en", "clk", "ci", "co", "a1", "b2", "x0y1", "Q", "A", "B",
    "q'", "s'", "r'", "IN'", "POS", "load", "carry", "sum", "state", "Mux", "reg", "N0", "abcdefghijklmnop",
    "abcdefghijklmno'",
];

const IN_PINS: [usize; 11] = [2, 3, 4, 5, 6, 7, 8, 9, 10, 11, 13];

struct Maker<'c> {
    chance: &'c mut Chance,
    draft: Draft,
}

fn fresh(chance: &mut Chance, used: &mut Vec<String>) -> String {
    for _ in 0..40 {
        let name = chance.pick(&NAMES).to_string();
        if !used.contains(&name) {
            used.push(name.clone());
            return name;
        }
    }
    let name = format!("n{}", used.len());
    used.push(name.clone());
    name
}

impl Maker<'_> {
    /// Words whose value is a number; constants are used where they help.
    fn number(&mut self, value: i32, depth: usize) -> Words {
        let constants: Vec<(String, i32)> =
            self.draft.constants.iter().map(|(n, v, _)| (n.clone(), *v)).collect();
        if let Some((name, _)) = constants.iter().find(|(_, v)| *v == value) {
            if self.chance.coin() {
                return vec![name.clone()];
            }
        }
        if value < 0 {
            let inner = self.number(-value, depth.saturating_sub(1));
            return [words("( 0 -"), inner, words(")")].concat();
        }
        if depth == 0 || self.chance.below(3) > 0 {
            let padding = if self.chance.once_in(25) { "00" } else { "" };
            return vec![format!("{padding}{value}")];
        }
        match self.chance.below(8) {
            0 => {
                let right = self.chance.below(9) as i32;
                [self.number(value - right, depth - 1), words("+"), vec![right.to_string()]].concat()
            }
            1 => {
                let right = self.chance.below(9) as i32;
                [vec![(value + right).to_string()], words("-"), vec![right.to_string()]].concat()
            }
            2 => {
                let by = self.chance.within(1, 5) as i32;
                let rest = self.chance.below(by as usize) as i32;
                [words("("), vec![(value * by + rest).to_string()], words("DIV"), vec![by.to_string()], words(")")].concat()
            }
            3 => {
                let by = value + self.chance.within(1, 5) as i32;
                let times = self.chance.below(3) as i32 - 1;
                let from = self.number(value + times * by, depth - 1);
                [words("( ("), from, words(") MOD"), vec![by.to_string()], words(")")].concat()
            }
            4 => {
                let power = self.chance.below(4) as i32;
                let rest = self.number(value - (1 << power), depth - 1);
                [words("( 2 ^"), vec![power.to_string()], words("+ ("), rest, words(") )")].concat()
            }
            5 => [words("("), self.number(value, depth - 1), words(")")].concat(),
            6 => [words("1 *"), vec![value.to_string()]].concat(),
            _ => match constants.is_empty() {
                true => vec![value.to_string()],
                false => {
                    let (name, held) = self.chance.pick(&constants).clone();
                    let rest = self.number(value - held, depth - 1);
                    [words("("), vec![name], words("+ ("), rest, words(") )")].concat()
                }
            },
        }
    }

    /// An index of one of three shapes; in a round, `i` is the variable's value.
    fn index(&mut self, value: usize, round: Option<i32>) -> Words {
        if let Some(i) = round {
            let offset = value as i32 - i;
            return match (offset, self.chance.below(3)) {
                (0, 0) => words("[ i ]"),
                (0, _) => words(". i"),
                (o, _) if o < 0 => [words("[ i -"), vec![(-o).to_string()], words("]")].concat(),
                (o, 0) => [words("["), vec![o.to_string()], words("+ i ]")].concat(),
                (o, _) => [words("[ i +"), vec![o.to_string()], words("]")].concat(),
            };
        }
        let named: Vec<String> =
            self.draft.constants.iter().filter(|c| c.1 == value as i32).map(|c| c.0.clone()).collect();
        match self.chance.below(4) {
            0 if !named.is_empty() => vec![".".to_string(), named[0].clone()],
            0 | 1 => [words("["), self.number(value as i32, 2), words("]")].concat(),
            _ => vec![".".to_string(), value.to_string()],
        }
    }

    /// A signal's word or words, one of those given as usable.
    fn leaf(&mut self, usable: &[usize], round: Option<(i32, usize)>) -> Words {
        if usable.is_empty() || self.chance.once_in(18) {
            return vec![if self.chance.coin() { "'0" } else { "'1" }.to_string()];
        }
        let signal = self.draft.signals[*self.chance.pick(usable)].clone();
        let Some(length) = signal.length else { return vec![signal.name] };
        // In rounds, an offset that stays inside for all of them.
        if let Some((first, rounds)) = round {
            if length >= rounds && self.chance.below(4) > 0 {
                let offset = self.chance.below(length - rounds + 1);
                return [vec![signal.name], self.index(offset, Some(first))].concat();
            }
        }
        let element = self.chance.below(length);
        [vec![signal.name], self.index(element, None)].concat()
    }

    fn expression(&mut self, usable: &[usize], depth: usize, round: Option<(i32, usize)>) -> Words {
        if depth == 0 || self.chance.once_in(5) {
            return self.leaf(usable, round);
        }
        let part = |this: &mut Self| this.expression(usable, depth - 1, round);
        match self.chance.below(14) {
            0 | 1 => [words("~"), self.leaf(usable, round)].concat(),
            2 => [words("~ ("), part(self), words(")")].concat(),
            3 => [words("MUX ("), part(self), words(":"), part(self), words(","), part(self), words(")")].concat(),
            4 => [words("("), part(self), words(")")].concat(),
            5..=7 => [part(self), words("+"), part(self)].concat(),
            8 => [part(self), words("-"), part(self)].concat(),
            9 => [words("("), part(self), words("+"), part(self), words(") *"), part(self)].concat(),
            _ => [part(self), words("*"), part(self)].concat(),
        }
    }

    fn right_side(&mut self, registered: bool, usable: &[usize], round: Option<(i32, usize)>) -> Words {
        let depth = self.chance.within(0, 3);
        if !registered {
            return self.expression(usable, depth, round);
        }
        let data = self.expression(usable, depth, round);
        let mut right = if self.chance.once_in(3) {
            let enable = self.expression(usable, 1, round);
            [words("REG ("), enable, words(","), data, words(")")].concat()
        } else {
            [words("REG ("), data, words(")")].concat()
        };
        if self.chance.once_in(8) {
            right = [words("("), right, words(")")].concat();
        }
        if self.chance.once_in(3) {
            right.insert(0, "~".to_string());
        }
        right
    }

    /// Equations of one signal: element by element, or in rounds.
    fn equations(&mut self, signal: usize, usable: &[usize]) {
        let this = self.draft.signals[signal].clone();
        let Some(length) = this.length else {
            let right = self.right_side(this.registered, usable, None);
            self.draft.statements.push([vec![this.name, ":=".to_string()], right].concat());
            return;
        };
        if length > 1 && self.chance.below(3) > 0 {
            let first = self.chance.below(3) as i32 - 1;
            let from = self.number(first, 1);
            let to = self.number(first + length as i32 - 1, 1);
            let mut body = [vec![this.name.clone()], self.index(0, Some(first)), words(":=")].concat();
            body.extend(self.right_side(this.registered, usable, Some((first, length))));
            if self.chance.once_in(6) {
                body.push(";".to_string());
            }
            if self.chance.once_in(8) {
                // One more round inside, of another variable with the same value.
                let inner: Words = body.into_iter().map(|w| if w == "i" { "k".to_string() } else { w }).collect();
                body = [words("FOR k := i .. i DO"), inner, words("END")].concat();
            }
            let mut round = [words("FOR i :="), from, words(".."), to, words("DO"), body, words("END")].concat();
            if self.chance.once_in(6) {
                // A variable that hides some other name, which may be missed inside.
                let hidden = match self.chance.below(3) {
                    0 => self.chance.pick(&self.draft.signals).name.clone(),
                    1 if !self.draft.constants.is_empty() => self.draft.constants[0].0.clone(),
                    _ => "k".to_string(),
                };
                for word in round.iter_mut().filter(|w| *w == "i") {
                    *word = hidden.clone();
                }
            }
            self.draft.statements.push(round);
            return;
        }
        // A chain through the array's own earlier elements, if it holds no registers.
        let chained = !this.registered && length > 1 && self.chance.coin();
        for element in 0..length {
            let mut right = self.right_side(this.registered, usable, None);
            if chained && element > 0 {
                let before = [vec![this.name.clone()], self.index(element - 1, None)].concat();
                right = [words("("), right, words(") *"), before].concat();
            }
            let target = [vec![this.name.clone()], self.index(element, None), words(":=")].concat();
            self.draft.statements.push([target, right].concat());
        }
    }

    fn positions(&mut self) {
        for signal in self.draft.signals.clone() {
            if signal.class == 2 {
                continue;
            }
            match signal.length {
                None => {
                    let number = self.number(signal.pins[0] as i32, 1);
                    self.draft.statements.push([vec![signal.name, "::".to_string()], number].concat());
                }
                Some(_) if self.chance.coin() => {
                    let mut list = vec![signal.name, "::".to_string(), "[".to_string()];
                    for (i, pin) in signal.pins.iter().enumerate() {
                        if i > 0 {
                            list.push(";".to_string());
                        }
                        list.extend(self.number(*pin as i32, 1));
                    }
                    list.push("]".to_string());
                    self.draft.statements.push(list);
                }
                Some(_) => {
                    for (i, pin) in signal.pins.iter().enumerate() {
                        let at = self.index(i, None);
                        let number = self.number(*pin as i32, 1);
                        self.draft.statements.push([vec![signal.name.clone()], at, words("::"), number].concat());
                    }
                }
            }
        }
    }
}

/// A module that is sound more often than not.
fn draft(chance: &mut Chance) -> Draft {
    let mut used = vec!["i".to_string()];
    let title = if chance.once_in(6) { fresh(chance, &mut Vec::new()) } else { "T".to_string() };
    let draft = Draft { title, constants: vec![], signals: vec![], lists: vec![], statements: vec![] };
    let mut maker = Maker { chance, draft };

    for _ in 0..maker.chance.below(4) {
        let name = fresh(maker.chance, &mut used);
        let value = maker.chance.below(9) as i32 - if maker.chance.once_in(6) { 8 } else { 0 };
        let right = maker.number(value, 3);
        maker.draft.constants.push((name, value, right));
    }

    let mut in_pins = IN_PINS.to_vec();
    let mut out_pins: Vec<usize> = (14..=23).collect();
    maker.chance.shuffle(&mut in_pins);
    maker.chance.shuffle(&mut out_pins);
    let many = maker.chance.once_in(10);
    let ins = if many { maker.chance.within(8, 11) } else { maker.chance.within(0, 6) };
    let outs = if many { maker.chance.within(1, 10) } else { maker.chance.within(1, 4) };
    let vars = maker.chance.below(5);
    for (class, mut left) in [(0, ins), (1, outs), (2, vars)] {
        while left > 0 {
            let array = maker.chance.once_in(3);
            let length = if array { Some(maker.chance.within(1, left)) } else { None };
            let names = if array || maker.chance.coin() { 1 } else { maker.chance.within(1, left) };
            let mut list = Vec::new();
            for _ in 0..names {
                let name = fresh(maker.chance, &mut used);
                list.push(name.clone());
                let pins = match class {
                    0 => (0..length.unwrap_or(1)).filter_map(|_| in_pins.pop()).collect(),
                    1 => (0..length.unwrap_or(1)).filter_map(|_| out_pins.pop()).collect(),
                    _ => vec![],
                };
                let registered = class == 1 && maker.chance.coin();
                maker.draft.signals.push(Signal { name, class, length, pins, registered });
            }
            let length_words = length.map(|n| maker.number(n as i32, 2));
            maker.draft.lists.push((class, list, length_words));
            left -= length.unwrap_or(names).min(left);
        }
    }

    maker.positions();
    // Combinational signals use only what has its equation already; registers use anything.
    let count = maker.draft.signals.len();
    let mut usable: Vec<usize> = (0..count)
        .filter(|s| maker.draft.signals[*s].class == 0 || maker.draft.signals[*s].registered)
        .collect();
    let mut combinational: Vec<usize> = (0..count).filter(|s| !usable.contains(s)).collect();
    maker.chance.shuffle(&mut combinational);
    for signal in combinational {
        maker.equations(signal, &usable);
        usable.push(signal);
    }
    for signal in (0..count).filter(|s| maker.draft.signals[*s].registered).collect::<Vec<_>>() {
        maker.equations(signal, &usable);
    }
    if maker.chance.coin() {
        maker.chance.shuffle(&mut maker.draft.statements);
    }
    maker.draft
}

fn spelled(draft: &Draft) -> Words {
    let mut all = vec!["MODULE".to_string(), draft.title.clone(), ";".to_string()];
    if !draft.constants.is_empty() {
        all.push("CONST".to_string());
    }
    for (name, _, right) in &draft.constants {
        all.extend([name.clone(), ":=".to_string()]);
        all.extend(right.clone());
        all.push(";".to_string());
    }
    for (class, word) in [(0, "IN"), (1, "OUT"), (2, "VAR")] {
        let lists: Vec<_> = draft.lists.iter().filter(|l| l.0 == class).collect();
        if !lists.is_empty() {
            all.push(word.to_string());
        }
        for (_, names, length) in lists {
            all.extend(words(&names.join(" , ")));
            all.push(":".to_string());
            if let Some(length) = length {
                all.push("[".to_string());
                all.extend(length.clone());
                all.push("]".to_string());
            }
            all.extend(words("BIT ;"));
        }
    }
    all.push("BEGIN".to_string());
    for (i, statement) in draft.statements.iter().enumerate() {
        if i > 0 {
            all.push(";".to_string());
        }
        all.extend(statement.clone());
    }
    all.extend(["END".to_string(), draft.title.clone(), ".".to_string()]);
    all
}

/// Words to bytes: blanks where two words would run together, sometimes elsewhere, and comments.
fn joined(chance: &mut Chance, words: &[String]) -> Vec<u8> {
    let tight = chance.once_in(4);
    let comments = chance.once_in(6);
    let mut text = String::new();
    for word in words {
        let last = text.chars().last().unwrap_or(' ');
        let first = word.chars().next().unwrap_or(' ');
        let wordy = |c: char| c.is_ascii_alphanumeric() || c == '\'';
        let apart = wordy(last) && wordy(first)
            || matches!(last, ':' | '.') && matches!(first, ':' | '=' | '.')
            || last == '(' && first == '*';
        if comments && chance.once_in(12) {
            text += chance.word(&["(**)", "(* a (* comment *)", "(*)*)", "(***)", "(*\n;*)", " (* ' *) "]);
        } else if apart || !tight && chance.below(3) > 0 {
            text += chance.word(&[" ", " ", " ", " ", "\n", "\r\n", "\t", "  "]);
        }
        text += word;
    }
    if chance.coin() {
        text += "\n";
    }
    text.into_bytes()
}

fn word_from(chance: &mut Chance, all: &[String]) -> String {
    match chance.below(6) {
        0 => chance.pick(&RESERVED).to_string(),
        1 => chance
            .word(&[":=", "::", "..", ";", ":", ",", ".", "(", ")", "[", "]", "+", "-", "*", "~", "^", "'0", "'1", "'"])
            .to_string(),
        2 => chance.word(&["0", "1", "2", "7", "12", "13", "23", "24", "32", "33", "65535", "65536", "99999"]).to_string(),
        3 => chance.pick(&NAMES).to_string(),
        _ => chance.pick(all).clone(),
    }
}

/// Changes some words.
fn change_words(chance: &mut Chance, all: &mut Words) {
    for _ in 0..chance.within(1, 2) {
        let at = chance.below(all.len());
        match chance.below(7) {
            0 => {
                all.remove(at);
            }
            1 => all.insert(at, all[at].clone()),
            2 => {
                let other = chance.below(all.len());
                all.swap(at, other);
            }
            3 => {
                let word = word_from(chance, all);
                all.insert(at, word);
            }
            4 => {
                let word = word_from(chance, all);
                all[at] = word;
            }
            _ => {
                // A number becomes another one, a name another name of the text.
                let wanted = |w: &String, digit: bool| w.starts_with(|c: char| if digit { c.is_ascii_digit() } else { c.is_ascii_lowercase() });
                let digit = chance.coin();
                let places: Vec<usize> = (0..all.len()).filter(|i| wanted(&all[*i], digit)).collect();
                if !places.is_empty() {
                    let at = *chance.pick(&places);
                    all[at] = if digit {
                        let value: i64 = all[at].parse().unwrap_or(1);
                        match chance.below(6) {
                            0 => (value + 1).to_string(),
                            1 => (value - 1).max(0).to_string(),
                            2 => (65_533 + value).to_string(),
                            3 => (value * 11).to_string(),
                            4 => "0".to_string(),
                            _ => chance.below(40).to_string(),
                        }
                    } else {
                        all[*chance.pick(&places)].clone()
                    };
                }
            }
        }
        if all.is_empty() {
            return;
        }
    }
}

fn change_bytes(chance: &mut Chance, text: &mut Vec<u8>) {
    for _ in 0..chance.within(1, 2) {
        let at = chance.below(text.len());
        match chance.below(5) {
            0 => text.truncate(at),
            1 => {
                text.remove(at);
            }
            2 => text.insert(at, chance.below(256) as u8),
            3 => text[at] = *chance.pick(b" ';:.,()[]*+-~^=0159azAZ/#<|\t"),
            _ => text[at] ^= 1 << chance.below(8),
        }
        if text.is_empty() {
            return;
        }
    }
}

/// Puts one fault of a chosen kind into a sound module.
fn spoil(chance: &mut Chance, draft: &mut Draft) {
    let signals = draft.signals.clone();
    let any = chance.pick(&signals).clone();
    let bit = signals.iter().find(|s| s.length.is_none()).cloned();
    let array = signals.iter().rev().find(|s| s.length.is_some()).cloned();
    let element = |chance: &mut Chance, s: &Signal| match s.length {
        Some(n) => format!("{} . {}", s.name, chance.below(n)),
        None => s.name.clone(),
    };
    let any_element = element(chance, &any);
    let constant = draft.constants.first().map(|c| c.0.clone()).unwrap_or("unknown".to_string());
    let place = chance.below(draft.statements.len() + 1);
    let insert = |draft: &mut Draft, statement: String| draft.statements.insert(place.min(draft.statements.len()), words(&statement));
    let bad_number = chance
        .word(&["65535 + 1", "0 - 65535 - 1", "300 * 300", "5 DIV 0", "5 MOD ( 0 - 2 )", "3 ^ 2", "2 ^ 16", "2 ^ ( 0 - 1 )", "70000"])
        .to_string();
    let wrong_number = chance
        .word(&["'0", "unknown", "~ 1", "~ '1", "MUX ( '0 : '1 , '0 )", "REG ( '1 )", "REG ( '1 , 5 )", "MUX ( unknown : '1 , '0 )"])
        .to_string();
    match chance.below(30) {
        0 => insert(draft, format!("FOR i := 0 .. {bad_number} DO END")),
        1 => insert(draft, format!("{any_element} :: {bad_number}")),
        2 => draft.constants.push(("BAD".to_string(), 0, words(&bad_number))),
        3 => {
            if let Some(array) = array {
                insert(draft, format!("{} [ {bad_number} ] := '0", array.name));
            }
        }
        4 => insert(draft, format!("FOR i := {wrong_number} .. 2 DO END")),
        5 => draft.constants.insert(0, ("BAD".to_string(), 0, words(&wrong_number))),
        6 => insert(draft, format!("{any_element} := {}", chance.word(&["5", "unknown", "'0 DIV '1", "'1 MOD 2", "'1 ^ '0", "~ 0", "MUX ( 1 : '0 , '0 )"]))),
        7 => insert(draft, format!("{any_element} := {constant}")),
        8 => insert(draft, format!("{constant} := '0")),
        9 => insert(draft, format!("FOR k := 1 .. 2 DO {any_element} := k END")),
        10 => {
            let class = chance.below(3);
            let length = chance.coin().then(|| words(chance.word(&["1", "2", "unknown", "33"])));
            draft.lists.push((class, vec![chance.pick(&[any.name.as_str(), "fresh", constant.as_str()]).to_string()], length));
        }
        11 => {
            let class = chance.below(3);
            let length = chance.word(&["0", "33", "0 - 1", "2 ^ 6", "( 40 )"]).to_string();
            draft.lists.push((class, vec!["fresh".to_string()], Some(words(&length))));
        }
        12 => {
            if let Some(array) = array {
                let n = array.length.unwrap_or(1);
                let at = chance.pick(&[format!(". {n}"), format!("[ {n} ]"), "[ 0 - 1 ]".to_string(), ". 65535".to_string(), String::new()]).clone();
                insert(draft, format!("{} {at} := '1", array.name));
            }
        }
        13 => {
            if let (Some(bit), Some(array)) = (bit, array) {
                let text = match chance.below(4) {
                    0 => format!("{} . 0 := '1", bit.name),
                    1 => format!("{} := {}", bit.name, array.name),
                    2 => format!("{} :: [ 5 ]", bit.name),
                    _ => format!("{} :: 5", array.name),
                };
                insert(draft, text);
            }
        }
        14 | 15 => insert(draft, format!("{any_element} := '1")),
        16 | 17 => {
            if place < draft.statements.len() {
                draft.statements.remove(place);
            }
        }
        18..=20 => {
            // A register where none may stand.
            let marks: Vec<usize> =
                (0..draft.statements.len()).filter(|s| draft.statements[*s].contains(&":=".to_string())).collect();
            if let Some(s) = (!marks.is_empty()).then(|| *chance.pick(&marks)) {
                let form = chance.word(&["+ REG ( '1 )", "* ~ REG ( '0 , '1 )", "- '0 * REG ( '1 )"]);
                let statement = &mut draft.statements[s];
                let end = if statement.last().is_some_and(|w| w == "END") { statement.len() - 1 } else { statement.len() };
                let end = if statement[end - 1] == ";" { end - 1 } else { end };
                statement.splice(end..end, words(form));
            }
        }
        21..=24 => {
            // An equation that names itself or another at random.
            let marks: Vec<usize> = (0..draft.statements.len())
                .filter(|s| draft.statements[*s].get(1).is_some_and(|w| w == ":="))
                .collect();
            if let Some(s) = (!marks.is_empty()).then(|| *chance.pick(&marks)) {
                let other = if chance.coin() { draft.statements[s][0].clone() } else { any_element };
                draft.statements[s].extend(words(&format!("* {other}")));
            }
        }
        25..=26 => {
            let pin = chance.word(&["1", "2", "12", "13", "14", "19", "23", "24", "0 - 1", "5 + 6"]).to_string();
            insert(draft, format!("{any_element} :: {pin}"));
        }
        27 => insert(draft, format!("{} :: [ 14 ; 15 ]", any.name)),
        28 => {
            let rounds = chance.within(4_050, 4_100);
            insert(draft, format!("FOR i := 1 .. {rounds} DO END"));
        }
        _ => {
            let rounds = chance.within(1_900, 2_100);
            insert(draft, format!("FOR k := 1 .. {rounds} DO {any_element} := {any_element} END"));
        }
    }
}

/// A wide equation: many pins, many primes.
fn wide_text(chance: &mut Chance) -> String {
    let inputs = chance.within(4, 13).min(11);
    let pin = chance.within(14, 23);
    let names: Vec<String> = (0..inputs).map(super::fixed::input_name).collect();
    let mut right = String::new();
    match chance.below(3) {
        0 => right = names.join(chance.word(&["+", "*", "-"])),
        1 => {
            for (i, name) in names.iter().enumerate() {
                if i > 0 {
                    right += chance.word(&["+", "*", "-"]);
                }
                right += chance.word(&["", "", "~"]);
                right += name;
            }
        }
        _ => {
            for product in 0..chance.within(2, 9) {
                if product > 0 {
                    right += " + ";
                }
                let factors = chance.within(1, 5);
                for factor in 0..factors {
                    right += if factor > 0 { "*" } else { "" };
                    right += chance.word(&["", "~"]);
                    right += chance.pick(&names).as_str();
                }
            }
        }
    }
    let right = match chance.below(6) {
        0 => format!("REG({right})"),
        1 => format!("~REG({right})"),
        2 => format!("REG(a, {right})"),
        3 => format!("~REG({right}, ~b)"),
        _ => right,
    };
    wide(inputs, pin, &right)
}

/// Nesting near its limit, of mixed kinds.
fn deep_text(chance: &mut Chance) -> String {
    let depth = chance.within(30, 35);
    let mut open = String::new();
    let mut close = String::new();
    let mut counted = 0;
    while counted < depth {
        match chance.below(5) {
            0 => open += "~",
            1 => {
                open += "(";
                close.insert(0, ')');
            }
            2 => {
                open += "MUX(a: b, ";
                close.insert(0, ')');
            }
            3 => {
                open += "(a*";
                close.insert(0, ')');
            }
            _ => {
                open += "(~";
                close.insert_str(0, ")");
                counted += 1;
            }
        }
        counted += 1;
    }
    wide(2, 20, &format!("{open}b{close}"))
}

/// Some count near its limit.
fn limit_text(chance: &mut Chance) -> String {
    match chance.below(6) {
        0 => {
            let count = chance.within(30, 34);
            let list: String = (0..count).map(|i| format!("c{i} := {}; ", chance.below(70_000))).collect();
            format!("MODULE T; CONST {list}END T.")
        }
        1 => {
            // Elements in lists of random lengths.
            let mut lists = String::new();
            let mut elements = 0;
            let target = chance.within(58, 70);
            while elements < target {
                let length = chance.within(1, 32).min(target - elements);
                let names = chance.within(1, 2);
                let list: Vec<String> = (0..names).map(|i| format!("v{elements}x{i}")).collect();
                lists += &format!("{}: [{length}] BIT; ", list.join(", "));
                elements += length * names;
            }
            format!("MODULE T; {} {lists}END T.", chance.word(&["IN", "OUT", "VAR"]))
        }
        2 => {
            let length = chance.within(14, 18);
            let name = format!("n{}{}", "x".repeat(length - 1), chance.word(&["", "'"]));
            format!("MODULE T; IN {name}: BIT; BEGIN {name} :: 5 END T.")
        }
        3 => {
            // Rounds of two levels, with statements in both.
            let (outer, inner) = (chance.within(60, 66), chance.within(20, 64));
            let more = chance.word(&["", "y := a", "y := a; y := ~a", ";;", "a :: 2"]);
            wide(1, 15, &format!("a; FOR k := 1 .. {outer} DO {more}; FOR j := {} .. {} DO {more} END END", inner, 2 * inner))
        }
        4 => {
            // Nodes of one long equation, the last of several kinds.
            let operators = chance.within(1_015, 1_025);
            let chain = format!("a{}", chance.word(&["+b", "-a", "*b"]).repeat(operators));
            let last = chance.word(&["", " + ~a", " + '1", " - (b)", " * MUX(a: b, '0)", " + REG(a, b)", " * ~~~b"]);
            wide(2, 16, &format!("{chain}{last}"))
        }
        _ => {
            let depth = chance.within(29, 34);
            let rounds = "FOR k := 0 .. 0 DO ".repeat(depth);
            wide(2, 17, &format!("a; {rounds} {} {}", chance.word(&["", "y := (a)", "b :: [5]", "q := ~a"]), "END ".repeat(depth)))
        }
    }
}

/// A text, put to every verb that takes texts: once to each, and an accepted one to one more question.
pub fn records(chance: &mut Chance) -> Vec<Record> {
    let text = text(chance);
    let design = design_of(&text).ok();
    let mut calls = vec!["compile".to_string(), "fit".to_string(), question(chance, design.as_ref())];
    if design.is_some() {
        calls.push(question(chance, design.as_ref()));
    }
    calls.into_iter().map(|call| Record::new(&call, text.clone())).collect()
}

/// A question about a design, or about a text that has none: mostly about an OUT pin and a product
/// that there is, many of them implicants; sometimes about other pins, and numbers on and past the edge.
pub fn question(chance: &mut Chance, design: Option<&Design>) -> String {
    let output = design.filter(|d| !d.outputs.is_empty()).map(|d| chance.pick(&d.outputs));
    let (pin, products) = match output {
        Some(output) => (output.pin, power_of_three(output.pins.len())),
        None => (chance.within(14, 23), 9),
    };
    // What a number held in too few bits would be taken for.
    let beyond = |chance: &mut Chance, small: usize| match chance.below(6) {
        0 => (small as u128 + (1 << 64)).to_string(),
        1 => (small as u128 + (1 << 32)).to_string(),
        2 => (small as u128 + (1 << 16)).to_string(),
        3 => u64::MAX.to_string(),
        4 => format!("{}{:020}", chance.within(1, 999), chance.next()),
        _ => format!("{}{small}", "9".repeat(chance.within(20, 60))),
    };
    let asked_pin = match chance.below(16) {
        0 => chance.word(&["0", "1", "2", "12", "13", "24", "25"]).to_string(),
        1 => chance.below(30).to_string(),
        2 => match chance.coin() {
            true => beyond(chance, pin),
            false => (pin + 256 * chance.within(1, 300)).to_string(),
        },
        _ => pin.to_string(),
    };
    let number = match chance.below(16) {
        0 => (products - 1).to_string(),
        1 => products.to_string(),
        2 => (products + chance.within(1, 3)).to_string(),
        3 => {
            let small = chance.below(products);
            beyond(chance, small)
        }
        4..=9 => {
            let wanted = if chance.coin() { Verdict::Prime } else { Verdict::Implicant };
            let all = output.map(verdicts_on).unwrap_or_default();
            let fitting: Vec<usize> = (0..all.len()).filter(|n| all[*n] == wanted).collect();
            if fitting.is_empty() { chance.below(products) } else { *chance.pick(&fitting) }.to_string()
        }
        _ => chance.below(products).to_string(),
    };
    format!("ask {asked_pin} {number}")
}

pub fn text(chance: &mut Chance) -> Vec<u8> {
    if chance.once_in(250) {
        // Blanks up to the longest text, or past it.
        let mut text = sound(chance);
        text.resize(chance.within(32_766, 32_772), b' ');
        return text;
    }
    match chance.below(100) {
        0..=9 => return wide_text(chance).into_bytes(),
        10..=11 => return deep_text(chance).into_bytes(),
        12..=14 => return limit_text(chance).into_bytes(),
        _ => {}
    }
    let mut parts = draft(chance);
    match chance.below(20) {
        0..=6 => {}
        7..=14 => {
            spoil(chance, &mut parts);
            while chance.once_in(4) {
                spoil(chance, &mut parts);
            }
        }
        15..=17 => {
            let mut all = spelled(&parts);
            change_words(chance, &mut all);
            return joined(chance, &all);
        }
        _ => {
            let mut text = sound(chance);
            change_bytes(chance, &mut text);
            return text;
        }
    }
    let all = spelled(&parts);
    joined(chance, &all)
}

/// A text that was not spoiled on purpose.
pub fn sound(chance: &mut Chance) -> Vec<u8> {
    let parts = draft(chance);
    let all = spelled(&parts);
    joined(chance, &all)
}
