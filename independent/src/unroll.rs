//! Declarations, then the statements round by round: names are looked up, numbers valued, and
//! every right side becomes a run of nodes, operands in front of what joins them.

use crate::grammar::*;
use crate::words::{refuse, Judged};

pub const MOST_CONSTANTS: usize = 32;
pub const MOST_ELEMENTS: usize = 64;
pub const MOST_STEPS: usize = 4_096;
pub const MOST_NODES: usize = 2_048;
const FARTHEST: i64 = 65_535;

/// A node of an equation; the numbers inside are those of other nodes, all smaller than its own.
#[derive(Clone, Copy, Debug, PartialEq, Eq)]
pub enum Node {
    Element(usize),
    Logic(bool),
    Not(usize),
    Or(usize, usize),
    Xor(usize, usize),
    And(usize, usize),
    Mux(usize, usize, usize),
    /// Enable, if the text gives one, and data.
    Reg(Option<usize>, usize),
}

/// One element of a declared signal: a BIT is its own only element.
#[derive(Clone, Debug)]
pub struct Element {
    pub class: Class,
    /// Byte of the name in its declaration.
    pub declared_at: usize,
    /// The last node of each right side assigned to it.
    pub assigned: Vec<usize>,
    /// Pin numbers given by statements of the right count.
    pub numbers: Vec<i32>,
    /// A position statement did not have one number per element.
    pub miscounted: bool,
}

#[derive(Debug, Default)]
pub struct Unrolled {
    pub elements: Vec<Element>,
    pub nodes: Vec<Node>,
}

#[derive(Clone, Copy)]
struct Signal {
    first: usize,
    /// None for a BIT.
    length: Option<usize>,
}

#[derive(Clone, Copy)]
enum Meaning {
    Number(i32),
    Signal(Signal),
}

struct Unroller {
    /// What each name means at this point of the text.
    meanings: Vec<Option<Meaning>>,
    constants: usize,
    steps: usize,
    done: Unrolled,
}

pub fn unroll(module: &Module) -> Judged<Unrolled> {
    let mut unroller = Unroller {
        meanings: vec![None; module.names],
        constants: 0,
        steps: 0,
        done: Unrolled::default(),
    };
    for declaration in &module.declarations {
        unroller.declare(declaration)?;
    }
    unroller.run(&module.statements)?;
    Ok(unroller.done)
}

impl Unroller {
    fn declare(&mut self, declaration: &Declaration) -> Judged<()> {
        match declaration {
            Declaration::Constant { at, name, value } => {
                if self.meanings[*name].is_some() {
                    return refuse(4, *at);
                }
                if self.constants == MOST_CONSTANTS {
                    return refuse(6, *at);
                }
                self.constants += 1;
                let value = self.number(value)?;
                self.meanings[*name] = Some(Meaning::Number(value));
            }
            Declaration::Signals { class, names, length } => {
                for (i, (at, name)) in names.iter().enumerate() {
                    let before = names[..i].iter().any(|(_, other)| other == name);
                    if before || self.meanings[*name].is_some() {
                        return refuse(4, *at);
                    }
                }
                let mut count = None;
                if let Some(length) = length {
                    let value = self.number(&length.value)?;
                    if !(1..=32).contains(&value) {
                        return refuse(5, length.first_word_at);
                    }
                    count = Some(value as usize);
                }
                for (at, name) in names {
                    let first = self.done.elements.len();
                    let added = count.unwrap_or(1);
                    if first + added > MOST_ELEMENTS {
                        return refuse(6, *at);
                    }
                    for _ in 0..added {
                        self.done.elements.push(Element {
                            class: *class,
                            declared_at: *at,
                            assigned: Vec::new(),
                            numbers: Vec::new(),
                            miscounted: false,
                        });
                    }
                    self.meanings[*name] = Some(Meaning::Signal(Signal { first, length: count }));
                }
            }
        }
        Ok(())
    }

    fn run(&mut self, statements: &[Statement]) -> Judged<()> {
        for statement in statements {
            match statement {
                Statement::Assign { target, value } => {
                    self.step(target.at)?;
                    let signal = self.target(target)?;
                    let element = self.element(target.at, signal, &target.index)?;
                    let root = self.signal(value, true)?;
                    self.done.elements[element].assigned.push(root);
                }
                Statement::Place { target, position } => {
                    self.step(target.at)?;
                    self.place(target, position)?;
                }
                Statement::For { at, name, from, to, body } => {
                    let from = self.number(from)?;
                    let to = self.number(to)?;
                    let outer = self.meanings[*name];
                    for round in from..=to {
                        self.step(*at)?;
                        self.meanings[*name] = Some(Meaning::Number(round));
                        self.run(body)?;
                    }
                    self.meanings[*name] = outer;
                }
            }
        }
        Ok(())
    }

    /// Counts a round or a simple statement.
    fn step(&mut self, at: usize) -> Judged<()> {
        if self.steps == MOST_STEPS {
            return refuse(6, at);
        }
        self.steps += 1;
        Ok(())
    }

    fn target(&self, target: &Target) -> Judged<Signal> {
        match self.meanings[target.name] {
            Some(Meaning::Signal(signal)) => Ok(signal),
            _ => refuse(4, target.at),
        }
    }

    fn place(&mut self, target: &Target, position: &Position) -> Judged<()> {
        let signal = self.target(target)?;
        let whole = target.index.is_none() && signal.length.is_some();
        let (first, count) = if whole {
            (signal.first, signal.length.unwrap_or(1))
        } else {
            (self.element(target.at, signal, &target.index)?, 1)
        };
        match position {
            Position::One(number) => {
                let number = self.number(number)?;
                if whole {
                    self.miscount(first, count);
                } else {
                    self.done.elements[first].numbers.push(number);
                }
            }
            Position::List(list) => {
                let mut numbers = Vec::new();
                for number in list {
                    numbers.push(self.number(number)?);
                }
                if whole && numbers.len() == count {
                    for (i, number) in numbers.into_iter().enumerate() {
                        self.done.elements[first + i].numbers.push(number);
                    }
                } else {
                    self.miscount(first, count);
                }
            }
        }
        Ok(())
    }

    fn miscount(&mut self, first: usize, count: usize) {
        for element in &mut self.done.elements[first..first + count] {
            element.miscounted = true;
        }
    }

    /// The element that a signal's name with or without index speaks of.
    fn element(&mut self, name_at: usize, signal: Signal, index: &Option<Index>) -> Judged<usize> {
        match (signal.length, index) {
            (None, None) => Ok(signal.first),
            (None, Some(index)) => refuse(5, index.at()),
            (Some(_), None) => refuse(5, name_at),
            (Some(length), Some(index)) => {
                let value = match index {
                    Index::Literal { value, .. } => *value,
                    Index::Named { name, name_at, .. } => match self.meanings[*name] {
                        Some(Meaning::Number(value)) => value,
                        _ => return refuse(4, *name_at),
                    },
                    Index::Bracketed { value, .. } => self.number(value)?,
                };
                if value < 0 || value as usize >= length {
                    return refuse(5, index.at());
                }
                Ok(signal.first + value as usize)
            }
        }
    }

    /// The value of an expression where a number is wanted.
    fn number(&mut self, expression: &Expression) -> Judged<i32> {
        match expression {
            Expression::Literal { value, .. } => Ok(*value),
            Expression::Logic { at, .. } => refuse(4, *at),
            Expression::Named { at, name, index } => match (self.meanings[*name], index) {
                (Some(Meaning::Number(value)), None) => Ok(value),
                (Some(Meaning::Number(_)), Some(index)) => refuse(5, index.at()),
                _ => refuse(4, *at),
            },
            Expression::Not { at, inner } => {
                self.number(inner)?;
                refuse(4, *at)
            }
            Expression::Chain { first, rest } => {
                let mut value = self.number(first)?;
                for (operator, at, operand) in rest {
                    let operand = self.number(operand)?;
                    match apply(*operator, value as i64, operand as i64) {
                        Some(result) => value = result as i32,
                        None => return refuse(3, *at),
                    }
                }
                Ok(value)
            }
            Expression::Mux { at, parts } => {
                for part in parts.iter() {
                    self.signal(part, false)?;
                }
                refuse(4, *at)
            }
            Expression::Reg { at, parts } => {
                for part in parts {
                    self.signal(part, false)?;
                }
                refuse(4, *at)
            }
        }
    }

    /// The node of an expression where a signal is wanted. Where nothing is kept (a part of a MUX
    /// or REG standing among numbers) the node's number means nothing.
    fn signal(&mut self, expression: &Expression, keep: bool) -> Judged<usize> {
        match expression {
            Expression::Literal { at, .. } => refuse(4, *at),
            Expression::Logic { at, value } => self.node(*at, Node::Logic(*value), keep),
            Expression::Named { at, name, index } => {
                let Some(Meaning::Signal(signal)) = self.meanings[*name] else {
                    return refuse(4, *at);
                };
                let element = self.element(*at, signal, index)?;
                self.node(*at, Node::Element(element), keep)
            }
            Expression::Not { at, inner } => {
                let inner = self.signal(inner, keep)?;
                self.node(*at, Node::Not(inner), keep)
            }
            Expression::Chain { first, rest } => {
                let mut left = self.signal(first, keep)?;
                for (operator, at, operand) in rest {
                    let right = self.signal(operand, keep)?;
                    let node = match operator {
                        Operator::Plus => Node::Or(left, right),
                        Operator::Minus => Node::Xor(left, right),
                        Operator::Times => Node::And(left, right),
                        Operator::Div | Operator::Mod | Operator::Power => return refuse(4, *at),
                    };
                    left = self.node(*at, node, keep)?;
                }
                Ok(left)
            }
            Expression::Mux { at, parts } => {
                let select = self.signal(&parts[0], keep)?;
                let low = self.signal(&parts[1], keep)?;
                let high = self.signal(&parts[2], keep)?;
                self.node(*at, Node::Mux(select, low, high), keep)
            }
            Expression::Reg { at, parts } => {
                let first = self.signal(&parts[0], keep)?;
                let node = match parts.get(1) {
                    None => Node::Reg(None, first),
                    Some(data) => Node::Reg(Some(first), self.signal(data, keep)?),
                };
                self.node(*at, node, keep)
            }
        }
    }

    fn node(&mut self, at: usize, node: Node, keep: bool) -> Judged<usize> {
        if !keep {
            return Ok(0);
        }
        if self.done.nodes.len() == MOST_NODES {
            return refuse(6, at);
        }
        self.done.nodes.push(node);
        Ok(self.done.nodes.len() - 1)
    }
}

/// A result of two numbers, if the rules of numbers allow one.
fn apply(operator: Operator, left: i64, right: i64) -> Option<i64> {
    let result = match operator {
        Operator::Plus => left + right,
        Operator::Minus => left - right,
        Operator::Times => left * right,
        Operator::Div if right > 0 => left.div_euclid(right),
        Operator::Mod if right > 0 => left.rem_euclid(right),
        Operator::Power if left == 2 && (0..=15).contains(&right) => 1 << right,
        _ => return None,
    };
    (-FARTHEST..=FARTHEST).contains(&result).then_some(result)
}
