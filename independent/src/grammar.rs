//! From words to the tree of a module. Judges what can be judged without knowing any name:
//! the grammar (2), literals that are too large (3) and nesting (6), the first in the text.

use crate::words::{self, refuse, Judged, Kind, Word, LARGEST_LITERAL};
use std::collections::HashMap;

pub const DEEPEST: usize = 32;
pub const LONGEST_TEXT: usize = 32_768;

/// A name is held by its number in the order of first appearance.
pub type Name = usize;

#[derive(Clone, Copy, Debug, PartialEq, Eq)]
pub enum Operator {
    Plus,
    Minus,
    Times,
    Div,
    Mod,
    Power,
}

#[derive(Debug)]
pub enum Index {
    Literal { at: usize, value: i32 },
    Named { at: usize, name: Name, name_at: usize },
    Bracketed { at: usize, value: Box<Expression> },
}

impl Index {
    /// The `.` or the `[`.
    pub fn at(&self) -> usize {
        match self {
            Index::Literal { at, .. } | Index::Named { at, .. } | Index::Bracketed { at, .. } => *at,
        }
    }
}

#[derive(Debug)]
pub enum Expression {
    Literal { at: usize, value: i32 },
    Logic { at: usize, value: bool },
    Named { at: usize, name: Name, index: Option<Index> },
    Not { at: usize, inner: Box<Expression> },
    /// A level of operators that are applied one after the other from the left.
    Chain { first: Box<Expression>, rest: Vec<(Operator, usize, Expression)> },
    Mux { at: usize, parts: Box<[Expression; 3]> },
    Reg { at: usize, parts: Vec<Expression> },
}

#[derive(Debug)]
pub enum Position {
    One(Expression),
    List(Vec<Expression>),
}

#[derive(Debug)]
pub struct Target {
    pub at: usize,
    pub name: Name,
    pub index: Option<Index>,
}

#[derive(Debug)]
pub enum Statement {
    Assign { target: Target, value: Expression },
    Place { target: Target, position: Position },
    For { at: usize, name: Name, from: Expression, to: Expression, body: Vec<Statement> },
}

#[derive(Clone, Copy, Debug, PartialEq, Eq)]
pub enum Class {
    In,
    Out,
    Var,
}

#[derive(Debug)]
pub struct Length {
    pub first_word_at: usize,
    pub value: Expression,
}

#[derive(Debug)]
pub enum Declaration {
    Constant { at: usize, name: Name, value: Expression },
    Signals { class: Class, names: Vec<(usize, Name)>, length: Option<Length> },
}

#[derive(Debug)]
pub struct Module {
    pub declarations: Vec<Declaration>,
    pub statements: Vec<Statement>,
    /// How many different names the text spells.
    pub names: usize,
}

pub fn read_module(text: &[u8]) -> Judged<Module> {
    if text.len() > LONGEST_TEXT {
        return refuse(1, 0);
    }
    let mut reader =
        Reader { text, word: words::next(text, 0), open: 0, spelled: HashMap::new() };
    reader.module()
}

struct Reader<'t> {
    text: &'t [u8],
    /// The word not yet taken.
    word: Word,
    /// Open brackets, `~` and FOR.
    open: usize,
    spelled: HashMap<&'t [u8], Name>,
}

impl<'t> Reader<'t> {
    fn take(&mut self) -> Word {
        let taken = self.word;
        self.word = words::next(self.text, taken.end);
        taken
    }

    fn fault<T>(&self) -> Judged<T> {
        refuse(2, self.word.at)
    }

    fn sees(&self, sign: &'static str) -> bool {
        self.word.kind == Kind::Sign(sign)
    }

    fn sees_reserved(&self, reserved: &'static str) -> bool {
        self.word.kind == Kind::Reserved(reserved)
    }

    fn sign(&mut self, sign: &'static str) -> Judged<usize> {
        if self.sees(sign) { Ok(self.take().at) } else { self.fault() }
    }

    fn reserved(&mut self, reserved: &'static str) -> Judged<usize> {
        if self.sees_reserved(reserved) { Ok(self.take().at) } else { self.fault() }
    }

    fn name(&mut self) -> Judged<(usize, Name)> {
        if self.word.kind != Kind::Name {
            return self.fault();
        }
        let word = self.take();
        let next_number = self.spelled.len();
        let name = *self.spelled.entry(&self.text[word.at..word.end]).or_insert(next_number);
        Ok((word.at, name))
    }

    /// Takes the word that opens one more level.
    fn enter(&mut self) -> Judged<usize> {
        if self.open == DEEPEST {
            return refuse(6, self.word.at);
        }
        self.open += 1;
        Ok(self.take().at)
    }

    fn enter_sign(&mut self, sign: &'static str) -> Judged<usize> {
        if self.sees(sign) { self.enter() } else { self.fault() }
    }

    fn leave_sign(&mut self, sign: &'static str) -> Judged<()> {
        self.sign(sign)?;
        self.open -= 1;
        Ok(())
    }

    fn literal(&mut self, value: u32) -> Judged<i32> {
        if value > LARGEST_LITERAL {
            return refuse(3, self.word.at);
        }
        self.take();
        Ok(value as i32)
    }

    fn module(&mut self) -> Judged<Module> {
        self.reserved("MODULE")?;
        let (_, title) = self.name()?;
        self.sign(";")?;
        let mut declarations = Vec::new();
        if self.sees_reserved("CONST") {
            self.take();
            while self.word.kind == Kind::Name {
                let (at, name) = self.name()?;
                self.sign(":=")?;
                let value = self.expression()?;
                self.sign(";")?;
                declarations.push(Declaration::Constant { at, name, value });
            }
        }
        for (section, class) in [("IN", Class::In), ("OUT", Class::Out), ("VAR", Class::Var)] {
            if self.sees_reserved(section) {
                self.take();
                while self.word.kind == Kind::Name {
                    declarations.push(self.signals(class)?);
                }
            }
        }
        let mut statements = Vec::new();
        if self.sees_reserved("BEGIN") {
            self.take();
            statements = self.statements()?;
        }
        self.reserved("END")?;
        let closing_at = self.word.at;
        let (_, closing) = self.name()?;
        if closing != title {
            return refuse(2, closing_at);
        }
        self.sign(".")?;
        if self.word.kind != Kind::TextEnd {
            return self.fault();
        }
        Ok(Module { declarations, statements, names: self.spelled.len() })
    }

    fn signals(&mut self, class: Class) -> Judged<Declaration> {
        let mut names = vec![self.name()?];
        while self.sees(",") {
            self.take();
            names.push(self.name()?);
        }
        self.sign(":")?;
        let mut length = None;
        if self.sees("[") {
            self.enter()?;
            let first_word_at = self.word.at;
            let value = self.expression()?;
            self.leave_sign("]")?;
            length = Some(Length { first_word_at, value });
        }
        self.reserved("BIT")?;
        self.sign(";")?;
        Ok(Declaration::Signals { class, names, length })
    }

    fn statements(&mut self) -> Judged<Vec<Statement>> {
        let mut list = Vec::new();
        loop {
            if self.word.kind == Kind::Name {
                list.push(self.simple_statement()?);
            } else if self.sees_reserved("FOR") {
                list.push(self.for_statement()?);
            }
            if !self.sees(";") {
                return Ok(list);
            }
            self.take();
        }
    }

    fn simple_statement(&mut self) -> Judged<Statement> {
        let (at, name) = self.name()?;
        let index = self.index()?;
        let target = Target { at, name, index };
        if self.sees(":=") {
            self.take();
            let value = self.expression()?;
            return Ok(Statement::Assign { target, value });
        }
        self.sign("::")?;
        if !self.sees("[") {
            let one = self.expression()?;
            return Ok(Statement::Place { target, position: Position::One(one) });
        }
        self.enter()?;
        let mut list = vec![self.expression()?];
        while self.sees(";") {
            self.take();
            list.push(self.expression()?);
        }
        self.leave_sign("]")?;
        Ok(Statement::Place { target, position: Position::List(list) })
    }

    fn for_statement(&mut self) -> Judged<Statement> {
        let at = self.enter()?;
        let (_, name) = self.name()?;
        self.sign(":=")?;
        let from = self.expression()?;
        self.sign("..")?;
        let to = self.expression()?;
        self.reserved("DO")?;
        let body = self.statements()?;
        self.reserved("END")?;
        self.open -= 1;
        Ok(Statement::For { at, name, from, to, body })
    }

    /// An index, if one follows.
    fn index(&mut self) -> Judged<Option<Index>> {
        if self.sees(".") {
            let at = self.take().at;
            return match self.word.kind {
                Kind::Number(value) => Ok(Some(Index::Literal { at, value: self.literal(value)? })),
                _ => {
                    let (name_at, name) = self.name()?;
                    Ok(Some(Index::Named { at, name, name_at }))
                }
            };
        }
        if self.sees("[") {
            let at = self.enter()?;
            let value = Box::new(self.expression()?);
            self.leave_sign("]")?;
            return Ok(Some(Index::Bracketed { at, value }));
        }
        Ok(None)
    }

    fn expression(&mut self) -> Judged<Expression> {
        let first = self.term()?;
        let mut rest = Vec::new();
        loop {
            let operator = match self.word.kind {
                Kind::Sign("+") => Operator::Plus,
                Kind::Sign("-") => Operator::Minus,
                _ => break,
            };
            let at = self.take().at;
            rest.push((operator, at, self.term()?));
        }
        Ok(chain(first, rest))
    }

    fn term(&mut self) -> Judged<Expression> {
        let first = self.factor()?;
        let mut rest = Vec::new();
        loop {
            let operator = match self.word.kind {
                Kind::Sign("*") => Operator::Times,
                Kind::Sign("^") => Operator::Power,
                Kind::Reserved("DIV") => Operator::Div,
                Kind::Reserved("MOD") => Operator::Mod,
                _ => break,
            };
            let at = self.take().at;
            rest.push((operator, at, self.factor()?));
        }
        Ok(chain(first, rest))
    }

    fn factor(&mut self) -> Judged<Expression> {
        let at = self.word.at;
        match self.word.kind {
            Kind::Number(value) => Ok(Expression::Literal { at, value: self.literal(value)? }),
            Kind::Logic(value) => {
                self.take();
                Ok(Expression::Logic { at, value })
            }
            Kind::Name => {
                let (at, name) = self.name()?;
                let index = self.index()?;
                Ok(Expression::Named { at, name, index })
            }
            Kind::Sign("~") => {
                self.enter()?;
                let inner = Box::new(self.factor()?);
                self.open -= 1;
                Ok(Expression::Not { at, inner })
            }
            Kind::Sign("(") => {
                self.enter()?;
                let inner = self.expression()?;
                self.leave_sign(")")?;
                Ok(inner)
            }
            Kind::Reserved("MUX") => {
                self.take();
                self.enter_sign("(")?;
                let select = self.expression()?;
                self.sign(":")?;
                let low = self.expression()?;
                self.sign(",")?;
                let high = self.expression()?;
                self.leave_sign(")")?;
                Ok(Expression::Mux { at, parts: Box::new([select, low, high]) })
            }
            Kind::Reserved("REG") => {
                self.take();
                self.enter_sign("(")?;
                let mut parts = vec![self.expression()?];
                if self.sees(",") {
                    self.take();
                    parts.push(self.expression()?);
                }
                self.leave_sign(")")?;
                Ok(Expression::Reg { at, parts })
            }
            _ => self.fault(),
        }
    }
}

fn chain(first: Expression, rest: Vec<(Operator, usize, Expression)>) -> Expression {
    if rest.is_empty() {
        first
    } else {
        Expression::Chain { first: Box::new(first), rest }
    }
}
