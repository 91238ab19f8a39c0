//! The circuit that a text means: which equation each element has, what each OUT pin shows, and
//! the function behind each OUT over the pins it names.

use crate::device;
use crate::grammar::{self, Class};
use crate::unroll::{self, Element, Node, Unrolled};
use crate::words::{refuse, Judged};

pub const MOST_PINS: usize = 10;

/// How an OUT is made.
#[derive(Clone, Copy, Debug, PartialEq, Eq)]
pub enum Form {
    Combinational,
    /// The pin shows Q (REG) or its inverse (~REG).
    Registered { inverted: bool },
}

/// A text's elements after every judgement over all names.
pub struct Circuit {
    pub elements: Vec<Element>,
    pub nodes: Vec<Node>,
    /// For each element: elements met as combinational names are replaced, REG contents left out.
    reaches: Vec<u64>,
}

/// One OUT as the device will hold it: a truth table over named pins.
#[derive(Clone, Debug)]
pub struct Output {
    pub pin: usize,
    pub form: Form,
    /// Named pins, rising.
    pub pins: Vec<usize>,
    /// At setting s, bit i of s being what the i-th named pin shows: the value of the equation, or
    /// of what Q takes next.
    pub table: Vec<bool>,
}

/// Everything up to (not including) the judgement of single outputs.
pub fn circuit_of(text: &[u8]) -> Judged<Circuit> {
    let module = grammar::read_module(text)?;
    let Unrolled { elements, nodes } = unroll::unroll(&module)?;
    judge_assignments(&elements)?;
    judge_registers(&elements, &nodes)?;
    let mut circuit = Circuit { elements, nodes, reaches: Vec::new() };
    circuit.reaches = circuit.closure();
    for (i, element) in circuit.elements.iter().enumerate() {
        if circuit.reaches[i] >> i & 1 == 1 {
            return refuse(9, element.declared_at);
        }
    }
    judge_positions(&circuit.elements)?;
    Ok(circuit)
}

fn judge_assignments(elements: &[Element]) -> Judged<()> {
    for element in elements {
        let wanted = if element.class == Class::In { 0 } else { 1 };
        if element.assigned.len() != wanted {
            return refuse(7, element.declared_at);
        }
    }
    Ok(())
}

fn judge_registers(elements: &[Element], nodes: &[Node]) -> Judged<()> {
    for element in elements {
        let Some(&root) = element.assigned.first() else { continue };
        // The parts below which no REG may stand any more.
        let below = match (element.class, nodes[root]) {
            (Class::Out, Node::Reg(enable, data)) => [enable, Some(data)],
            (Class::Out, Node::Not(inner)) => match nodes[inner] {
                Node::Reg(enable, data) => [enable, Some(data)],
                _ => [Some(root), None],
            },
            _ => [Some(root), None],
        };
        for part in below.into_iter().flatten() {
            if nodes_below(nodes, part).iter().any(|n| matches!(nodes[*n], Node::Reg(..))) {
                return refuse(8, element.declared_at);
            }
        }
    }
    Ok(())
}

fn judge_positions(elements: &[Element]) -> Judged<()> {
    for (i, element) in elements.iter().enumerate() {
        let own = &element.numbers;
        let counted = match element.class {
            Class::Var => own.is_empty(),
            _ => own.len() == 1,
        };
        let allowed = own.iter().all(|n| match element.class {
            Class::In => (2..=11).contains(n) || *n == 13,
            Class::Out => (14..=23).contains(n),
            Class::Var => false,
        });
        let shared = elements
            .iter()
            .enumerate()
            .any(|(j, other)| j != i && other.numbers.iter().any(|n| own.contains(n)));
        if element.miscounted || !counted || !allowed || shared {
            return refuse(10, element.declared_at);
        }
    }
    Ok(())
}

/// A node and all below it.
fn nodes_below(nodes: &[Node], root: usize) -> Vec<usize> {
    let mut found = vec![root];
    let mut looked_at = 0;
    while looked_at < found.len() {
        match nodes[found[looked_at]] {
            Node::Element(_) | Node::Logic(_) => {}
            Node::Not(a) => found.push(a),
            Node::Or(a, b) | Node::Xor(a, b) | Node::And(a, b) => found.extend([a, b]),
            Node::Mux(a, b, c) => found.extend([a, b, c]),
            Node::Reg(None, d) => found.push(d),
            Node::Reg(Some(e), d) => found.extend([e, d]),
        }
        looked_at += 1;
    }
    found
}

impl Circuit {
    pub fn form(&self, element: usize) -> Form {
        let Some(&root) = self.elements[element].assigned.first() else { return Form::Combinational };
        match self.nodes[root] {
            Node::Reg(..) => Form::Registered { inverted: false },
            Node::Not(inner) if matches!(self.nodes[inner], Node::Reg(..)) => {
                Form::Registered { inverted: true }
            }
            _ => Form::Combinational,
        }
    }

    /// Enable and data of a registered element.
    pub fn register_parts(&self, element: usize) -> Option<(Option<usize>, usize)> {
        let root = *self.elements[element].assigned.first()?;
        let top = match self.nodes[root] {
            Node::Not(inner) => inner,
            _ => root,
        };
        match self.nodes[top] {
            Node::Reg(enable, data) => Some((enable, data)),
            _ => None,
        }
    }

    pub fn pin(&self, element: usize) -> usize {
        self.elements[element].numbers[0] as usize
    }

    /// An IN or a registered OUT: replacing stops here.
    fn is_leaf(&self, element: usize) -> bool {
        self.elements[element].class == Class::In || self.form(element) != Form::Combinational
    }

    fn named_below(&self, root: usize) -> u64 {
        let mut named = 0;
        for node in nodes_below(&self.nodes, root) {
            if let Node::Element(e) = self.nodes[node] {
                named |= 1 << e;
            }
        }
        named
    }

    /// Which elements each element meets, any number of replacements deep.
    fn closure(&self) -> Vec<u64> {
        let count = self.elements.len();
        let mut reaches: Vec<u64> = (0..count)
            .map(|e| match self.elements[e].assigned.first() {
                Some(&root) if !self.is_leaf(e) => self.named_below(root),
                _ => 0,
            })
            .collect();
        for through in 0..count {
            for e in 0..count {
                if reaches[e] >> through & 1 == 1 {
                    reaches[e] |= reaches[through];
                }
            }
        }
        reaches
    }

    /// Pins named by the nodes below a root once names are replaced.
    fn pins_below(&self, root: usize) -> u32 {
        let mut met = self.named_below(root);
        for e in 0..self.elements.len() {
            if met >> e & 1 == 1 {
                met |= self.reaches[e];
            }
        }
        let mut pins = 0;
        for e in 0..self.elements.len() {
            if met >> e & 1 == 1 && self.is_leaf(e) {
                pins |= 1 << self.pin(e);
            }
        }
        pins
    }

    /// OUT elements in the order of declaration.
    pub fn outs(&self) -> Vec<usize> {
        (0..self.elements.len()).filter(|e| self.elements[*e].class == Class::Out).collect()
    }

    /// The truth table of one OUT; refused 11 if it names too many pins.
    pub fn output(&self, element: usize) -> Judged<Output> {
        let own_pin = self.pin(element);
        let form = self.form(element);
        let (enable, data) = match self.register_parts(element) {
            Some(parts) => parts,
            None => (None, self.elements[element].assigned[0]),
        };
        let mut named = self.pins_below(data);
        if let Some(enable) = enable {
            named |= self.pins_below(enable) | 1 << own_pin;
        }
        let pins: Vec<usize> = (1..=device::PINS).filter(|p| named >> p & 1 == 1).collect();
        if pins.len() > MOST_PINS {
            return refuse(11, self.elements[element].declared_at);
        }
        let mut valuer = Valuer { circuit: self, pins: &pins, known: vec![None; self.elements.len()] };
        let data = valuer.below(data);
        let next = match enable {
            None => data,
            Some(enable) => {
                let enable = valuer.below(enable);
                let mut kept = valuer.pin(own_pin);
                if form == (Form::Registered { inverted: true }) {
                    kept = kept.map(|bits| !bits);
                }
                select(&enable, &kept, &data)
            }
        };
        let table = (0..1usize << pins.len()).map(|s| next[s / 64] >> (s % 64) & 1 == 1).collect();
        Ok(Output { pin: own_pin, form, pins, table })
    }
}

/// Values at all settings of up to ten pins, one bit for each.
type Bits = [u64; 16];

fn select(chooser: &Bits, low: &Bits, high: &Bits) -> Bits {
    std::array::from_fn(|i| !chooser[i] & low[i] | chooser[i] & high[i])
}

/// Values equations at all settings of some pins; every name is valued once.
struct Valuer<'c> {
    circuit: &'c Circuit,
    pins: &'c [usize],
    known: Vec<Option<Bits>>,
}

impl Valuer<'_> {
    fn pin(&self, pin: usize) -> Bits {
        let mut bits = [0; 16];
        if let Some(i) = self.pins.iter().position(|p| *p == pin) {
            for s in 0..1024 {
                bits[s / 64] |= ((s >> i & 1) as u64) << (s % 64);
            }
        }
        bits
    }

    fn element(&mut self, element: usize) -> Bits {
        if let Some(bits) = self.known[element] {
            return bits;
        }
        let bits = if self.circuit.is_leaf(element) {
            self.pin(self.circuit.pin(element))
        } else {
            self.below(self.circuit.elements[element].assigned[0])
        };
        self.known[element] = Some(bits);
        bits
    }

    fn below(&mut self, root: usize) -> Bits {
        let mut part = nodes_below(&self.circuit.nodes, root);
        part.sort_unstable();
        let first = part[0];
        let mut values: Vec<Bits> = vec![[0; 16]; root - first + 1];
        for node in part {
            let at = |n: usize| values[n - first];
            let bits = match self.circuit.nodes[node] {
                Node::Element(e) => self.element(e),
                Node::Logic(value) => [if value { !0 } else { 0 }; 16],
                Node::Not(a) => at(a).map(|bits| !bits),
                Node::Or(a, b) => std::array::from_fn(|i| at(a)[i] | at(b)[i]),
                Node::Xor(a, b) => std::array::from_fn(|i| at(a)[i] ^ at(b)[i]),
                Node::And(a, b) => std::array::from_fn(|i| at(a)[i] & at(b)[i]),
                Node::Mux(s, a, b) => select(&at(s), &at(a), &at(b)),
                Node::Reg(..) => unreachable!("a register stands only at the top of an OUT"),
            };
            values[node - first] = bits;
        }
        values[root - first]
    }
}
