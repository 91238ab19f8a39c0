//! The circuit run without tables, rows or fuses: the other side of every comparison with the model.

use crate::circuit::{Circuit, Form};
use crate::grammar::Class;
use crate::unroll::Node;

/// Follows the equations themselves from clock to clock, without any table, row or fuse.
pub struct Simulation<'c> {
    circuit: &'c Circuit,
    /// Q of each registered element, all false at power-up.
    pub held: Vec<bool>,
}

impl<'c> Simulation<'c> {
    pub fn new(circuit: &'c Circuit) -> Self {
        Simulation { circuit, held: vec![false; circuit.elements.len()] }
    }

    /// What each element shows while the IN pins have these values (indexed by pin).
    pub fn shown(&self, pins: &[bool]) -> Vec<bool> {
        let mut known = vec![None; self.circuit.elements.len()];
        (0..known.len()).map(|e| self.element(e, pins, &mut known)).collect()
    }

    pub fn clock(&mut self, pins: &[bool]) {
        let mut known = vec![None; self.circuit.elements.len()];
        let mut next = self.held.clone();
        for e in 0..next.len() {
            if let Some((enable, data)) = self.circuit.register_parts(e) {
                let taken = match enable {
                    Some(enable) => self.node(enable, pins, &mut known),
                    None => true,
                };
                if taken {
                    next[e] = self.node(data, pins, &mut known);
                }
            }
        }
        self.held = next;
    }

    fn element(&self, e: usize, pins: &[bool], known: &mut Vec<Option<bool>>) -> bool {
        if let Some(value) = known[e] {
            return value;
        }
        let value = match (self.circuit.elements[e].class, self.circuit.form(e)) {
            (Class::In, _) => pins[self.circuit.pin(e)],
            (_, Form::Registered { inverted }) => self.held[e] != inverted,
            _ => self.node(self.circuit.elements[e].assigned[0], pins, known),
        };
        known[e] = Some(value);
        value
    }

    fn node(&self, node: usize, pins: &[bool], known: &mut Vec<Option<bool>>) -> bool {
        match self.circuit.nodes[node] {
            Node::Element(e) => self.element(e, pins, known),
            Node::Logic(value) => value,
            Node::Not(a) => !self.node(a, pins, known),
            Node::Or(a, b) => self.node(a, pins, known) | self.node(b, pins, known),
            Node::Xor(a, b) => self.node(a, pins, known) ^ self.node(b, pins, known),
            Node::And(a, b) => self.node(a, pins, known) & self.node(b, pins, known),
            Node::Mux(s, a, b) => {
                if self.node(s, pins, known) { self.node(b, pins, known) } else { self.node(a, pins, known) }
            }
            Node::Reg(..) => unreachable!("a register stands only at the top of an OUT"),
        }
    }
}
