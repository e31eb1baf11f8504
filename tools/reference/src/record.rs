//! The records of a model file: one byte of kind, then a body whose length the kind fixes.

use crate::model::{EventSet, Node, Step, Targets};

#[derive(Clone, Copy, Debug, PartialEq, Eq)]
pub enum Record {
    Header { events: u8 },
    Machine { states: u8 },
    Step(Step),
    Node(Node),
    End { count: u16 },
}

/// The body length of a kind, if there is such a kind.
pub fn body_length(kind: u8) -> Option<usize> {
    match kind {
        1 | 2 | 4 => Some(1),
        3 | 6 => Some(3),
        5 => Some(4),
        7 => Some(17),
        8 => Some(2),
        _ => None,
    }
}

impl Record {
    /// The record with this kind and body; none if the two do not fit.
    pub fn decode(kind: u8, body: &[u8]) -> Option<Record> {
        let record = match (kind, body) {
            (1, &[events]) => Record::Header { events },
            (2, &[states]) => Record::Machine { states },
            (3, &[from, label, to]) => Record::Step(Step { from, label, to }),
            (4, &[machine]) => Record::Node(Node::Leaf { machine }),
            (5, &[left, right, low, high]) => {
                let set = EventSet::from_le_bytes([low, high]);
                Record::Node(Node::Join { left, right, set })
            }
            (6, &[operand, low, high]) => {
                let set = EventSet::from_le_bytes([low, high]);
                Record::Node(Node::Hide { operand, set })
            }
            (7, &[operand, ref targets @ ..]) => {
                let targets = Targets::try_from(targets).ok()?;
                Record::Node(Node::Rename { operand, targets })
            }
            (8, &[low, high]) => Record::End { count: u16::from_le_bytes([low, high]) },
            _ => return None,
        };
        Some(record)
    }

    pub fn encode(&self) -> Vec<u8> {
        match *self {
            Record::Header { events } => vec![1, events],
            Record::Machine { states } => vec![2, states],
            Record::Step(Step { from, label, to }) => vec![3, from, label, to],
            Record::Node(node) => encode_node(node),
            Record::End { count } => [&[8][..], &count.to_le_bytes()].concat(),
        }
    }
}

fn encode_node(node: Node) -> Vec<u8> {
    match node {
        Node::Leaf { machine } => vec![4, machine],
        Node::Join { left, right, set } => [&[5, left, right][..], &set.to_le_bytes()].concat(),
        Node::Hide { operand, set } => [&[6, operand][..], &set.to_le_bytes()].concat(),
        Node::Rename { operand, targets } => [&[7, operand][..], &targets].concat(),
    }
}
