//! A draft of a model file: its records before the end record, built up node by node.

use crate::model::{EventSet, Node, Step, Targets};
use crate::record::Record;

#[derive(Clone)]
pub struct Draft {
    pub records: Vec<Record>,
    nodes: u8,
}

impl Draft {
    pub fn new(events: u8) -> Draft {
        Draft { records: vec![Record::Header { events }], nodes: 0 }
    }

    pub fn machine(&mut self, states: u8, steps: impl IntoIterator<Item = Step>) {
        self.records.push(Record::Machine { states });
        self.records.extend(steps.into_iter().map(Record::Step));
    }

    pub fn leaf(&mut self, machine: u8) -> u8 {
        self.node(Node::Leaf { machine })
    }

    pub fn join(&mut self, left: u8, right: u8, set: EventSet) -> u8 {
        self.node(Node::Join { left, right, set })
    }

    pub fn hide(&mut self, operand: u8, set: EventSet) -> u8 {
        self.node(Node::Hide { operand, set })
    }

    pub fn rename(&mut self, operand: u8, targets: Targets) -> u8 {
        self.node(Node::Rename { operand, targets })
    }

    /// Adds a node and gives its number.
    fn node(&mut self, node: Node) -> u8 {
        self.records.push(Record::Node(node));
        self.nodes += 1;
        self.nodes - 1
    }

    /// The whole file, with the right end record.
    pub fn bytes(&self) -> Vec<u8> {
        with_end(encode(&self.records))
    }
}

pub fn encode(records: &[Record]) -> Vec<u8> {
    records.iter().flat_map(Record::encode).collect()
}

/// Bytes with an end record behind them that counts them.
pub fn with_end(mut bytes: Vec<u8>) -> Vec<u8> {
    let end = Record::End { count: bytes.len() as u16 };
    bytes.extend(end.encode());
    bytes
}
