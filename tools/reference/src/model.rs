//! The station model: events, machines, nodes, the limits on them, and a refusal.

pub const SILENT: u8 = 255;
pub const MOST_EVENTS: u8 = 16;
pub const MOST_STATES: u8 = 32;
pub const MOST_MACHINES: usize = 12;
pub const MOST_STEPS: usize = 512;
pub const MOST_MACHINE_EVENTS: u32 = 8;
pub const MOST_NODES: usize = 32;
pub const MOST_LEAVES: usize = 12;
pub const MOST_PAIRS: usize = 256;
pub const MOST_BYTES: usize = 4096;

/// A set of events: bit i stands for event i.
pub type EventSet = u16;

/// Where each of the 16 event numbers goes in a rename.
pub type Targets = [u8; 16];

/// The set of all n events.
pub fn all_events(n: u8) -> EventSet {
    (0..n).map(event).sum()
}

/// The set of one event.
pub fn event(number: u8) -> EventSet {
    1 << number
}

/// One step of a machine; the field order is the order in which steps ascend.
#[derive(Clone, Copy, Debug, PartialEq, Eq, PartialOrd, Ord)]
pub struct Step {
    pub from: u8,
    pub label: u8,
    pub to: u8,
}

impl Step {
    pub fn is_silent(&self) -> bool {
        self.label == SILENT
    }

    /// The events of this step: one, or none if it is silent.
    pub fn events(&self) -> EventSet {
        if self.is_silent() {
            0
        } else {
            event(self.label)
        }
    }
}

#[derive(Clone, Debug)]
pub struct Machine {
    pub states: u8,
    pub steps: Vec<Step>,
}

impl Machine {
    /// The events that label a step of this machine.
    pub fn events(&self) -> EventSet {
        self.steps.iter().fold(0, |set, step| set | step.events())
    }
}

#[derive(Clone, Copy, Debug, PartialEq, Eq)]
pub enum Node {
    Leaf { machine: u8 },
    Join { left: u8, right: u8, set: EventSet },
    Hide { operand: u8, set: EventSet },
    Rename { operand: u8, targets: Targets },
}

impl Node {
    pub fn kind(&self) -> &'static str {
        match self {
            Node::Leaf { .. } => "leaf",
            Node::Join { .. } => "join",
            Node::Hide { .. } => "hide",
            Node::Rename { .. } => "rename",
        }
    }

    /// The node numbers that this node names.
    pub fn operands(&self) -> Vec<u8> {
        match *self {
            Node::Leaf { .. } => vec![],
            Node::Join { left, right, .. } => vec![left, right],
            Node::Hide { operand, .. } | Node::Rename { operand, .. } => vec![operand],
        }
    }
}

#[derive(Clone, Debug)]
pub struct Model {
    pub events: u8,
    pub machines: Vec<Machine>,
    pub nodes: Vec<Node>,
}

#[derive(Clone, Copy, Debug, PartialEq, Eq)]
pub struct Refusal {
    pub number: u8,
    pub place: usize,
}
