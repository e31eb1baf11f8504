//! Reads a model file: its bytes become a model or a refusal with number and place.

use crate::model::*;
use crate::record::{body_length, Record};

/// The model in these bytes, or the first hit of refusals 1 to 10.
pub fn read(bytes: &[u8]) -> Result<Model, Refusal> {
    if bytes.len() > MOST_BYTES {
        return Err(Refusal { number: 1, place: 0 });
    }
    let mut prefix = Prefix::default();
    let mut place = 0;
    loop {
        let refuse = |number| Refusal { number, place };
        let (record, length) = record_at(bytes, place).map_err(refuse)?;
        if let Some((number, _)) = TESTS.iter().find(|(_, holds)| !holds(&prefix, &record)) {
            return Err(refuse(*number));
        }
        if let Record::End { count } = record {
            let closes = usize::from(count) == place && place + length == bytes.len();
            return if closes && prefix.all_but_last_used() {
                Ok(prefix.into_model())
            } else {
                Err(refuse(9))
            };
        }
        prefix.add(record);
        place += length;
    }
}

/// The record that begins at a place and its length, or refusal number 3 or 2.
fn record_at(bytes: &[u8], place: usize) -> Result<(Record, usize), u8> {
    let kind = *bytes.get(place).ok_or(2)?;
    let length = 1 + body_length(kind).ok_or(3)?;
    let body = bytes.get(place + 1..place + length).ok_or(2)?;
    Ok((Record::decode(kind, body).ok_or(2)?, length))
}

type Test = fn(&Prefix, &Record) -> bool;

/// The tests of a whole record, each with the refusal number of its failure, in their order.
const TESTS: [(u8, Test); 6] = [
    (4, Prefix::allows_kind),
    (8, Prefix::has_count_left),
    (5, Prefix::has_numbers_in_range),
    (6, Prefix::has_operands_free),
    (7, Prefix::has_step_ascending),
    (10, Prefix::has_few_machine_events),
];

/// What has been read so far.
#[derive(Default)]
struct Prefix {
    header: Option<u8>,
    machines: Vec<Machine>,
    nodes: Vec<Node>,
}

impl Prefix {
    fn events(&self) -> u8 {
        self.header.unwrap_or(0)
    }

    fn is_used(&self, node: u8) -> bool {
        self.nodes.iter().any(|later| later.operands().contains(&node))
    }

    fn all_but_last_used(&self) -> bool {
        let numbers = 0..self.nodes.len() as u8;
        numbers.rev().skip(1).all(|node| self.is_used(node))
    }

    fn allows_kind(&self, record: &Record) -> bool {
        let has_header = self.header.is_some();
        let has_machine = !self.machines.is_empty();
        let has_node = !self.nodes.is_empty();
        match record {
            Record::Header { .. } => !has_header,
            Record::Machine { .. } => has_header && !has_node,
            Record::Step(_) => has_machine && !has_node,
            Record::Node(_) => has_machine,
            Record::End { .. } => has_node,
        }
    }

    fn has_count_left(&self, record: &Record) -> bool {
        let steps = || self.machines.iter().map(|machine| machine.steps.len()).sum::<usize>();
        let is_leaf = |node: &&Node| matches!(node, Node::Leaf { .. });
        let leaves = || self.nodes.iter().filter(is_leaf).count();
        match record {
            Record::Header { .. } | Record::End { .. } => true,
            Record::Machine { .. } => self.machines.len() < MOST_MACHINES,
            Record::Step(_) => steps() < MOST_STEPS,
            Record::Node(Node::Leaf { .. }) => {
                leaves() < MOST_LEAVES && self.nodes.len() < MOST_NODES
            }
            Record::Node(_) => self.nodes.len() < MOST_NODES,
        }
    }

    fn has_numbers_in_range(&self, record: &Record) -> bool {
        match *record {
            Record::Header { events } => (1..=MOST_EVENTS).contains(&events),
            Record::Machine { states } => (1..=MOST_STATES).contains(&states),
            Record::Step(step) => self.has_step_in_range(step),
            Record::Node(Node::Leaf { machine }) => usize::from(machine) < self.machines.len(),
            Record::Node(Node::Join { set, .. } | Node::Hide { set, .. }) => {
                set & !all_events(self.events()) == 0
            }
            Record::Node(Node::Rename { targets, .. }) => self.has_targets_in_range(targets),
            Record::End { .. } => true,
        }
    }

    fn has_step_in_range(&self, step: Step) -> bool {
        let states = self.machines.last().map_or(0, |machine| machine.states);
        let has_label = step.is_silent() || step.label < self.events();
        step.from < states && step.to < states && has_label
    }

    fn has_targets_in_range(&self, targets: Targets) -> bool {
        (0..MOST_EVENTS).zip(targets).all(|(source, target)| {
            if source < self.events() {
                target < self.events()
            } else {
                target == source
            }
        })
    }

    fn has_operands_free(&self, record: &Record) -> bool {
        let Record::Node(node) = record else { return true };
        let is_free =
            |&operand: &u8| usize::from(operand) < self.nodes.len() && !self.is_used(operand);
        let names_one_twice = matches!(node, Node::Join { left, right, .. } if left == right);
        node.operands().iter().all(is_free) && !names_one_twice
    }

    fn has_step_ascending(&self, record: &Record) -> bool {
        let Record::Step(step) = record else { return true };
        let before = self.machines.last().and_then(|machine| machine.steps.last());
        before < Some(step)
    }

    fn has_few_machine_events(&self, record: &Record) -> bool {
        let Record::Step(step) = record else { return true };
        let so_far = self.machines.last().map_or(0, Machine::events);
        (so_far | step.events()).count_ones() <= MOST_MACHINE_EVENTS
    }

    /// Takes in a record that has passed every test.
    fn add(&mut self, record: Record) {
        match record {
            Record::Header { events } => self.header = Some(events),
            Record::Machine { states } => self.machines.push(Machine { states, steps: vec![] }),
            Record::Step(step) => {
                if let Some(machine) = self.machines.last_mut() {
                    machine.steps.push(step);
                }
            }
            Record::Node(node) => self.nodes.push(node),
            Record::End { .. } => {}
        }
    }

    fn into_model(self) -> Model {
        Model { events: self.events(), machines: self.machines, nodes: self.nodes }
    }
}
