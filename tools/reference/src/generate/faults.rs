//! Files with a fault aimed at one refusal number, or with two faults in one record.

use super::draft::{encode, with_end, Draft};
use super::network::{any, network, Shape};
use crate::model::*;
use crate::random::Random;
use crate::record::Record;

/// A file longer than 4096 bytes (1).
pub fn too_long(random: &mut Random) -> Vec<u8> {
    let mut bytes = any(random).bytes();
    bytes.resize(MOST_BYTES + random.pick(&[1, 2, 100, 4096]), random.byte());
    bytes
}

/// A file that stops where a record should begin, or one byte off (2).
pub fn stops_at_record(random: &mut Random) -> Vec<u8> {
    let draft = any(random);
    let kept = random.below(draft.records.len() + 1);
    let mut bytes = encode(&draft.records[..kept]);
    match random.below(3) {
        0 => bytes.truncate(bytes.len().saturating_sub(1)),
        1 => bytes.push(random.byte_within(1..=8)),
        _ => {}
    }
    bytes
}

/// A kind that there is not, at times as the last byte (3).
pub fn unknown_kind(random: &mut Random) -> Vec<u8> {
    let draft = any(random);
    let place = random.below(draft.records.len() + 1);
    let (before, behind) = draft.records.split_at(place);
    let unknown = random.pick(&[0, 9, 10, 128, 255]);
    let start = [encode(before), vec![unknown]].concat();
    if random.chance(30) {
        start
    } else {
        with_end([start, encode(behind)].concat())
    }
}

/// A kind that is not allowed where it stands (4).
pub fn misplaced_kind(random: &mut Random) -> Vec<u8> {
    let mut draft = any(random);
    let first_node = first_node(&draft);
    let count = draft.records.len();
    let step = Record::Step(Step { from: 0, label: 0, to: 0 });
    let (place, record) = match random.below(7) {
        0 => (0, random.pick(&draft.records[1..])),
        1 => (random.within(1..=count), Record::Header { events: 2 }),
        2 => (1, step),
        3 => (random.within(first_node + 1..=count), Record::Machine { states: 1 }),
        4 => (random.within(first_node + 1..=count), step),
        5 => (1, draft.records[first_node]),
        _ => return with_end(encode(&draft.records[..random.within(0..=first_node)])),
    };
    draft.records.insert(place, record);
    draft.bytes()
}

fn first_node(draft: &Draft) -> usize {
    let is_node = |record: &Record| matches!(record, Record::Node(_));
    draft.records.iter().position(is_node).unwrap_or(draft.records.len())
}

/// Some number of a record outside its range (5).
pub fn out_of_range(random: &mut Random) -> Vec<u8> {
    let shape = Shape { unaries: random.within(1..=4), ..Shape::any(random) };
    let mut draft = network(random, &shape);
    let place = place_of_any_kind(random, &draft);
    draft.records[place] = put_out_of_range(random, &draft, place);
    draft.bytes()
}

/// The place of a record, each kind of record being as likely as another.
fn place_of_any_kind(random: &mut Random, draft: &Draft) -> usize {
    let kinds: Vec<u8> = draft.records.iter().map(|record| record.encode()[0]).collect();
    let present: Vec<u8> = (1..=8).filter(|kind| kinds.contains(kind)).collect();
    let kind = random.pick(&present);
    let places: Vec<usize> = (0..kinds.len()).filter(|&place| kinds[place] == kind).collect();
    random.pick(&places)
}

fn put_out_of_range(random: &mut Random, draft: &Draft, place: usize) -> Record {
    let n = events_of(draft);
    let machines = draft.records[..place].iter().filter(|r| matches!(r, Record::Machine { .. }));
    match draft.records[place] {
        Record::Header { .. } => Record::Header { events: random.pick(&[0, 17, 255]) },
        Record::Machine { .. } => Record::Machine { states: random.pick(&[0, 33, 255]) },
        Record::Step(step) => {
            let states = states_at(draft, place);
            Record::Step(match random.below(3) {
                0 => Step { from: random.pick(&[states, 255]), ..step },
                1 => Step { label: random.pick(&[n, 16, 254]), ..step },
                _ => Step { to: random.pick(&[states, 255]), ..step },
            })
        }
        Record::Node(Node::Leaf { .. }) => {
            let machine = random.pick(&[machines.count() as u8, 255]);
            Record::Node(Node::Leaf { machine })
        }
        Record::Node(node) => Record::Node(put_node_out_of_range(random, node, n)),
        end => end,
    }
}

fn put_node_out_of_range(random: &mut Random, node: Node, n: u8) -> Node {
    let outside = if n < MOST_EVENTS { event(random.byte_within(n..=15)) } else { 0 };
    match node {
        Node::Leaf { .. } => node,
        Node::Join { left, right, set } => Node::Join { left, right, set: set | outside },
        Node::Hide { operand, set } => Node::Hide { operand, set: set | outside },
        Node::Rename { operand, mut targets } => {
            let sources = random.pick(&[usize::from(n), targets.len()]);
            let source = random.below(sources);
            let next = if source < usize::from(n) { n } else { (source as u8 + 1) % 16 };
            targets[source] = random.pick(&[next, next, 16, 255]);
            Node::Rename { operand, targets }
        }
    }
}

fn events_of(draft: &Draft) -> u8 {
    match draft.records[0] {
        Record::Header { events } => events,
        _ => 1,
    }
}

/// The state count of the latest machine before a place.
fn states_at(draft: &Draft, place: usize) -> u8 {
    let states = |record: &Record| match *record {
        Record::Machine { states } => Some(states),
        _ => None,
    };
    draft.records[..place].iter().rev().find_map(states).unwrap_or(1)
}

/// An operand that is not an earlier node or is used already, or a join naming one twice (6).
pub fn wrong_operand(random: &mut Random) -> Vec<u8> {
    let shape = Shape { leaves: random.within(2..=4), unaries: 3, ..Shape::small(random) };
    let mut draft = network(random, &shape);
    let first = first_node(&draft);
    let is_leaf = |record: &Record| matches!(record, Record::Node(Node::Leaf { .. }));
    let nodes = first..draft.records.len();
    let others: Vec<usize> = nodes.filter(|&place| !is_leaf(&draft.records[place])).collect();
    let place = random.pick(&others);
    let own = (place - first) as u8;
    let wrong = match random.below(3) {
        0 => random.pick(&[own, own + 1, 31, 255]),
        _ => random.byte_below(own),
    };
    if let Record::Node(node) = &mut draft.records[place] {
        match node {
            Node::Join { left, right, .. } if random.chance(30) => *left = *right,
            Node::Join { left: operand, .. } | Node::Hide { operand, .. } => *operand = wrong,
            Node::Rename { operand, .. } => *operand = wrong,
            Node::Leaf { .. } => {}
        }
    }
    draft.bytes()
}

/// Two steps of a machine swapped, or one of them twice (7).
pub fn unordered_steps(random: &mut Random) -> Vec<u8> {
    let shape = Shape { steps: random.within(6..=40), labels: 1..=3, ..Shape::small(random) };
    let shape = Shape { events: shape.events.max(3), states: 2..=4, ..shape };
    let mut draft = network(random, &shape);
    let is_step = |record: &Record| matches!(record, Record::Step(_));
    let is_second = |place: &usize| draft.records[place - 1..=*place].iter().all(is_step);
    let seconds: Vec<usize> = (1..draft.records.len()).filter(is_second).collect();
    let place = random.pick(&seconds);
    if random.chance(60) {
        draft.records.swap(place - 1, place);
    } else {
        draft.records[place] = draft.records[place - 1];
    }
    draft.bytes()
}

/// A wrong byte count, a node left over, or bytes after the end (9).
pub fn wrong_end(random: &mut Random) -> Vec<u8> {
    let mut draft = any(random);
    let mut bytes = draft.bytes();
    let count_at = bytes.len() - 2;
    match random.below(5) {
        0 => bytes[count_at] = bytes[count_at].wrapping_add(random.pick(&[1, 2, 3, 255])),
        1 => bytes[count_at + 1] ^= 1 << random.below(8),
        2 => bytes.extend_from_slice(&[8, 0, 0][..random.within(1..=3)]),
        3 => bytes.extend(any(random).bytes()),
        _ => {
            draft.leaf(0);
            bytes = draft.bytes();
        }
    }
    bytes
}

/// Two faults in one record: the test that comes first decides.
pub fn two_faults(random: &mut Random) -> Vec<u8> {
    let is_behind_nodes = random.chance(50);
    let fault = if is_behind_nodes { fault_behind_nodes } else { fault_before_nodes };
    let (shape, record) = fault(random);
    let mut draft = network(random, &shape);
    let place = if is_behind_nodes { draft.records.len() } else { first_node(&draft) };
    draft.records.insert(place, record);
    draft.bytes()
}

/// A record to stand behind the last machine, and the shape of the network around it.
fn fault_before_nodes(random: &mut Random) -> (Shape, Record) {
    let small = Shape::small(random);
    let full = Shape { steps: MOST_STEPS, states: 16..=32, labels: 2..=6, ..Shape::large(random) };
    let (from, to) = (0, 0);
    match random.below(5) {
        0 => (Shape { machines: MOST_MACHINES, ..small }, Record::Machine { states: 33 }),
        1 => (full, Record::Step(Step { from, label: 254, to })),
        2 => (full, Record::Step(Step { from, label: 0, to })),
        3 => (small, Record::Step(Step { from, label: 16, to })),
        _ => (small, Record::End { count: 0 }),
    }
}

/// A record to stand behind the last node, and the shape of the network before it.
fn fault_behind_nodes(random: &mut Random) -> (Shape, Record) {
    let small = Shape::small(random);
    let all_leaves = Shape { leaves: MOST_LEAVES, ..small.clone() };
    let all_nodes = Shape { leaves: 1, unaries: MOST_NODES - 1, ..small.clone() };
    let all_machines = Shape { machines: MOST_MACHINES, ..small.clone() };
    let set = EventSet::MAX;
    match random.below(9) {
        0 => (all_leaves, Record::Node(Node::Leaf { machine: 255 })),
        1 => (all_nodes, Record::Node(Node::Leaf { machine: 0 })),
        2 => (all_nodes, Record::Node(Node::Hide { operand: 0, set })),
        3 => (all_machines, Record::Machine { states: 0 }),
        4 => (small, Record::Node(Node::Join { left: 0, right: 0, set })),
        5 => (small, Record::Node(Node::Hide { operand: 255, set })),
        6 => (small, Record::Node(Node::Rename { operand: 255, targets: [255; 16] })),
        7 => (small, Record::Header { events: 0 }),
        _ => (small, Record::Step(Step { from: 255, label: 254, to: 255 })),
    }
}

/// A ninth event in a step that is not above the one before it, or has no such state.
pub fn ninth_event_and_fault(random: &mut Random) -> Vec<u8> {
    let mut labels: Vec<u8> = (0..MOST_EVENTS).collect();
    random.shuffle(&mut labels);
    labels[..8].sort();
    let mut steps: Vec<Step> =
        labels[..8].iter().map(|&label| Step { from: 1, label, to: 1 }).collect();
    steps.push(Step { from: random.byte_below(3), label: labels[8], to: random.byte_below(3) });
    let mut draft = Draft::new(MOST_EVENTS);
    draft.machine(2, steps);
    draft.leaf(0);
    draft.bytes()
}
