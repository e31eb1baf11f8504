//! Models at every limit, and one step beyond it.

use std::iter::repeat;

use super::draft::Draft;
use super::network::{any, network, targets, Shape};
use crate::model::*;
use crate::random::Random;

/// One event only, or all 16.
pub fn events(random: &mut Random) -> Vec<u8> {
    let events = random.pick(&[1, MOST_EVENTS]);
    let shape = Shape { events, labels: 0..=events.min(3), ..Shape::any(random) };
    network(random, &shape).bytes()
}

/// Twelve or thirteen machines.
pub fn machines(random: &mut Random) -> Vec<u8> {
    let machines = MOST_MACHINES + random.below(2);
    let shape = Shape { machines, steps: random.within(0..=60), ..Shape::small(random) };
    network(random, &shape).bytes()
}

/// Twelve or thirteen leaves.
pub fn leaves(random: &mut Random) -> Vec<u8> {
    let shape = Shape { leaves: MOST_LEAVES + random.below(2), ..Shape::any(random) };
    network(random, &shape).bytes()
}

/// 32 or 33 nodes.
pub fn nodes(random: &mut Random) -> Vec<u8> {
    let leaves = random.within(1..=MOST_LEAVES);
    let nodes = MOST_NODES + random.below(2);
    let unaries = nodes - (2 * leaves - 1);
    let shape =
        Shape { leaves, unaries, hides_percent: 20, hidden_percent: 5, ..Shape::any(random) };
    network(random, &shape).bytes()
}

/// 512 or 513 steps, in one to twelve machines.
pub fn steps(random: &mut Random) -> Vec<u8> {
    let machines = random.within(1..=MOST_MACHINES);
    let steps = MOST_STEPS + random.below(2);
    let shape = Shape { machines, steps, states: 16..=32, labels: 2..=6, ..Shape::large(random) };
    network(random, &shape).bytes()
}

/// Eight or nine different events in each machine.
pub fn machine_events(random: &mut Random) -> Vec<u8> {
    let labels = 8 + random.byte_below(2);
    let shape = Shape {
        events: random.byte_within(9..=MOST_EVENTS),
        machines: random.within(1..=4),
        labels: labels..=labels,
        steps: random.within(40..=120),
        leaves: random.within(1..=3),
        join_percent: random.pick(&[70, 90, 100]),
        ..Shape::small(random)
    };
    network(random, &shape).bytes()
}

/// 31, 32 or 33 states, with steps from and to the last.
pub fn states(random: &mut Random) -> Vec<u8> {
    let states = random.byte_within(MOST_STATES - 1..=MOST_STATES + 1);
    let mut draft = Draft::new(2);
    draft.machine(states, ring(states, random.byte_below(2)));
    draft.machine(1, [Step { from: 0, label: 0, to: 0 }]);
    let (left, right) = (draft.leaf(0), draft.leaf(random.byte_below(2)));
    draft.join(left, right, random.below(4) as EventSet);
    draft.bytes()
}

/// A closed walk through all states, silent but for its last step.
fn ring(states: u8, label: u8) -> impl Iterator<Item = Step> {
    let silent = (0..states - 1).map(|from| Step { from, label: SILENT, to: from + 1 });
    silent.chain([Step { from: states - 1, label, to: 0 }])
}

/// A list of 255 to 258 pairs: two machines that share one event, joined over it.
///
/// Each has 15 sets of four events of its own, which gives 255 pairs of sets; the left one has up
/// to three closed walks more with the shared event, each of which pairs with the right one's.
pub fn pairs(random: &mut Random) -> Vec<u8> {
    let mut names: Vec<u8> = (0..MOST_EVENTS).collect();
    random.shuffle(&mut names);
    let shared = names[0];
    let extra = random.below(4);
    let mut left = loops(0, &names[1..5]);
    for walk in 0..extra as u8 {
        let (there, back) = (1 + 2 * walk, 2 + 2 * walk);
        left.push(Step { from: there, label: shared, to: back });
        left.push(Step { from: back, label: names[9 + usize::from(walk)], to: there });
    }
    let mut right = loops(0, &names[5..9]);
    right.extend(loops(1, &[shared]));
    let mut draft = Draft::new(MOST_EVENTS);
    draft.machine(7, sorted(left));
    draft.machine(2, sorted(right));
    add_join(random, &mut draft, event(shared))
}

/// One state with four loops joined over nothing with one of four or five others: 255 or 511 pairs.
pub fn free_pairs(random: &mut Random) -> Vec<u8> {
    let mut names: Vec<u8> = (0..MOST_EVENTS).collect();
    random.shuffle(&mut names);
    let mut draft = Draft::new(MOST_EVENTS);
    draft.machine(1, sorted(loops(0, &names[..4])));
    draft.machine(1, sorted(loops(0, &names[4..random.within(8..=9)])));
    add_join(random, &mut draft, 0)
}

/// Both machines joined over a set, and at times one more node behind.
fn add_join(random: &mut Random, draft: &mut Draft, set: EventSet) -> Vec<u8> {
    let (left, right) = (draft.leaf(0), draft.leaf(1));
    let both = draft.join(left, right, set);
    match random.below(3) {
        0 => draft.hide(both, set),
        1 => draft.rename(both, targets(random, MOST_EVENTS)),
        _ => both,
    };
    draft.bytes()
}

fn loops(state: u8, labels: &[u8]) -> Vec<Step> {
    labels.iter().map(|&label| Step { from: state, label, to: state }).collect()
}

fn sorted(mut steps: Vec<Step>) -> Vec<Step> {
    steps.sort();
    steps
}

/// Files of about 4096 bytes: a model with bytes or itself behind it, or far too many machines.
pub fn bytes(random: &mut Random) -> Vec<u8> {
    let length = MOST_BYTES - 1 + random.pick(&[0, 1, 1, 2, 3, 1000]);
    let bytes = any(random).bytes();
    match random.below(3) {
        0 => bytes.into_iter().chain(repeat(random.byte())).take(length).collect(),
        1 => bytes.into_iter().cycle().take(length).collect(),
        _ => [1, 1].into_iter().chain([2, 1].into_iter().cycle()).take(length).collect(),
    }
}
