//! Random networks that keep all rules of a model file unless their shape itself breaks a limit.

use std::collections::BTreeSet;
use std::ops::RangeInclusive;

use super::draft::Draft;
use crate::analyse::Verdict;
use crate::model::*;
use crate::print::verdict;
use crate::random::Random;

/// How large a network is, and of what sort.
#[derive(Clone)]
pub struct Shape {
    pub events: u8,
    pub machines: usize,
    pub states: RangeInclusive<u8>,
    /// Steps over all machines.
    pub steps: usize,
    /// Different events in one machine.
    pub labels: RangeInclusive<u8>,
    pub leaves: usize,
    /// Hides and renames.
    pub unaries: usize,
    pub hides_percent: usize,
    pub silent_percent: usize,
    /// How many of a hundred events a join's set has.
    pub join_percent: usize,
    /// How many of a hundred events a hide's set has.
    pub hidden_percent: usize,
}

impl Shape {
    pub fn small(random: &mut Random) -> Shape {
        let machines = random.within(1..=3);
        Shape {
            events: random.byte_within(1..=4),
            machines,
            states: 1..=4,
            steps: machines * random.within(1..=6),
            labels: 0..=3,
            leaves: random.within(1..=4),
            unaries: random.within(0..=3),
            hides_percent: 50,
            silent_percent: 15,
            join_percent: random.pick(&[0, 30, 50, 100]),
            hidden_percent: 30,
        }
    }

    pub fn large(random: &mut Random) -> Shape {
        let machines = random.within(3..=12);
        Shape {
            events: random.byte_within(6..=16),
            machines,
            states: 2..=32,
            steps: machines * random.within(4..=40),
            labels: 1..=5,
            leaves: random.within(3..=12),
            unaries: random.within(1..=9),
            hides_percent: 40,
            silent_percent: 10,
            join_percent: random.pick(&[20, 40, 60, 80]),
            hidden_percent: 10,
        }
    }

    /// A small or a large shape.
    pub fn any(random: &mut Random) -> Shape {
        if random.chance(70) {
            Shape::small(random)
        } else {
            Shape::large(random)
        }
    }
}

/// A random network of a shape.
pub fn network(random: &mut Random, shape: &Shape) -> Draft {
    let mut draft = Draft::new(shape.events);
    for number in 0..shape.machines {
        let steps_before = |number| shape.steps * number / shape.machines;
        let steps = steps_before(number + 1) - steps_before(number);
        let (states, steps) = machine(random, shape, steps);
        draft.machine(states, steps);
    }
    add_nodes(random, shape, &mut draft);
    draft
}

/// Adds leaves, joins, hides and renames in random order until all are used but the last.
fn add_nodes(random: &mut Random, shape: &Shape, draft: &mut Draft) {
    let (mut leaves, mut unaries) = (shape.leaves, shape.unaries);
    let mut unused: Vec<u8> = vec![];
    while leaves + unaries > 0 || unused.len() > 1 {
        let node = match random.below(3) {
            0 if leaves > 0 => {
                leaves -= 1;
                draft.leaf(random.below(shape.machines) as u8)
            }
            1 if unaries > 0 && !unused.is_empty() => {
                unaries -= 1;
                let operand = take_any(random, &mut unused);
                unary(random, shape, draft, operand)
            }
            2 if unused.len() > 1 => {
                let (left, right) = (take_any(random, &mut unused), take_any(random, &mut unused));
                draft.join(left, right, set(random, shape.events, shape.join_percent))
            }
            _ => continue,
        };
        unused.push(node);
    }
}

fn unary(random: &mut Random, shape: &Shape, draft: &mut Draft, operand: u8) -> u8 {
    if random.chance(shape.hides_percent) {
        draft.hide(operand, set(random, shape.events, shape.hidden_percent))
    } else {
        draft.rename(operand, targets(random, shape.events))
    }
}

fn take_any(random: &mut Random, unused: &mut Vec<u8>) -> u8 {
    unused.swap_remove(random.below(unused.len()))
}

/// A small or large network of which nothing more is asked.
pub fn any(random: &mut Random) -> Draft {
    let shape = Shape::any(random);
    network(random, &shape)
}

/// The first of some networks that passes with many pairs and most kinds of nodes.
pub fn rich(random: &mut Random, shape: fn(&mut Random) -> Shape) -> Draft {
    let mut draw = || {
        let shape = shape(random);
        network(random, &shape)
    };
    let last = draw();
    (0..60).map(|_| draw()).find(is_rich).unwrap_or(last)
}

fn is_rich(draft: &Draft) -> bool {
    let Verdict::Pass { nodes, lists, .. } = verdict(&draft.bytes()) else { return false };
    let kinds: BTreeSet<_> = nodes.iter().map(Node::kind).collect();
    let pairs = lists.iter().map(BTreeSet::len).sum::<usize>();
    let last_pairs = lists.last().map_or(0, BTreeSet::len);
    kinds.len() >= 3 && pairs >= 10 && last_pairs >= 2
}

/// State count and steps of a machine: each of its labels once, then random steps.
fn machine(random: &mut Random, shape: &Shape, steps: usize) -> (u8, BTreeSet<Step>) {
    let states = random.byte_within(shape.states.clone());
    let mut palette: Vec<u8> = (0..shape.events).collect();
    random.shuffle(&mut palette);
    palette.truncate(usize::from(random.byte_within(shape.labels.clone())));
    let most = usize::from(states) * usize::from(states) * palette.len();
    let mut made = BTreeSet::new();
    for &label in palette.iter().take(steps) {
        let (from, to) = (random.byte_below(states), random.byte_below(states));
        made.insert(Step { from, label, to });
    }
    while made.len() < steps.min(most) {
        let (from, to) = (random.byte_below(states), random.byte_below(states));
        // A silent step upwards closes no silent walk; one backwards is rare.
        let is_silent = random.chance(shape.silent_percent) && (from < to || random.chance(10));
        let label = if is_silent { SILENT } else { random.pick(&palette) };
        made.insert(Step { from, label, to });
    }
    (states, made)
}

/// A set of n events, each in it in so many of a hundred cases.
pub fn set(random: &mut Random, n: u8, percent: usize) -> EventSet {
    (0..n).filter(|_| random.chance(percent)).map(event).sum()
}

/// The targets of a permutation, one event moved, all sent to one, any map, or the identity.
pub fn targets(random: &mut Random, n: u8) -> Targets {
    let mut targets: Targets = std::array::from_fn(|source| source as u8);
    let inner = &mut targets[..usize::from(n)];
    match random.below(10) {
        0..=4 => random.shuffle(inner),
        5..=6 => inner[random.below(usize::from(n))] = random.byte_below(n),
        7 => inner.fill(random.byte_below(n)),
        8 => inner.fill_with(|| random.byte_below(n)),
        _ => {}
    }
    targets
}
