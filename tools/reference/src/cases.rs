//! The cases worked by hand in the scope of work, 1 to 13, and the replay text of the first.

use crate::analyse::Verdict;
use crate::generate::draft::Draft;
use crate::model::{event, EventSet, Step, Targets, SILENT};
use crate::print::{first_line, printed, replayed, verdict};
use crate::rules::Pair;

const EXAMPLE: [u8; 28] =
    [1, 2, 2, 2, 3, 0, 0, 1, 3, 1, 1, 0, 4, 0, 4, 0, 5, 0, 1, 3, 0, 6, 2, 2, 0, 8, 0x19, 0];

const EXAMPLE_PRINTED: &str = "\
pass 4
0 leaf 1
0003 0000
1 leaf 1
0003 0000
2 join 1
0003 0000
3 hide 1
0001 0002
";

fn line(bytes: &[u8]) -> String {
    first_line(&verdict(bytes))
}

/// The list of the last node of a model that passes.
fn root_list(draft: &Draft) -> Vec<Pair> {
    match verdict(&draft.bytes()) {
        Verdict::Pass { lists, .. } => lists.last().into_iter().flatten().copied().collect(),
        other => panic!("no pass: {other:?}"),
    }
}

/// Steps from (from, label, to).
fn steps(triples: &[(u8, u8, u8)]) -> Vec<Step> {
    triples.iter().map(|&(from, label, to)| Step { from, label, to }).collect()
}

/// One state that loops on each of these events.
fn loops(labels: impl IntoIterator<Item = u8>) -> Vec<Step> {
    labels.into_iter().map(|label| Step { from: 0, label, to: 0 }).collect()
}

/// Two machines of one state, each with its loops, joined over a set.
fn joined_loops(n: u8, left: Vec<Step>, right: Vec<Step>, set: EventSet) -> Draft {
    let mut draft = Draft::new(n);
    draft.machine(1, left);
    draft.machine(1, right);
    let (left, right) = (draft.leaf(0), draft.leaf(1));
    draft.join(left, right, set);
    draft
}

#[test]
fn case_01_example() {
    assert_eq!(printed(&verdict(&EXAMPLE)), EXAMPLE_PRINTED);
}

#[test]
fn case_02_example_with_all_hidden() {
    let mut bytes = EXAMPLE;
    bytes[23] = 3;
    assert_eq!(line(&bytes), "inconclusive 3");
}

#[test]
fn case_03_join_over_an_event_that_one_side_lacks() {
    let mut draft = joined_loops(1, loops([0]), vec![], 1);
    assert_eq!(root_list(&draft), []);
    draft.hide(2, 1);
    assert_eq!(line(&draft.bytes()), "pass 1");
}

#[test]
fn case_04_join_over_nothing() {
    let mut draft = joined_loops(1, loops([0]), vec![], 0);
    assert_eq!(root_list(&draft), [(1, 0)]);
    draft.hide(2, 1);
    assert_eq!(line(&draft.bytes()), "inconclusive 3");
}

#[test]
fn case_05_two_loops_over_nothing() {
    let draft = joined_loops(2, loops([0]), loops([1]), 0);
    assert_eq!(root_list(&draft), [(1, 2), (2, 1), (3, 0)]);
}

#[test]
fn case_06_two_loops_over_an_event_of_one() {
    let draft = joined_loops(2, loops([0]), loops([1]), event(0));
    assert_eq!(root_list(&draft), [(2, 1)]);
}

#[test]
fn case_07_rename_merges() {
    let mut targets: Targets = std::array::from_fn(|source| source as u8);
    targets[0] = 1;
    let mut draft = Draft::new(2);
    draft.machine(1, loops([0]));
    let leaf = draft.leaf(0);
    draft.rename(leaf, targets);
    assert_eq!(root_list(&draft), [(2, 1)]);
}

#[test]
fn case_08_silent_step_on_the_walk() {
    let mut draft = Draft::new(1);
    draft.machine(2, steps(&[(0, SILENT, 1), (1, 0, 0)]));
    draft.leaf(0);
    assert_eq!(root_list(&draft), [(1, 0)]);
}

#[test]
fn case_09_silent_loop() {
    let mut draft = Draft::new(1);
    draft.machine(1, loops([SILENT]));
    let mut unnamed = draft.clone();
    draft.leaf(0);
    assert_eq!(line(&draft.bytes()), "inconclusive 0");
    unnamed.machine(1, loops([0]));
    unnamed.leaf(1);
    assert_eq!(root_list(&unnamed), [(1, 0)]);
}

#[test]
fn case_10_inconclusive_though_free_of_livelock() {
    let (a, b) = (0, 1);
    let mut draft = Draft::new(2);
    draft.machine(2, steps(&[(0, a, 1), (1, a, 0), (1, b, 1)]));
    draft.machine(2, steps(&[(0, a, 1), (0, b, 0), (1, a, 0)]));
    let (p, q) = (draft.leaf(0), draft.leaf(1));
    let both = draft.join(p, q, event(a) | event(b));
    draft.hide(both, event(b));
    assert_eq!(line(&draft.bytes()), "inconclusive 3");
}

#[test]
fn case_11_most_pairs() {
    assert_eq!(root_list(&joined_loops(9, loops(0..4), loops(4..8), 0)).len(), 255);
    let draft = joined_loops(9, loops(0..4), loops(4..9), 0);
    assert_eq!(line(&draft.bytes()), "refused 11 2");
}

#[test]
fn case_12_cuts() {
    assert_eq!(line(&[]), "refused 2 0");
    assert_eq!(line(&EXAMPLE[..25]), "refused 2 25");
    assert_eq!(line(&EXAMPLE[..27]), "refused 2 25");
    assert_eq!(line(&[&EXAMPLE[..5], &EXAMPLE].concat()), "refused 5 4");
}

#[test]
fn case_13_one_node_twice_and_nine_events() {
    let mut twice = EXAMPLE;
    twice[18] = 0;
    assert_eq!(line(&twice), "refused 6 16");
    let one_machine = |events: u8| {
        let mut draft = Draft::new(9);
        draft.machine(1, loops(0..events));
        draft.leaf(0);
        draft
    };
    assert_eq!(root_list(&one_machine(8)).len(), 255);
    assert_eq!(line(&one_machine(9).bytes()), "refused 10 36");
}

#[test]
fn replay_text_of_the_example() {
    let runs = "\
spare zero 1020 untouched 7424
exact pass 4 zero 1020 untouched 0
short refused 13 0 zero 0 untouched 1023
";
    assert_eq!(replayed(&EXAMPLE), EXAMPLE_PRINTED.to_owned() + runs);
    assert_eq!(replayed(&[]), "refused 2 0\nspare zero 0 untouched 8448\n");
}
