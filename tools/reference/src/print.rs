//! The texts: the printed result of one model, and what the replay program says of a file.

use std::fmt::Write;

use crate::analyse::{analyse, Verdict};
use crate::model::{Refusal, MOST_NODES, MOST_PAIRS};
use crate::read::read;

const UNTOUCHED: u32 = 0xAAAA_AAAA;

/// One section more than any model asks for.
const SPARE_ENTRIES: usize = (MOST_NODES + 1) * MOST_PAIRS;

/// The verdict on a file with room to spare.
pub fn verdict(bytes: &[u8]) -> Verdict {
    run_in_area(bytes, SPARE_ENTRIES).0
}

/// The first line of the printed result, without its line feed.
pub fn first_line(verdict: &Verdict) -> String {
    match verdict {
        Verdict::Pass { bound, .. } => format!("pass {bound}"),
        Verdict::Inconclusive { node } => format!("inconclusive {node}"),
        Verdict::Refused(Refusal { number, place }) => format!("refused {number} {place}"),
    }
}

/// The printed result.
pub fn printed(verdict: &Verdict) -> String {
    let mut text = first_line(verdict) + "\n";
    if let Verdict::Pass { nodes, lists, .. } = verdict {
        for (number, (node, list)) in nodes.iter().zip(lists).enumerate() {
            let _ = writeln!(text, "{number} {} {}", node.kind(), list.len());
            for (f, c) in list {
                let _ = writeln!(text, "{f:04x} {c:04x}");
            }
        }
    }
    text
}

/// What the replay program says of a file's bytes after the line that names the file.
pub fn replayed(bytes: &[u8]) -> String {
    let (verdict, counts) = run_in_area(bytes, SPARE_ENTRIES);
    let mut text = printed(&verdict) + &format!("spare {counts}\n");
    if let Ok(model) = read(bytes) {
        let exact = MOST_PAIRS * model.nodes.len();
        for (name, entries) in [("exact", exact), ("short", exact - 1)] {
            let (verdict, counts) = run_in_area(bytes, entries);
            let _ = writeln!(text, "{name} {} {counts}", first_line(&verdict));
        }
    }
    text
}

/// The verdict of a run in an area of so many entries, and what that run left in it.
fn run_in_area(bytes: &[u8], entries: usize) -> (Verdict, String) {
    let mut area = vec![UNTOUCHED; entries];
    let verdict = analyse(bytes, &mut area);
    let count = |value| area.iter().filter(|&&entry| entry == value).count();
    let counts = format!("zero {} untouched {}", count(0), count(UNTOUCHED));
    (verdict, counts)
}
