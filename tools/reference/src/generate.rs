//! The generator of model files: a fixed mix of sorts, each file made from the seed and its number.

mod damage;
pub mod draft;
mod faults;
mod limits;
mod network;

use std::fs;
use std::io;
use std::path::Path;

use crate::random::Random;
use network::{network, rich, Shape};

type Maker = fn(&mut Random) -> Vec<u8>;

/// The sorts of files: name, share in the mix, maker.
const SORTS: &[(&str, usize, Maker)] = &[
    ("small", 16, small),
    ("large", 4, large),
    ("hidden", 8, hidden),
    ("silent", 10, silent),
    ("small-rich", 40, small_rich),
    ("large-rich", 28, large_rich),
    ("events", 3, limits::events),
    ("machines", 4, limits::machines),
    ("leaves", 4, limits::leaves),
    ("nodes", 4, limits::nodes),
    ("steps", 4, limits::steps),
    ("machine-events", 9, limits::machine_events),
    ("states", 4, limits::states),
    ("pairs", 7, limits::pairs),
    ("free-pairs", 2, limits::free_pairs),
    ("bytes", 4, limits::bytes),
    ("cut", 4, damage::cut),
    ("cut-then-whole", 4, damage::cut_then_whole),
    ("cut-then-other", 4, damage::cut_then_other),
    ("splice", 4, damage::splice),
    ("flipped-bits", 8, damage::flipped_bits),
    ("changed-bytes", 6, damage::changed_bytes),
    ("shifted", 4, damage::shifted),
    ("swapped-records", 4, damage::swapped_records),
    ("duplicated-record", 4, damage::duplicated_record),
    ("deleted-record", 4, damage::deleted_record),
    ("inserted-record", 4, damage::inserted_record),
    ("changed-kind", 4, damage::changed_kind),
    ("early-end", 3, damage::early_end),
    ("random-bytes", 2, damage::random_bytes),
    ("random-records", 4, damage::random_records),
    ("empty", 1, damage::empty),
    ("too-long", 1, faults::too_long),
    ("stops-at-record", 2, faults::stops_at_record),
    ("unknown-kind", 4, faults::unknown_kind),
    ("misplaced-kind", 4, faults::misplaced_kind),
    ("out-of-range", 14, faults::out_of_range),
    ("wrong-operand", 5, faults::wrong_operand),
    ("unordered-steps", 4, faults::unordered_steps),
    ("wrong-end", 4, faults::wrong_end),
    ("two-faults", 14, faults::two_faults),
    ("ninth-event-and-fault", 3, faults::ninth_event_and_fault),
];

/// A prime above the sum of all shares: steps of this length through the mix meet every sort.
const STRIDE: usize = 7919;

/// Writes so many files into a folder, each named after its number and sort.
pub fn write_files(count: usize, seed: u64, dir: &Path) -> io::Result<()> {
    for number in 0..count {
        let (sort, bytes) = file(seed, number);
        fs::write(dir.join(format!("{number:06}-{sort}.bin")), bytes)?;
    }
    Ok(())
}

/// The sort and the bytes of one file.
pub fn file(seed: u64, number: usize) -> (&'static str, Vec<u8>) {
    let shares: usize = SORTS.iter().map(|(_, share, _)| share).sum();
    let mut position = number * STRIDE % shares;
    for &(sort, share, make) in SORTS {
        if position < share {
            return (sort, make(&mut Random::for_file(seed, number as u64)));
        }
        position -= share;
    }
    unreachable!("a position lies below the sum of all shares")
}

fn small(random: &mut Random) -> Vec<u8> {
    let shape = Shape::small(random);
    network(random, &shape).bytes()
}

fn large(random: &mut Random) -> Vec<u8> {
    let shape = Shape::large(random);
    network(random, &shape).bytes()
}

/// A network that hides much, so that flags go up.
fn hidden(random: &mut Random) -> Vec<u8> {
    let shape = Shape { hides_percent: 80, hidden_percent: 50, unaries: 4, ..Shape::any(random) };
    network(random, &shape).bytes()
}

/// A network with many silent steps, so that some close a silent walk.
fn silent(random: &mut Random) -> Vec<u8> {
    let shape = Shape { silent_percent: 60, ..Shape::any(random) };
    network(random, &shape).bytes()
}

fn small_rich(random: &mut Random) -> Vec<u8> {
    rich(random, Shape::small).bytes()
}

fn large_rich(random: &mut Random) -> Vec<u8> {
    rich(random, Shape::large).bytes()
}

#[cfg(test)]
mod tests {
    use super::*;
    use crate::analyse::Verdict;
    use crate::print::verdict;

    #[test]
    fn a_file_depends_on_seed_and_number_alone() {
        assert_eq!(file(7, 30), file(7, 30));
        assert_ne!(file(7, 2).1, file(8, 2).1);
    }

    #[test]
    fn a_thousand_files_have_every_verdict() {
        let mut refused = [0; 14];
        let mut inconclusive = 0;
        let mut rich = 0;
        for number in 0..1000 {
            match verdict(&file(1, number).1) {
                Verdict::Pass { lists, .. } => {
                    rich += usize::from(lists.iter().any(|l| l.len() > 2))
                }
                Verdict::Inconclusive { .. } => inconclusive += 1,
                Verdict::Refused(refusal) => refused[usize::from(refusal.number)] += 1,
            }
        }
        assert!(rich >= 250 && inconclusive >= 25, "{rich} rich, {inconclusive} inconclusive");
        assert!(refused[1..=11].iter().all(|&count| count >= 8), "{refused:?}");
        assert_eq!((refused[12], refused[13]), (0, 0));
    }
}
