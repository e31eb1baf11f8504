//! Counts the files of an expected text by verdict: pass, inconclusive and each refusal number.

use std::collections::BTreeMap;

const LAST_REFUSAL: usize = 13;

/// A line for pass, inconclusive and each refusal number, with how many files have it.
pub fn tally(expected: &str) -> String {
    let mut counts = BTreeMap::new();
    for line in verdict_lines(expected) {
        *counts.entry(title(line)).or_insert(0) += 1;
    }
    let count_line = |title: String| {
        let count = counts.get(&title).unwrap_or(&0);
        format!("{title} {count}\n")
    };
    let refusals = (1..=LAST_REFUSAL).map(|number| format!("refused {number}"));
    ["pass".into(), "inconclusive".into()].into_iter().chain(refusals).map(count_line).collect()
}

/// The line behind each line that names a file.
fn verdict_lines(expected: &str) -> impl Iterator<Item = &str> {
    let names_file = |line: &str| line.starts_with("file ");
    let pairs = expected.lines().zip(expected.lines().skip(1));
    pairs.filter(move |(line, _)| names_file(line)).map(|(_, next)| next)
}

/// The verdict and, of a refusal, its number, without node, bound or place.
fn title(line: &str) -> String {
    let words = if line.starts_with("refused") { 2 } else { 1 };
    line.split(' ').take(words).collect::<Vec<_>>().join(" ")
}

#[cfg(test)]
mod tests {
    use super::tally;

    #[test]
    fn counts_each_file_once() {
        let text = "file a\npass 4\n0 leaf 0\nfile b\nrefused 2 0\nspare zero 0 untouched 8448\n";
        let table = tally(text);
        assert!(
            table.starts_with("pass 1\ninconclusive 0\nrefused 1 0\nrefused 2 1\nrefused 3 0\n")
        );
        assert_eq!(table.lines().count(), 15);
    }
}
