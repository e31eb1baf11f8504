//! Damage of every kind done to whole model files, without a look at what it leads to.

use super::draft::{encode, with_end, Draft};
use super::network::any;
use crate::random::Random;
use crate::record::body_length;

/// The first bytes of a file.
pub fn cut(random: &mut Random) -> Vec<u8> {
    let mut bytes = any(random).bytes();
    bytes.truncate(random.below(bytes.len()));
    bytes
}

/// The first bytes of a file, then the whole of it.
pub fn cut_then_whole(random: &mut Random) -> Vec<u8> {
    let whole = any(random).bytes();
    let cut = &whole[..random.below(whole.len())];
    [cut, &whole].concat()
}

/// The first bytes of a file, then the whole of another.
pub fn cut_then_other(random: &mut Random) -> Vec<u8> {
    [cut(random), any(random).bytes()].concat()
}

/// The first bytes of a file, then the last bytes of another.
pub fn splice(random: &mut Random) -> Vec<u8> {
    let other = any(random).bytes();
    [&cut(random), &other[random.below(other.len())..]].concat()
}

pub fn flipped_bits(random: &mut Random) -> Vec<u8> {
    let mut bytes = any(random).bytes();
    for _ in 0..random.pick(&[1, 1, 1, 2, 5]) {
        let place = random.below(bytes.len());
        bytes[place] ^= 1 << random.below(8);
    }
    bytes
}

pub fn changed_bytes(random: &mut Random) -> Vec<u8> {
    let mut bytes = any(random).bytes();
    for _ in 0..random.pick(&[1, 1, 2, 4]) {
        let place = random.below(bytes.len());
        bytes[place] = random.byte();
    }
    bytes
}

/// One byte left out or put in anywhere.
pub fn shifted(random: &mut Random) -> Vec<u8> {
    let mut bytes = any(random).bytes();
    let place = random.below(bytes.len());
    if random.chance(50) {
        bytes.remove(place);
    } else {
        bytes.insert(place, random.byte());
    }
    bytes
}

/// Two adjacent records swapped; the end still counts right.
pub fn swapped_records(random: &mut Random) -> Vec<u8> {
    let mut draft = any(random);
    let place = random.below(draft.records.len() - 1);
    draft.records.swap(place, place + 1);
    draft.bytes()
}

pub fn duplicated_record(random: &mut Random) -> Vec<u8> {
    let mut draft = any(random);
    let place = random.below(draft.records.len());
    draft.records.insert(place, draft.records[place]);
    recounted_at_times(random, &draft)
}

pub fn deleted_record(random: &mut Random) -> Vec<u8> {
    let mut draft = any(random);
    draft.records.remove(random.below(draft.records.len()));
    recounted_at_times(random, &draft)
}

/// A record of another file put in anywhere.
pub fn inserted_record(random: &mut Random) -> Vec<u8> {
    let (mut draft, other) = (any(random), any(random));
    let record = random.pick(&other.records);
    draft.records.insert(random.below(draft.records.len() + 1), record);
    recounted_at_times(random, &draft)
}

/// A record whose kind is another, with the length of its body as before or as that kind asks.
pub fn changed_kind(random: &mut Random) -> Vec<u8> {
    let draft = any(random);
    let chosen = random.below(draft.records.len());
    let mut bytes = vec![];
    for (number, record) in draft.records.iter().enumerate() {
        let mut record = record.encode();
        if number == chosen {
            record[0] = random.byte_below(10);
        }
        bytes.extend(record);
    }
    with_end(bytes)
}

/// The file with the right end record, or now and then with an end that counts wrongly.
fn recounted_at_times(random: &mut Random, draft: &Draft) -> Vec<u8> {
    let mut bytes = draft.bytes();
    if random.chance(20) {
        let end = bytes.len() - 2;
        bytes[end] ^= 1;
    }
    bytes
}

/// An end record anywhere between the others, which counts right there.
pub fn early_end(random: &mut Random) -> Vec<u8> {
    let draft = any(random);
    let place = random.below(draft.records.len() + 1);
    let (before, behind) = draft.records.split_at(place);
    with_end([with_end(encode(before)), encode(behind)].concat())
}

pub fn random_bytes(random: &mut Random) -> Vec<u8> {
    let count = random.within(1..=60);
    if random.chance(50) {
        random.bytes(count)
    } else {
        (0..count).map(|_| random.byte_below(10)).collect()
    }
}

/// Records of random kinds with small numbers, behind a header and a machine.
pub fn random_records(random: &mut Random) -> Vec<u8> {
    let mut bytes = vec![1, random.byte_within(1..=3), 2, random.byte_within(1..=3)];
    for _ in 0..random.within(1..=12) {
        let kind = random.byte_within(2..=8);
        let length = body_length(kind).unwrap_or(0);
        bytes.push(kind);
        bytes.extend((0..length).map(|_| random.byte_below(3)));
    }
    with_end(bytes)
}

pub fn empty(_: &mut Random) -> Vec<u8> {
    vec![]
}
