//! Damage to the records and bytes of a file.

use super::diagrams::random_function;
use super::Random;
use crate::diagram::ROW_KINDS;
use crate::records::{record, shape, word, EXIT, FUNCTION, IT_OPEN, PREFIX_LENGTH};
use std::ops::RangeInclusive;

/// A record of any of these kinds, a FUNCTION or IT open with fields that hold.
pub(super) fn random_record(
    random: &mut Random,
    kinds: RangeInclusive<u16>,
    item_kinds: &[u16],
) -> Vec<u8> {
    match random.between(*kinds.start(), *kinds.end()) {
        FUNCTION => random_function(random, item_kinds, 0),
        IT_OPEN => record(IT_OPEN, &[random.between(2, 5)]),
        EXIT => record(EXIT, &[random.between(0, 3)]),
        kind => {
            let (_, field_count) = shape(kind).unwrap_or_default();
            let fields: Vec<u16> = (0..field_count).map(|_| random.word()).collect();
            record(kind, &fields)
        }
    }
}

/// Records swapped, deleted, doubled, replaced or put in, one to three times.
pub(super) fn damage_records(
    random: &mut Random,
    records: &mut Vec<Vec<u8>>,
    kinds: RangeInclusive<u16>,
    item_kinds: &[u16],
) {
    for _ in 0..random.below(3) + 1 {
        if records.is_empty() {
            return;
        }
        let (at, other) = (random.below(records.len()), random.below(records.len()));
        match random.below(5) {
            0 => records.swap(at, other),
            1 => {
                records.remove(at);
            }
            2 => records.insert(other, records[at].clone()),
            3 => records[at] = random_record(random, kinds.clone(), item_kinds),
            _ => records.insert(at, random_record(random, kinds.clone(), item_kinds)),
        }
    }
}

/// Bytes flipped, set, cut or put behind, one to three times.
pub(super) fn damage_bytes(random: &mut Random, bytes: &mut Vec<u8>) {
    for _ in 0..random.below(3) + 1 {
        let at = random.below(bytes.len());
        match random.below(6) {
            0 | 1 => {
                let flipped = 1 << random.below(8);
                if let Some(byte) = bytes.get_mut(at) {
                    *byte ^= flipped;
                }
            }
            2 => {
                let value = random.draw() as u8;
                if let Some(byte) = bytes.get_mut(at) {
                    *byte = value;
                }
            }
            3 => bytes.truncate(at),
            4 => {
                let more = random.below(9);
                bytes.extend(random.bytes(more));
            }
            _ => bytes.extend(random_record(random, ROW_KINDS, &[])),
        }
    }
}

/// One word of the file off: by one, or any.
pub(super) fn damage_field(random: &mut Random, bytes: &mut [u8]) {
    let at = random.below(bytes.len() / 2);
    let value = match random.below(3) {
        0 => word(bytes, at).wrapping_add(1),
        1 => word(bytes, at).wrapping_sub(1),
        _ => random.word(),
    };
    if let Some(field) = bytes.get_mut(2 * at..2 * at + 2) {
        field.copy_from_slice(&value.to_le_bytes());
    }
}

/// The records of a file by their lengths; what is no record comes last.
pub(super) fn split_records(bytes: &[u8]) -> Vec<Vec<u8>> {
    let mut records = Vec::new();
    let mut rest = bytes;
    while !rest.is_empty() {
        let length = usize::from(word(rest, 0)).max(PREFIX_LENGTH);
        let (record, tail) = rest.split_at(length.min(rest.len()));
        records.push(record.to_vec());
        rest = tail;
    }
    records
}
