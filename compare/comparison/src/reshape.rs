//! Makes a mesh simpler record by record, where leaving out numbers alone would shift all that follows.

use crate::record::{is_flagged, shape, size};
use station::Kind;

/// The numbers of a mesh by its records; the last one may be cut.
fn records<T: Copy>(
    kind: Kind,
    components: usize,
    numbers: &[T],
    flag_of: fn(T) -> u32,
) -> Vec<&[T]> {
    let mut records = Vec::new();
    let mut rest = numbers;
    while let Some(&first) = rest.first() {
        let size = size(kind, components, flag_of(first)).min(rest.len());
        let (record, after) = rest.split_at(size);
        records.push(record);
        rest = after;
    }
    records
}

/// The mesh without one of its records, the last first.
pub fn without_a_record<T: Copy>(
    kind: Kind,
    components: usize,
    numbers: &[T],
    flag_of: fn(T) -> u32,
) -> impl Iterator<Item = Vec<T>> + '_ {
    let records = records(kind, components, numbers, flag_of);
    (0..records.len())
        .rev()
        .map(move |left_out| [&records[..left_out], &records[left_out + 1..]].concat())
        .map(|kept| kept.concat())
}

/// The mesh without the last component of each colour; none if there are no components.
pub fn without_a_component<T: Copy>(
    kind: Kind,
    components: usize,
    numbers: &[T],
    flag_of: fn(T) -> u32,
) -> Option<Vec<T>> {
    if components == 0 {
        return None;
    }
    let mut kept = Vec::new();
    for record in records(kind, components, numbers, flag_of) {
        let (coordinates, _) = shape(kind, flag_of(record[0]));
        let before = record
            .len()
            .min(usize::from(is_flagged(kind)) + coordinates);
        let (first, colours) = record.split_at(before);
        kept.extend(first);
        for colour in colours.chunks(components) {
            kept.extend(&colour[..colour.len().min(components - 1)]);
        }
    }
    Some(kept)
}
