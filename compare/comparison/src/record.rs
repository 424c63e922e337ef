//! The shape of each type's records, and the raw reading of bytes by the original's bit reader.

use original::mesh_shading::BitReader;
use station::{Kind, Layout};

/// Whether each record of the type begins with a flag.
pub fn is_flagged(kind: Kind) -> bool {
    kind != Kind::Type5
}

/// Whether the type's records are patches, whose flags document 01 restricts.
pub fn is_patched(kind: Kind) -> bool {
    matches!(kind, Kind::Type6 | Kind::Type7)
}

/// How many coordinates and how many colours a record has. The two low bits of a flag say it; where the whole number counts, a patch has none above 3.
pub fn shape(kind: Kind, flag: u32) -> (usize, usize) {
    match (kind, flag % 4) {
        (Kind::Type4 | Kind::Type5, _) => (2, 1),
        (Kind::Type6, 0) => (24, 4),
        (Kind::Type6, _) => (16, 2),
        (Kind::Type7, 0) => (32, 4),
        (Kind::Type7, _) => (24, 2),
    }
}

/// How many numbers a record has, its flag included.
pub fn size(kind: Kind, components: usize, flag: u32) -> usize {
    let (coordinates, colours) = shape(kind, flag);
    usize::from(is_flagged(kind)) + coordinates + colours * components
}

/// The widths of the numbers that follow a record's flag.
pub fn widths(kind: Kind, l: Layout, flag: u32) -> impl Iterator<Item = usize> {
    let (coordinates, colours) = shape(kind, flag);
    std::iter::repeat_n(l.coordinate, coordinates)
        .chain(std::iter::repeat_n(l.component, colours * l.components))
}

/// Whether a patch with this flag can stand here.
fn patch_follows(flag: u32, is_first: bool) -> bool {
    flag == 0 || (flag <= 3 && !is_first)
}

/// The raw numbers of the complete records of bytes, as document 01 defines the raw reading.
pub fn raw_reading(kind: Kind, l: Layout, data: &[u8]) -> Vec<u32> {
    reading(kind, l, data, |flag| flag)
}

/// The same where the two low bits of a flag count. The flags are whole all the same.
pub fn low_flag_reading(kind: Kind, l: Layout, data: &[u8]) -> Vec<u32> {
    reading(kind, l, data, |flag| flag % 4)
}

/// The raw numbers of complete records, given what counts of a flag.
fn reading(kind: Kind, l: Layout, data: &[u8], counted: fn(u32) -> u32) -> Vec<u32> {
    let mut reader = BitReader::new(data);
    let mut numbers = Vec::new();
    while append_record(kind, l, counted, &mut reader, &mut numbers).is_some() {}
    numbers
}

/// Reads one record; at the end of the mesh it appends nothing.
fn append_record(
    kind: Kind,
    l: Layout,
    counted: fn(u32) -> u32,
    reader: &mut BitReader<'_>,
    numbers: &mut Vec<u32>,
) -> Option<()> {
    let start = numbers.len();
    let mut flag = 0;
    if is_flagged(kind) {
        flag = reader.read(l.flag)?;
        if is_patched(kind) && !patch_follows(counted(flag), start == 0) {
            return None;
        }
        numbers.push(flag);
    }
    let (coordinates, colours) = shape(kind, flag);
    for (width, count) in [
        (l.coordinate, coordinates),
        (l.component, colours * l.components),
    ] {
        for _ in 0..count {
            let Some(number) = reader.read(width) else {
                numbers.truncate(start);
                return None;
            };
            numbers.push(number);
        }
    }
    Some(())
}

/// The flag of each triangle or patch that the numbers give, flags as whole numbers.
pub fn mesh_flags(kind: Kind, components: usize, numbers: &[u32]) -> Vec<u32> {
    let mut flags = Vec::new();
    let mut place = 0;
    while place < numbers.len() {
        let flag = numbers[place];
        if is_patched(kind) && !patch_follows(flag, flags.is_empty()) {
            break;
        }
        let records = if kind == Kind::Type4 && flag == 0 {
            3
        } else {
            1
        };
        place += records * size(kind, components, flag);
        let is_dropped = flag > 0 && flags.is_empty() || kind == Kind::Type4 && flag > 2;
        if place <= numbers.len() && !is_dropped {
            flags.push(flag);
        }
    }
    flags
}

/// Whether the writer refuses the list with RECORD.
pub fn breaks_a_rule(kind: Kind, l: Layout, list: &[u32]) -> bool {
    let fits = |number: u32, width: usize| u64::from(number) < 1 << width;
    let mut rest = list;
    while let Some(&first) = rest.first() {
        let flag = if is_flagged(kind) { first } else { 0 };
        if is_patched(kind) && !patch_follows(flag, rest.len() == list.len()) {
            return true;
        }
        let size = size(kind, l.components, flag);
        if size > rest.len() {
            return true;
        }
        let (record, after) = rest.split_at(size);
        let widths = is_flagged(kind)
            .then_some(l.flag)
            .into_iter()
            .chain(widths(kind, l, flag));
        if record.iter().zip(widths).any(|(&x, width)| !fits(x, width)) {
            return true;
        }
        rest = after;
    }
    false
}

/// The bits of a record, its flag included.
pub fn record_bits(kind: Kind, l: Layout, flag: u32) -> usize {
    let before = if is_flagged(kind) { l.flag } else { 0 };
    before + widths(kind, l, flag).sum::<usize>()
}

/// A number that differs in its low and its high bits from those of the places beside it.
pub fn scattered(place: usize) -> u32 {
    (place as u32).wrapping_mul(0x9e37_79b9)
}

/// Records with these flags, which Type 5 leaves out. The other numbers are made of their places in the list.
pub fn records(kind: Kind, components: usize, flags: &[u32], number: fn(usize) -> u32) -> Vec<u32> {
    let mut list = Vec::new();
    for &flag in flags {
        let end = list.len() + size(kind, components, flag);
        list.extend(is_flagged(kind).then_some(flag));
        list.extend((list.len()..end).map(number));
    }
    list
}

/// The list packed by its widths, the last byte filled with zeros.
pub fn packed(kind: Kind, l: Layout, list: &[u32]) -> Vec<u8> {
    let mut writer = BitWriter::default();
    let mut rest = list;
    while let Some(&first) = rest.first() {
        let mut flag = 0;
        if is_flagged(kind) {
            flag = first;
            writer.put(u64::from(flag), l.flag);
            rest = &rest[1..];
        }
        for width in widths(kind, l, flag) {
            writer.put(u64::from(rest[0]), width);
            rest = &rest[1..];
        }
    }
    writer.finish()
}

/// Packs numbers from the high end of each byte.
#[derive(Default)]
pub struct BitWriter {
    bytes: Vec<u8>,
    /// The bits that don't make a byte yet.
    held: u64,
    count: usize,
}

impl BitWriter {
    /// Adds the lowest bits of a number, at most 32.
    pub fn put(&mut self, value: u64, width: usize) {
        self.held = self.held << width | value & ((1 << width) - 1);
        self.count += width;
        while self.count >= 8 {
            self.count -= 8;
            self.bytes.push((self.held >> self.count) as u8);
        }
    }

    /// The bytes, with the last one filled with zeros.
    pub fn finish(mut self) -> Vec<u8> {
        if self.count > 0 {
            self.bytes.push((self.held << (8 - self.count)) as u8);
        }
        self.bytes
    }
}
