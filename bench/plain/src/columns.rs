//! Bench code: columns of a table map, and images of its rows.

use crate::{number_at, packed_at};

/// How a column's value is stored in an image.
#[derive(Clone, Copy)]
pub enum Storage {
    /// So many bytes.
    Fixed(u16),
    /// A length of so many bytes, and as many bytes as that says.
    Counted(u8),
}

use Storage::{Counted, Fixed};

/// A table map's body: its parts, the layout not yet judged.
pub struct Map<'a> {
    pub id: u64,
    pub schema: &'a [u8],
    pub table: &'a [u8],
    rest: &'a [u8],
}

/// What two maps of one table must agree in, as it stands in a body.
#[derive(Clone, Copy, PartialEq)]
pub struct Columns<'a> {
    pub types: &'a [u8],
    pub metadata: &'a [u8],
}

impl<'a> Map<'a> {
    pub fn read(body: &'a [u8]) -> Option<Map<'a>> {
        let id = number_at(body, 0, 6)? as u64;
        let (schema, at) = name(body, 8)?;
        let (table, at) = name(body, at)?;
        Some(Map { id, schema, table, rest: &body[at..] })
    }

    /// The columns, or the name of the fault that their layout has.
    pub fn columns(&self) -> Result<Columns<'a>, &'static str> {
        let rest = self.rest;
        let (count, at) = packed_at(rest, 0).filter(|&(count, _)| (1..=4096).contains(&count)).ok_or("BadBody")?;
        let types = rest.get(at..at + count).ok_or("BadBody")?;
        let mut length = 0;
        for &kind in types {
            length += metadata_length(kind).ok_or("UnknownType")?;
        }
        let (told, at) = packed_at(rest, at + count).ok_or("BadBody")?;
        let metadata = rest.get(at..).filter(|_| told == length).and_then(|rest| rest.get(..length)).ok_or("BadBody")?;
        let columns = Columns { types, metadata };
        let room = rest.len() - (at + length);
        if !columns.each().all(|storage| storage.is_some()) || room < count.div_ceil(8) {
            return Err("BadBody");
        }
        Ok(columns)
    }
}

impl<'a> Columns<'a> {
    fn each(self) -> impl Iterator<Item = Option<Storage>> + 'a {
        let mut metadata = self.metadata;
        self.types.iter().map(move |&kind| {
            let (own, rest) = metadata.split_at(metadata_length(kind)?);
            metadata = rest;
            storage(kind, own)
        })
    }

    /// Of columns that were judged.
    pub fn storages(self) -> Vec<Storage> {
        self.each().flatten().collect()
    }
}

fn name(body: &[u8], at: usize) -> Option<(&[u8], usize)> {
    let end = at + 1 + *body.get(at)? as usize;
    (*body.get(end)? == 0).then(|| (&body[at + 1..end], end + 1))
}

fn metadata_length(kind: u8) -> Option<usize> {
    match kind {
        1..=3 | 7..=13 => Some(0),
        4 | 5 | 17..=19 | 245 | 252 | 255 => Some(1),
        15 | 16 | 246 | 254 => Some(2),
        _ => None,
    }
}

/// None if the metadata isn't one that the type may have.
fn storage(kind: u8, metadata: &[u8]) -> Option<Storage> {
    let counted = |greatest| Counted(if greatest <= 255 { 1 } else { 2 });
    let fraction = |base, digits: u8| (digits <= 6).then(|| Fixed(base + (u16::from(digits) + 1) / 2));
    match (kind, metadata) {
        (1 | 13, _) => Some(Fixed(1)),
        (2, _) => Some(Fixed(2)),
        (9..=11, _) => Some(Fixed(3)),
        (3 | 7, _) => Some(Fixed(4)),
        (8 | 12, _) => Some(Fixed(8)),
        (4, [4]) => Some(Fixed(4)),
        (5, [8]) => Some(Fixed(8)),
        (17, &[digits]) => fraction(4, digits),
        (18, &[digits]) => fraction(5, digits),
        (19, &[digits]) => fraction(3, digits),
        (245 | 252 | 255, &[width]) => (1..=4).contains(&width).then_some(Counted(width)),
        (15, &[low, high]) => Some(counted(u16::from_le_bytes([low, high]))),
        (16, &[bits, bytes]) => Some(Fixed(u16::from(bytes) + u16::from(bits > 0))),
        (246, &[digits, scale]) => (scale <= digits).then(|| Fixed(decimal(digits - scale) + decimal(scale))),
        (254, &[247 | 248, width]) => Some(Fixed(width.into())),
        (254, &[mixed, low]) => Some(counted(u16::from_le_bytes([low, (mixed >> 4 & 3) ^ 3]))),
        _ => None,
    }
}

fn decimal(digits: u8) -> u16 {
    u16::from(digits / 9 * 4) + [0, 1, 1, 2, 2, 3, 3, 4, 4][usize::from(digits % 9)]
}

/// The length of the image with which the bytes begin.
pub fn image_length(columns: &[Storage], bytes: &[u8]) -> Option<usize> {
    let mut at = columns.len().div_ceil(8);
    let nulls = bytes.get(..at)?;
    for (columns, nulls) in columns.chunks(8).zip(nulls) {
        for (i, column) in columns.iter().enumerate() {
            if nulls >> i & 1 == 0 {
                at += match *column {
                    Fixed(width) => width as usize,
                    Counted(width) => width as usize + number_at(bytes, at, width as usize)?,
                };
            }
        }
    }
    (at <= bytes.len()).then_some(at)
}

/// The first of so many bits of a bitmap are set.
pub fn are_set(bitmap: &[u8], count: usize) -> bool {
    bitmap[..count / 8].iter().all(|&byte| byte == 255) && {
        let last = (1u8 << (count % 8)) - 1;
        last == 0 || bitmap[count / 8] & last == last
    }
}
