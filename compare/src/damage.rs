//! Damaged sheets: cut, shuffled, with a number at or past its limit.

use std::collections::BTreeSet;

use crate::random::Random;
use crate::reference::Edition;

/// Bytes that some field or other has at its limit.
const BYTES: [u8; 16] = [0, 1, 2, 3, 4, 5, 6, 15, 16, 17, 32, 35, 56, 127, 254, 255];
const TAGS: [u8; 14] =
    [0x00, 0x01, 0x02, 0x10, 0x11, 0x12, 0x1F, 0x20, 0x21, 0x22, 0x23, 0x24, 0x25, 0x26];
const LENGTHS: [u16; 25] =
    [0, 1, 2, 3, 4, 5, 6, 7, 8, 9, 10, 11, 12, 15, 16, 20, 25, 26, 30, 35, 36, 40, 46, 56, 66];

/// The limits of block size, dimension, span and view dimension, and the numbers past them.
const EXTENTS: [u16; 4] = [0, 1, 4_096, 4_097];
/// The same of a stride, which has none but its width.
const STRIDES: [u16; 2] = [0, 65_535];
/// The same of an offset: -4,097, -4,096, 4,095 and 4,096.
const OFFSETS: [u16; 4] = [0xEFFF, 0xF000, 0x0FFF, 0x1000];
/// The numbers of a layout's dimension in their order.
const DIMENSION: [&[u16]; 5] = [&EXTENTS, &EXTENTS, &STRIDES, &OFFSETS, &EXTENTS];

const REGISTER: &[u8] = &[3, 4];
const SIDE: &[u8] = &[0, 1, 16, 17];
const KIND: &[u8] = &[5, 6];
const COMBINE: &[u8] = &[5, 6];
const MODE: &[u8] = &[0, 1, 4, 5];
const INDEX: &[u8] = &[0, 1, 2, 3, 4];
const INDEX_OR_NONE: &[u8] = &[0, 1, 2, 3, 4, 254, 255];

const VECTOR: u8 = 0x26;
const RESULT_KIND: &[u8] = &[3, 4, 5, 6];
const INTERPRETATION: &[u8] = &[5, 6, 7, 8, 9, 10];
const MEMORY_LAYOUT: &[u8] = &[1, 2];
const BIAS: &[u8] = &[0, 2];
/// A byte of a longer number.
const LONGER: &[u8] = &[];

/// What sheets get in place of a tag, a length and their edition. A later edition's additions
/// stay out of an earlier one's stock, so that a seed gives the earlier one the same sheets still.
struct Stock {
    edition: Edition,
    tags: Vec<u8>,
    lengths: Vec<u16>,
    editions: Vec<u8>,
}

impl Stock {
    fn of(edition: Edition) -> Stock {
        let mut stock = Stock {
            edition,
            tags: TAGS.to_vec(),
            lengths: LENGTHS.to_vec(),
            editions: editions(edition),
        };
        if edition.has_vectors() {
            stock.tags.extend([VECTOR, VECTOR + 1]);
            stock.lengths.extend([18, 19]);
        }
        stock
    }

    /// The limits of the one-byte numbers of an edition or a step, in their order.
    fn byte_limits(&self, tag: u8) -> Vec<&[u8]> {
        match tag {
            0x01 => vec![&self.editions],
            0x20 => vec![REGISTER, SIDE, SIDE, KIND],
            0x21 => vec![REGISTER, INDEX_OR_NONE, INDEX, INDEX_OR_NONE],
            0x22 => vec![REGISTER, INDEX, INDEX_OR_NONE],
            0x23 => vec![REGISTER, REGISTER, SIDE, SIDE, MODE, COMBINE],
            0x24 => vec![REGISTER, REGISTER],
            0x25 => vec![REGISTER, REGISTER, REGISTER, REGISTER],
            VECTOR if self.edition.has_vectors() => {
                let numbers = [REGISTER, RESULT_KIND, REGISTER, INTERPRETATION, KIND, SIDE, SIDE];
                let stride_and_offset = [LONGER; 6];
                [&numbers[..], &[MEMORY_LAYOUT], &stride_and_offset, &[BIAS]].concat()
            }
            _ => vec![],
        }
    }
}

/// The numbers that sheets of an edition get in place of their own.
pub fn editions(edition: Edition) -> Vec<u8> {
    match edition {
        Edition::One => vec![0, 1, 2],
        Edition::Two => vec![0, 1, 2, 3],
        Edition::Three => vec![0, 1, 2, 3, 4, 255],
    }
}

/// A sheet of an edition, damaged once or more often.
pub fn damage(random: &mut Random, sheet: &[u8], edition: Edition) -> Vec<u8> {
    let stock = Stock::of(edition);
    let mut sheet = sheet.to_vec();
    for _ in 0..random.pick(&[1, 1, 1, 1, 2, 3]) {
        damage_once(random, &mut sheet, &stock);
    }
    sheet
}

/// Bytes with no sense at all, most of them behind an edition.
pub fn noise(random: &mut Random, edition: Edition) -> Vec<u8> {
    let mut sheet = if random.percent(70) { vec![1, 1, 0, edition.number()] } else { Vec::new() };
    let start = sheet.len();
    // Cutting alone makes few sheets without an edition.
    let empty = edition > Edition::One && random.percent(10);
    sheet.resize(start + if empty { 0 } else { random.below(80) }, 0);
    random.fill(&mut sheet[start..]);
    if random.percent(70) && start + 3 <= sheet.len() {
        sheet[start] = random.pick(&Stock::of(edition).tags);
        sheet[start + 1] = random.below(60) as u8;
        sheet[start + 2] = 0;
    }
    sheet
}

fn damage_once(random: &mut Random, sheet: &mut Vec<u8>, stock: &Stock) {
    let fields = fields(sheet);
    if fields.is_empty() {
        sheet.push(random.pick(&BYTES));
        return;
    }
    let (start, end) = field(random, sheet, &fields, stock.edition);
    match random.below(12) {
        0 => sheet.truncate(random.below(sheet.len() + 1)),
        1 => sheet.extend((0..random.between(1, 4)).map(|_| random.pick(&stock.tags))),
        2 => sheet[start] = random.pick(&stock.tags),
        3 => change_length(random, sheet, (start, end), &stock.lengths),
        4 => drop(sheet.drain(start..end)),
        5 => repeat_field(random, sheet, start, end, fields.len()),
        6 => exchange(sheet, fields[random.below(fields.len())], (start, end)),
        7 => {
            let at = random.below(sheet.len());
            sheet[at] ^= 1 << random.below(8);
        }
        8 => change_byte(random, &mut sheet[start..end]),
        _ => change_to_limit(random, &mut sheet[start..end], stock),
    }
}

/// Some field. After edition 1 each tag that the sheet has gets an equal chance, so that those of
/// many fields do not crowd out the rest.
fn field(random: &mut Random, sheet: &[u8], fields: &[Field], edition: Edition) -> Field {
    if edition == Edition::One {
        return random.pick(fields);
    }
    let tags: BTreeSet<u8> = fields.iter().map(|&(start, _)| sheet[start]).collect();
    let tag = random.pick(&Vec::from_iter(tags));
    let tagged = fields.iter().copied().filter(|&(start, _)| sheet[start] == tag);
    random.pick(&Vec::from_iter(tagged))
}

/// A field from its head to its end.
pub type Field = (usize, usize);

/// The fields of a sheet or a trace, as far as they are whole.
pub fn fields(sheet: &[u8]) -> Vec<Field> {
    let mut fields = Vec::new();
    let mut start = 0;
    while let Some(head) = sheet.get(start..start + 3) {
        let end = start + 3 + usize::from(u16::from_le_bytes([head[1], head[2]]));
        if end > sheet.len() {
            break;
        }
        fields.push((start, end));
        start = end;
    }
    fields
}

/// Another length, most often one that some tag has or nearly has; now and then with as much
/// content.
pub fn change_length(
    random: &mut Random,
    sheet: &mut Vec<u8>,
    (start, end): Field,
    lengths: &[u16],
) {
    let length = if random.percent(90) { random.pick(lengths) } else { random.bits() as u16 };
    sheet[start + 1..start + 3].copy_from_slice(&length.to_le_bytes());
    if random.percent(50) {
        let mut content = sheet[start + 3..end].to_vec();
        content.resize(usize::from(length), 0);
        sheet.splice(start + 3..end, content);
    }
}

/// Repeats a field, now and then so often that there are too many.
fn repeat_field(random: &mut Random, sheet: &mut Vec<u8>, start: usize, end: usize, fields: usize) {
    let copies = if random.percent(50) { 1 } else { 33_usize.saturating_sub(fields) + 4 };
    let field = sheet[start..end].to_vec();
    sheet.splice(end..end, field.repeat(copies));
}

fn exchange(sheet: &mut Vec<u8>, one: Field, other: Field) {
    let (first, second) = if one <= other { (one, other) } else { (other, one) };
    if first == second {
        return;
    }
    let between = sheet[first.1..second.0].to_vec();
    let parts = [&sheet[second.0..second.1], &between, &sheet[first.0..first.1]].concat();
    sheet.splice(first.0..second.1, parts);
}

/// Some byte of the content.
fn change_byte(random: &mut Random, field: &mut [u8]) {
    if field.len() > 3 {
        // The first bytes of a content are the counts, modes and register numbers.
        let last = if random.percent(60) { field.len().min(9) } else { field.len() };
        field[random.between(3, last - 1)] = random.pick(&BYTES);
    }
}

/// A number of the content to its limit or past it.
fn change_to_limit(random: &mut Random, field: &mut [u8], stock: &Stock) {
    let length = field.len() - 3;
    match field[0] {
        0x10 if length >= 16 => {
            let number = random.below(5);
            let at = 9 + 10 * random.below((length - 6) / 10) + 2 * number;
            put_word(field, at, random.pick(DIMENSION[number]));
        }
        0x11 if length >= 15 && field[4] == 1 => {
            let count = (length - 10) / 5;
            let at = 5 + count + 4 * random.below(count);
            put_word(field, at, random.pick(&EXTENTS));
        }
        0x20 if length == 8 && random.percent(40) => {
            let value: u32 = random.pick(&[0xFF, 0x100, 0xFFFF, 0x1_0000, 0xFFFF_FFFF]);
            field[7..].copy_from_slice(&value.to_le_bytes());
        }
        tag => {
            let limits = stock.byte_limits(tag);
            let limited: Vec<usize> =
                (0..limits.len()).filter(|&number| !limits[number].is_empty()).collect();
            if !limited.is_empty() && limits.len() <= length {
                let number = random.pick(&limited);
                field[3 + number] = random.pick(limits[number]);
            }
        }
    }
}

fn put_word(field: &mut [u8], at: usize, word: u16) {
    field[at..at + 2].copy_from_slice(&word.to_le_bytes());
}

#[cfg(test)]
mod tests {
    use super::*;

    #[test]
    fn exchanged_fields_change_places() {
        let mut sheet = vec![1, 1, 2, 3, 3, 3, 4];
        exchange(&mut sheet, (3, 6), (0, 2));
        assert_eq!(sheet, [3, 3, 3, 2, 1, 1, 4]);
    }
}
