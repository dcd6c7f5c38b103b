//! Traces to replay beside a sheet's own: changed, damaged and random ones, and other sheets'.

use crate::damage::change_length;
use crate::generate::generate;
use crate::random::Random;
use crate::reference::{
    check, entries, trace_bytes, Edition, Entry, ACCESS_LENGTH, ELEMENTS_MAX, PLACED, STEPS_MAX,
};

/// No sheet has more accesses.
const ACCESSES_MAX: usize = STEPS_MAX * ELEMENTS_MAX;
/// A field's head: its tag and its length.
const HEAD: [u8; 3] = [0x30, 9, 0];
/// Where the numbers behind the head stand.
const STEP: usize = HEAD.len();
pub const SORT: usize = 7;
pub const BYTE: usize = 8;

const TAGS: [u8; 7] = [0x00, 0x01, 0x20, 0x2F, 0x31, 0xB0, 0xFF];
const LENGTHS: [u16; 6] = [0, 8, 10, 21, 0x0109, 0x0900];

/// The accesses of a sheet for a memory length; none of a refused one.
pub fn accesses(sheet: &[u8], memory_len: usize) -> Vec<Entry> {
    check(sheet, memory_len).map_or(Vec::new(), |checked| entries(&checked))
}

/// Traces for a sheet whose accesses are given: two whose fields are well-formed, and one that is
/// damaged.
pub fn traces(
    random: &mut Random,
    own: &[Entry],
    memory_len: usize,
    edition: Edition,
) -> Vec<Vec<u8>> {
    let one = well_formed(random, own, memory_len, edition);
    let another = well_formed(random, own, memory_len, edition);
    let damaged = match random.below(10) {
        0..=3 => damaged(random, own),
        4..=6 => damaged(random, &one),
        7 | 8 => {
            let other = other(random, edition);
            damaged(random, &other)
        }
        _ => noise(random),
    };
    vec![trace_bytes(&one), trace_bytes(&another), damaged]
}

/// The sheet's accesses with a change; now and then, or where it has none, others.
fn well_formed(
    random: &mut Random,
    own: &[Entry],
    memory_len: usize,
    edition: Edition,
) -> Vec<Entry> {
    if own.is_empty() || random.percent(10) {
        return other(random, edition);
    }
    changed(random, own, memory_len)
}

/// Accesses that have nothing to do with the sheet.
fn other(random: &mut Random, edition: Edition) -> Vec<Entry> {
    match random.below(40) {
        0..=9 => Vec::new(),
        10..=24 => {
            let generated = generate(random, edition);
            accesses(&generated.sheet, generated.memory_len)
        }
        25 => {
            let count = ACCESSES_MAX + random.between(1, 100);
            ascending(random, count)
        }
        _ => {
            let count = random.between(1, 40);
            ascending(random, count)
        }
    }
}

/// Accesses of any sort that ascend by little or by much.
fn ascending(random: &mut Random, count: usize) -> Vec<Entry> {
    let farthest = random.pick(&[1, 3, 300, 70_000]);
    // The step stands above the element's 16 bits.
    let mut place = random.below(farthest);
    let mut entries = Vec::new();
    for _ in 0..count {
        let mut entry =
            Entry { step: (place >> 16) as u16, element: place as u16, sort: 0, byte: 0 };
        change_sort(random, &mut entry);
        entries.push(entry);
        place += random.between(1, farthest);
    }
    entries
}

/// Some index below a length: the first, the last or any.
fn position(random: &mut Random, length: usize) -> usize {
    match random.below(3) {
        0 => 0,
        1 => length - 1,
        _ => random.below(length),
    }
}

/// A sheet's accesses, of which there are some, with one changed, moved, left out or added.
fn changed(random: &mut Random, own: &[Entry], memory_len: usize) -> Vec<Entry> {
    let mut entries = own.to_vec();
    let at = position(random, entries.len());
    match random.below(10) {
        0..=3 => change(random, &mut entries[at], memory_len),
        4 => entries.truncate(at),
        5 => drop(entries.remove(at)),
        6 => entries.insert(at, own[at]),
        7 => {
            let other = random.below(own.len());
            entries.swap(at, other);
        }
        _ => entries.insert(at + 1, after(random, own[at])),
    }
    entries
}

/// An access that may follow another: of the next element, of the next step, or of the last that
/// a field can name.
fn after(random: &mut Random, Entry { step, element, .. }: Entry) -> Entry {
    let (step, element) = random.pick(&[(step, element + 1), (step + 1, 0), (u16::MAX, u16::MAX)]);
    let mut entry = Entry { step, element, sort: 0, byte: 0 };
    change_sort(random, &mut entry);
    entry
}

fn change(random: &mut Random, entry: &mut Entry, memory_len: usize) {
    // One more, or one less.
    let by = random.pick(&[1, u16::MAX]);
    match random.below(8) {
        0 => entry.step = entry.step.wrapping_add(by),
        1 => entry.element = entry.element.wrapping_add(by),
        2..=4 => change_sort(random, entry),
        _ => {
            let memory_len = memory_len as u32;
            let bytes = [0, entry.byte ^ 1, entry.byte + 4, memory_len, memory_len + 1, u32::MAX];
            (entry.sort, entry.byte) = (PLACED, random.pick(&bytes));
        }
    }
}

/// Any sort, and a byte where it has one.
fn change_sort(random: &mut Random, entry: &mut Entry) {
    entry.sort = random.below(usize::from(PLACED) + 1) as u8;
    entry.byte = if entry.sort == PLACED { random.bits() as u32 } else { 0 };
}

/// A trace with one field damaged, once or more often.
fn damaged(random: &mut Random, entries: &[Entry]) -> Vec<u8> {
    let mut trace = trace_bytes(entries);
    if trace.is_empty() {
        return noise(random);
    }
    let start = ACCESS_LENGTH * position(random, entries.len());
    for _ in 0..random.pick(&[1, 1, 1, 1, 2, 3]) {
        damage_once(random, &mut trace, start);
    }
    trace
}

/// Damages the field at a byte, if it is whole still.
fn damage_once(random: &mut Random, trace: &mut Vec<u8>, start: usize) {
    let end = start + ACCESS_LENGTH;
    if trace.len() < end {
        return;
    }
    match random.below(9) {
        0 => trace[start] = random.pick(&TAGS),
        1 => change_length(random, trace, (start, end), &LENGTHS),
        2 => trace[start + SORT] = random.pick(&[4, 5, 255]),
        3 => {
            trace[start + SORT] = random.below(usize::from(PLACED)) as u8;
            trace[start + BYTE + random.below(4)] = random.pick(&[1, 128, 255]);
        }
        4 => trace.truncate(random.between(start + 1, end - 1)),
        5 => {
            let more = noise(random);
            trace.extend(more);
        }
        6 => trace[random.between(start, end - 1)] ^= 1 << random.below(8),
        _ => {
            // An earlier field's step and element, most often those of the field before.
            let back = if random.percent(60) { 1 } else { random.below(start / ACCESS_LENGTH + 1) };
            let other = start.saturating_sub(ACCESS_LENGTH * back);
            trace.copy_within(other + STEP..other + SORT, start + STEP);
        }
    }
}

/// Bytes with no sense at all, many of them behind a head.
fn noise(random: &mut Random) -> Vec<u8> {
    let mut bytes = vec![0; random.between(1, 40)];
    random.fill(&mut bytes);
    if random.percent(70) && bytes.len() >= HEAD.len() {
        bytes[..HEAD.len()].copy_from_slice(&HEAD);
    }
    bytes
}

/// The field at the front of some bytes, mended of what it is refused for with a number; None
/// where it has no head, and where only its order is wrong.
pub fn mended(number: u32, rest: &[u8]) -> Option<Vec<u8>> {
    let head = rest.get(..HEAD.len())?;
    let length = HEAD.len() + usize::from(u16::from_le_bytes([head[1], head[2]]));
    let mut field = rest.to_vec();
    field.resize(length, 0);
    match number {
        1 => {}
        2 => field[0] = HEAD[0],
        4 => {
            field[..HEAD.len()].copy_from_slice(&HEAD);
            field.resize(ACCESS_LENGTH, 0);
        }
        5 => field[SORT..].fill(0),
        _ => return None,
    }
    Some(field)
}
