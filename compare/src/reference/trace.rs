//! The trace: what becomes of each element of the loads and stores, a field an access; and the
//! replay of a card's trace.

use super::addressing::Outcome;
use super::carry::{check, Checked};
use super::refusal::{Cause, Refusal};
use super::sheet::Numbers;

const ACCESS: u8 = 0x30;
const HEAD_LENGTH: usize = 3;
const CONTENT_LENGTH: usize = 9;
/// The bytes of an access.
pub const ACCESS_LENGTH: usize = HEAD_LENGTH + CONTENT_LENGTH;

const SKIPPED: u8 = 0;
const FILLED: u8 = 1;
const DISCARDED: u8 = 2;
/// The sort of an element that has a byte.
pub const PLACED: u8 = 3;

/// An access: an element of a step, and what becomes of it.
#[derive(Clone, Copy, PartialEq, Eq, Debug)]
pub struct Entry {
    pub step: u16,
    pub element: u16,
    pub sort: u8,
    pub byte: u32,
}

impl Outcome {
    /// The number of its sort.
    pub fn sort(self) -> u8 {
        match self {
            Outcome::Skipped => SKIPPED,
            Outcome::Filled(_) => FILLED,
            Outcome::Discarded => DISCARDED,
            Outcome::Placed(_) => PLACED,
        }
    }
}

impl Entry {
    fn of(step: usize, element: usize, outcome: Outcome) -> Entry {
        let byte = match outcome {
            Outcome::Placed(byte) => byte as u32,
            _ => 0,
        };
        Entry { step: step as u16, element: element as u16, sort: outcome.sort(), byte }
    }

    /// Writes the access's field.
    fn put(&self, bytes: &mut Vec<u8>) {
        bytes.push(ACCESS);
        bytes.extend((CONTENT_LENGTH as u16).to_le_bytes());
        bytes.extend(self.step.to_le_bytes());
        bytes.extend(self.element.to_le_bytes());
        bytes.push(self.sort);
        bytes.extend(self.byte.to_le_bytes());
    }

    /// Refusal 5: a byte anywhere will do, but only where the element has one.
    fn check_numbers(&self) -> Result<(), Cause> {
        if self.sort > PLACED {
            return Err(Cause::TraceSort);
        }
        if self.sort != PLACED && self.byte != 0 {
            return Err(Cause::TraceByte);
        }
        Ok(())
    }

    /// Refusal 26: an access comes after the one before, by step and then by element.
    fn check_order(&self, before: &Entry) -> Result<(), Cause> {
        if self.step < before.step {
            return Err(Cause::EarlierStep);
        }
        if self.step == before.step && self.element < before.element {
            return Err(Cause::EarlierElement);
        }
        if self.step == before.step && self.element == before.element {
            return Err(Cause::SameElement);
        }
        Ok(())
    }
}

/// The accesses of an accepted sheet, in their order.
pub fn entries(checked: &Checked) -> Vec<Entry> {
    let mut entries = Vec::new();
    for (step, outcomes) in checked.outcomes.iter().enumerate() {
        for (element, &outcome) in outcomes.iter().enumerate() {
            entries.push(Entry::of(step, element, outcome));
        }
    }
    entries
}

/// The bytes of a trace.
pub fn trace_bytes(entries: &[Entry]) -> Vec<u8> {
    let mut bytes = Vec::with_capacity(ACCESS_LENGTH * entries.len());
    for entry in entries {
        entry.put(&mut bytes);
    }
    bytes
}

/// Reads a trace, field by field; a refusal's place is the byte of the field's head.
pub fn read_trace(bytes: &[u8]) -> Result<Vec<Entry>, Refusal> {
    let mut entries: Vec<Entry> = Vec::new();
    let mut at = 0;
    while at < bytes.len() {
        let entry = read_entry(&bytes[at..], entries.last());
        entries.push(entry.map_err(|cause| Refusal::at(cause, at))?);
        at += ACCESS_LENGTH;
    }
    Ok(entries)
}

/// Reads the access at the front of what is left. The tests stand in the order in which they
/// refuse: 1, 2, 4, 5, 26.
fn read_entry(rest: &[u8], before: Option<&Entry>) -> Result<Entry, Cause> {
    if rest.len() < HEAD_LENGTH {
        return Err(Cause::TraceHeadCut);
    }
    let length = usize::from(u16::from_le_bytes([rest[1], rest[2]]));
    let content = rest.get(HEAD_LENGTH..HEAD_LENGTH + length).ok_or(Cause::TraceContentCut)?;
    if rest[0] != ACCESS {
        return Err(Cause::TraceTag);
    }
    if length != CONTENT_LENGTH {
        return Err(Cause::TraceLength);
    }
    let mut n = Numbers { rest: content };
    let entry = Entry { step: n.two(), element: n.two(), sort: n.one(), byte: n.four() };
    entry.check_numbers()?;
    if let Some(before) = before {
        entry.check_order(before)?;
    }
    Ok(entry)
}

/// The trace of a sheet for a memory length, or the sheet's refusal, or 19 where the room, in
/// bytes, is too short.
pub fn trace(sheet: &[u8], memory_len: usize, room: usize) -> Result<Vec<u8>, Refusal> {
    let bytes = trace_bytes(&entries(&check(sheet, memory_len)?));
    if bytes.len() > room {
        return Err(Refusal::nowhere(Cause::TraceRoom));
    }
    Ok(bytes)
}

/// What a replay finds.
#[derive(Clone, Copy, PartialEq, Eq, Debug)]
pub enum Verdict {
    Agrees,
    /// The first index at which the two lists differ, one of them ending there included.
    Differs(usize),
}

/// A replayed trace: the verdict, and how many accesses the sheet has.
#[derive(PartialEq, Eq, Debug)]
pub struct Replayed {
    pub verdict: Verdict,
    pub accesses: u32,
}

/// Replays a trace against a sheet and a memory length. The sheet is judged first, then the whole
/// trace, and only then are the two compared.
pub fn replay(sheet: &[u8], memory_len: usize, trace: &[u8]) -> Result<Replayed, Refusal> {
    let expected = entries(&check(sheet, memory_len)?);
    let traced = read_trace(trace)?;
    Ok(Replayed { verdict: verdict(&expected, &traced), accesses: expected.len() as u32 })
}

/// Sets the accesses of a trace beside those of the sheet.
pub fn verdict(expected: &[Entry], traced: &[Entry]) -> Verdict {
    if expected == traced {
        return Verdict::Agrees;
    }
    let alike = expected.iter().zip(traced).take_while(|(one, other)| one == other);
    Verdict::Differs(alike.count())
}

#[cfg(test)]
mod tests {
    use super::super::sheet::{sheet_bytes, ClampMode, Clip, Dimension, Layout, Sheet, Step, View};
    use super::super::Kind;
    use super::*;

    const MEMORY_LEN: usize = 64;

    fn fill(register: usize, columns: usize) -> Step {
        Step::Fill { register, rows: 1, columns, kind: Kind(2), value: 0 }
    }

    /// A 1 by 4 matrix of u16 loaded to the register of a 1 by 2 one, and stored: of 3 places from
    /// -1 on the first is outside, and the view has the first three columns alone.
    fn sheet() -> Vec<u8> {
        let dimension = Dimension { block_size: 1, size: 3, stride: 1, offset: -1, span: 4 };
        let layout =
            Layout { clamp_mode: ClampMode::Constant, clamp_value: 0, dimensions: vec![dimension] };
        let view = View {
            permutation: vec![0],
            dimensions: None,
            clip: Clip { row_offset: 0, row_span: 1, column_offset: 0, column_span: 3 },
        };
        let load = Step::Load { register: 1, object: Some(0), layout: 0, view: Some(0), base: 16 };
        let store = Step::Store { register: 1, layout: 0, view: None, base: 32 };
        sheet_bytes(&Sheet {
            layouts: vec![layout],
            views: vec![view],
            steps: vec![fill(0, 4), fill(1, 2), load, store],
            ..Sheet::default()
        })
    }

    fn entry(step: u16, element: u16, sort: u8, byte: u32) -> Entry {
        Entry { step, element, sort, byte }
    }

    fn accesses() -> Vec<Entry> {
        vec![
            entry(2, 0, FILLED, 0),
            entry(2, 1, PLACED, 16),
            entry(2, 2, PLACED, 18),
            entry(2, 3, SKIPPED, 0),
            entry(3, 0, DISCARDED, 0),
            entry(3, 1, PLACED, 32),
            entry(3, 2, PLACED, 34),
            entry(3, 3, PLACED, 36),
        ]
    }

    fn refused(trace: &[u8]) -> (u32, [u32; 2]) {
        let refusal = replay(&sheet(), MEMORY_LEN, trace).expect_err("refused");
        (refusal.cause.number(), refusal.place)
    }

    fn replayed(entries: &[Entry]) -> Verdict {
        let replayed = replay(&sheet(), MEMORY_LEN, &trace_bytes(entries)).expect("accepted");
        assert_eq!(replayed.accesses, 8);
        replayed.verdict
    }

    #[test]
    fn a_trace_has_the_elements_of_loads_and_stores() {
        let checked = check(&sheet(), MEMORY_LEN).expect("accepted");
        assert_eq!(entries(&checked), accesses());
        let bytes = trace(&sheet(), MEMORY_LEN, 96).expect("it fits");
        assert_eq!(
            bytes[..24],
            [0x30, 9, 0, 2, 0, 0, 0, 1, 0, 0, 0, 0, 0x30, 9, 0, 2, 0, 1, 0, 3, 16, 0, 0, 0]
        );
        assert_eq!(read_trace(&bytes), Ok(accesses()));
        assert_eq!(trace(&sheet(), MEMORY_LEN, 95), Err(Refusal::nowhere(Cause::TraceRoom)));
    }

    #[test]
    fn a_replay_finds_the_first_difference() {
        let all = accesses();
        assert_eq!(replayed(&all), Verdict::Agrees);
        for at in 0..all.len() {
            let mut changed = all.clone();
            changed[at].byte = 1 << 31;
            changed[at].sort = PLACED;
            assert_eq!(replayed(&changed), Verdict::Differs(at));
            assert_eq!(replayed(&all[..at]), Verdict::Differs(at));
            let left_out = [&all[..at], &all[at + 1..]].concat();
            assert_eq!(replayed(&left_out), Verdict::Differs(at));
        }
        let extra = [&all[..], &[entry(u16::MAX, 0, SKIPPED, 0)]].concat();
        assert_eq!(replayed(&extra), Verdict::Differs(8));
    }

    #[test]
    fn a_sheet_without_accesses_agrees_with_an_empty_trace() {
        let sheet = sheet_bytes(&Sheet { steps: vec![fill(0, 1)], ..Sheet::default() });
        let replayed = |trace: &[u8]| replay(&sheet, 0, trace).expect("accepted");
        assert_eq!(replayed(&[]), Replayed { verdict: Verdict::Agrees, accesses: 0 });
        let one = trace_bytes(&[entry(0, 0, SKIPPED, 0)]);
        assert_eq!(replayed(&one), Replayed { verdict: Verdict::Differs(0), accesses: 0 });
    }

    #[test]
    fn a_field_is_refused_in_the_order_of_the_tests() {
        let first = trace_bytes(&[entry(5, 5, SKIPPED, 0)]);
        let second = |change: &dyn Fn(&mut Vec<u8>)| {
            // Not after the first, and of no sort.
            let mut field = trace_bytes(&[entry(5, 5, 4, 0)]);
            change(&mut field);
            refused(&[&first[..], &field].concat())
        };
        assert_eq!(second(&|field| field.truncate(1)), (1, [12, 0]));
        assert_eq!(second(&|field| field.truncate(2)), (1, [12, 0]));
        assert_eq!(second(&|field| field.truncate(11)), (1, [12, 0]));
        assert_eq!(second(&|field| field[..2].copy_from_slice(&[0x20, 10])), (1, [12, 0]));
        assert_eq!(second(&|field| field[..2].copy_from_slice(&[0x20, 8])), (2, [12, 0]));
        assert_eq!(second(&|field| field[1] = 8), (4, [12, 0]));
        assert_eq!(second(&|_| {}), (5, [12, 0]));
        assert_eq!(second(&|field| field[7..9].copy_from_slice(&[2, 1])), (5, [12, 0]));
        assert_eq!(second(&|field| field[7] = 0), (26, [12, 0]));
        assert_eq!(second(&|field| field[5..8].copy_from_slice(&[4, 1, 4])), (5, [12, 0]));
    }

    #[test]
    fn accesses_ascend_by_step_then_by_element() {
        let after = |one: (u16, u16), other: (u16, u16)| {
            let entries = [one, other].map(|(step, element)| entry(step, element, SKIPPED, 0));
            read_trace(&trace_bytes(&entries)).map_err(|refusal| refusal.cause).err()
        };
        assert_eq!(after((1, 256), (1, 257)), None);
        assert_eq!(after((1, 65_535), (256, 0)), None);
        assert_eq!(after((256, 0), (1, 65_535)), Some(Cause::EarlierStep));
        assert_eq!(after((1, 256), (1, 255)), Some(Cause::EarlierElement));
        assert_eq!(after((1, 256), (1, 256)), Some(Cause::SameElement));
    }

    #[test]
    fn the_sheet_is_judged_first_and_then_the_whole_trace() {
        let cause = |sheet: &[u8], memory_len, trace: &[u8]| {
            replay(sheet, memory_len, trace).map_err(|refusal| refusal.cause).err()
        };
        assert_eq!(cause(&sheet(), 37, &[0]), Some(Cause::PastMemory));
        assert_eq!(cause(&[], 1 << 32, &[0]), Some(Cause::MemoryTooLong));
        // The first access differs.
        let trace = [&trace_bytes(&accesses()[1..])[..], &[0]].concat();
        assert_eq!(refused(&trace), (1, [84, 0]));
    }
}
