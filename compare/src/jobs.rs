//! The public jobs with the parameters of the C interface, and the reference behind them.

use std::cell::{Cell, Ref, RefCell};

use crate::reference::{
    self, Carried, Cause, Checked, Located, Outcome, Record, Refusal, Registers, Side, Verdict,
    MASKS_LENGTH, RECORD_NUMBERS,
};

/// The row of four: number, place, second place, byte-elements (of a rewrite and a trace: bytes;
/// of a replay: accesses; of divisions: their number; of an outcome: 0).
pub type Answer = [u32; 4];

/// A replay's verdict: 1 and 0, or 0 and the index of the first difference.
pub type VerdictRow = [u32; 2];
/// The verdict on a trace that agrees.
pub const AGREES: VerdictRow = [1, 0];

/// A verdict handed over.
pub fn verdict_row(verdict: Verdict) -> VerdictRow {
    match verdict {
        Verdict::Agrees => AGREES,
        Verdict::Differs(index) => [0, index as u32],
    }
}

/// The outcome of an element: its sort, its byte or the bits that fill it, the first dimension in
/// which it is not inside, and the side.
pub type OutcomeRow = [u32; 4];
/// Dimension and side of an element that is inside in every dimension.
const INSIDE: [u32; 2] = [0, 0];

/// An outcome handed over.
pub fn outcome_row(located: Located) -> OutcomeRow {
    let value = match located.outcome {
        Outcome::Filled(bits) => bits,
        Outcome::Placed(byte) => byte as u32,
        Outcome::Skipped | Outcome::Discarded => 0,
    };
    let [dimension, side] = located.outside.map_or(INSIDE, |outside| {
        let side = match outside.side {
            Side::Below => 1,
            Side::Above => 2,
        };
        [outside.dimension as u32, side]
    });
    [located.outcome.sort().into(), value, dimension, side]
}

/// Hands records over in a room that they fit, and gives their count.
pub fn put_records(records: &[Record], room: &mut [i32]) -> [u32; 1] {
    for (place, record) in room.chunks_exact_mut(RECORD_NUMBERS).zip(records) {
        place.copy_from_slice(record);
    }
    [records.len() as u32]
}

/// Whether an outcome names a dimension.
pub fn names_a_dimension(row: &OutcomeRow) -> bool {
    row[2..] != INSIDE
}

/// The registers as the C interface hands them over: four bytes a register (kind, rows, columns,
/// 0), and 256 places a register for elements. An empty register has zeros.
#[derive(Clone, PartialEq, Eq)]
pub struct State {
    pub types: [u8; 16],
    pub elements: [u32; 1024],
}

impl State {
    /// Empty registers.
    pub const EMPTY: State = State { types: [0; 16], elements: [0; 1024] };

    /// The registers handed over.
    pub fn of(registers: &Registers) -> State {
        let mut state = State::EMPTY;
        for (number, register) in registers.iter().enumerate() {
            if let Some(matrix) = register {
                let type_ = matrix.type_;
                let bytes = [type_.kind.0, type_.rows as u8, type_.columns as u8, 0];
                state.types[4 * number..][..4].copy_from_slice(&bytes);
                state.elements[256 * number..][..matrix.elements.len()]
                    .copy_from_slice(&matrix.elements);
            }
        }
        state
    }
}

/// The eleven functions of `include/moonbleat.h`: all but the last return the refusal's number.
pub trait Jobs {
    fn read(&self, sheet: &[u8], counts: &mut [u32; 3], answer: &mut Answer) -> u32;

    fn rewrite(&self, sheet: &[u8], out: &mut [u8], answer: &mut Answer) -> u32;

    fn check(&self, sheet: &[u8], memory_len: usize, answer: &mut Answer) -> u32;

    fn carry_out(
        &self,
        sheet: &[u8],
        memory: &mut [u8],
        state: &mut State,
        answer: &mut Answer,
    ) -> u32;

    fn translate(
        &self,
        sheet: &[u8],
        memory_len: usize,
        tape: &mut [i32],
        masks: &mut [u8],
        records: &mut [u32; 1],
        answer: &mut Answer,
    ) -> u32;

    fn run(
        &self,
        sheet: &[u8],
        tape: &[i32],
        records: usize,
        memory: &mut [u8],
        state: &mut State,
        answer: &mut Answer,
    ) -> u32;

    fn trace(&self, sheet: &[u8], memory_len: usize, out: &mut [u8], answer: &mut Answer) -> u32;

    fn replay(
        &self,
        sheet: &[u8],
        memory_len: usize,
        trace: &[u8],
        verdict: &mut VerdictRow,
        answer: &mut Answer,
    ) -> u32;

    fn divisions(&self, sheet: &[u8], memory_len: usize, answer: &mut Answer) -> u32;

    fn outcome(
        &self,
        sheet: &[u8],
        memory_len: usize,
        step: u32,
        element: u32,
        outcome: &mut OutcomeRow,
        answer: &mut Answer,
    ) -> u32;

    /// 1 where a step touched an element, by its bit in any bytes; else 0.
    fn touched(&self, masks: &[u8], step: u32, element: u32) -> u32;
}

/// The plain implementation. It remembers why it refused last, which the C interface does not
/// tell, and the last sheet of which it gave an outcome, since there are many to give.
#[derive(Default)]
pub struct Reference {
    cause: Cell<Option<Cause>>,
    last: RefCell<Option<Last>>,
}

/// A sheet, a memory length, and what checking gave.
struct Last {
    sheet: Vec<u8>,
    memory_len: usize,
    checked: Result<Checked, Refusal>,
}

impl Reference {
    /// Why the last job was refused, if it was.
    pub fn cause(&self) -> Option<Cause> {
        self.cause.get()
    }

    /// Fills the row of four and gives its first number.
    fn finish(&self, answer: &mut Answer, result: Result<u32, Refusal>) -> u32 {
        self.cause.set(result.as_ref().err().map(|refusal| refusal.cause));
        *answer = match result {
            Ok(count) => [0, 0, 0, count],
            Err(refusal) => [refusal.cause.number(), refusal.place[0], refusal.place[1], 0],
        };
        answer[0]
    }

    /// What checking a sheet gives, which is remembered until another one comes.
    pub fn checked(&self, sheet: &[u8], memory_len: usize) -> Ref<'_, Result<Checked, Refusal>> {
        let same = |last: &Last| last.sheet == sheet && last.memory_len == memory_len;
        if !self.last.borrow().as_ref().is_some_and(same) {
            let checked = reference::check(sheet, memory_len);
            self.last.replace(Some(Last { sheet: sheet.to_vec(), memory_len, checked }));
        }
        Ref::map(self.last.borrow(), |last| &last.as_ref().expect("there is one").checked)
    }

    fn finish_carried(
        &self,
        state: &mut State,
        answer: &mut Answer,
        result: Result<Carried, Refusal>,
    ) -> u32 {
        *state = result.as_ref().map_or(State::EMPTY, |carried| State::of(&carried.registers));
        self.finish(answer, result.map(|carried| carried.byte_elements))
    }
}

impl Jobs for Reference {
    fn read(&self, sheet: &[u8], counts: &mut [u32; 3], answer: &mut Answer) -> u32 {
        let read = reference::read_sheet(sheet);
        *counts = read.as_ref().map_or([0; 3], |sheet| {
            [sheet.layouts.len(), sheet.views.len(), sheet.steps.len()].map(|count| count as u32)
        });
        self.finish(answer, read.map(|_| 0))
    }

    fn rewrite(&self, sheet: &[u8], out: &mut [u8], answer: &mut Answer) -> u32 {
        let written = reference::read_sheet(sheet)
            .and_then(|model| reference::write_sheet(&model, out.len()));
        if let Ok(bytes) = &written {
            out[..bytes.len()].copy_from_slice(bytes);
        }
        self.finish(answer, written.map(|bytes| bytes.len() as u32))
    }

    fn check(&self, sheet: &[u8], memory_len: usize, answer: &mut Answer) -> u32 {
        let checked = reference::check(sheet, memory_len);
        self.finish(answer, checked.map(|checked| checked.byte_elements()))
    }

    fn carry_out(
        &self,
        sheet: &[u8],
        memory: &mut [u8],
        state: &mut State,
        answer: &mut Answer,
    ) -> u32 {
        self.finish_carried(state, answer, reference::carry_out(sheet, memory))
    }

    fn translate(
        &self,
        sheet: &[u8],
        memory_len: usize,
        tape: &mut [i32],
        masks: &mut [u8],
        records: &mut [u32; 1],
        answer: &mut Answer,
    ) -> u32 {
        let translated = reference::translate(sheet, memory_len, tape.len(), masks.len());
        *records = [0];
        if let Ok(translated) = &translated {
            *records = put_records(&translated.records, tape);
            masks[..MASKS_LENGTH].copy_from_slice(translated.masks.as_flattened());
        }
        self.finish(answer, translated.map(|translated| translated.byte_elements))
    }

    fn run(
        &self,
        sheet: &[u8],
        tape: &[i32],
        records: usize,
        memory: &mut [u8],
        state: &mut State,
        answer: &mut Answer,
    ) -> u32 {
        self.finish_carried(state, answer, reference::run_tape(sheet, tape, records, memory))
    }

    fn trace(&self, sheet: &[u8], memory_len: usize, out: &mut [u8], answer: &mut Answer) -> u32 {
        let traced = reference::trace(sheet, memory_len, out.len());
        if let Ok(bytes) = &traced {
            out[..bytes.len()].copy_from_slice(bytes);
        }
        self.finish(answer, traced.map(|bytes| bytes.len() as u32))
    }

    fn replay(
        &self,
        sheet: &[u8],
        memory_len: usize,
        trace: &[u8],
        verdict: &mut VerdictRow,
        answer: &mut Answer,
    ) -> u32 {
        let replayed = reference::replay(sheet, memory_len, trace);
        *verdict = replayed.as_ref().map_or([0; 2], |replayed| verdict_row(replayed.verdict));
        self.finish(answer, replayed.map(|replayed| replayed.accesses))
    }

    fn divisions(&self, sheet: &[u8], memory_len: usize, answer: &mut Answer) -> u32 {
        let checked = reference::check(sheet, memory_len);
        self.finish(answer, checked.map(|checked| checked.divisions()))
    }

    fn outcome(
        &self,
        sheet: &[u8],
        memory_len: usize,
        step: u32,
        element: u32,
        outcome: &mut OutcomeRow,
        answer: &mut Answer,
    ) -> u32 {
        let checked = self.checked(sheet, memory_len);
        let checked = checked.as_ref().map_err(|refusal| *refusal);
        let located = checked.and_then(|checked| checked.located(step, element));
        *outcome = located.map_or([0; 4], outcome_row);
        self.finish(answer, located.map(|_| 0))
    }

    fn touched(&self, masks: &[u8], step: u32, element: u32) -> u32 {
        reference::touched(masks, step, element).into()
    }
}
