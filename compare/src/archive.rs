//! The proved archive behind the C interface of `include/moonbleat.h`.

use compare::jobs::{Answer, Jobs, OutcomeRow, State, VerdictRow};

extern "C" {
    fn moonbleat_read(
        sheet: *const u8,
        sheet_len: usize,
        counts: *mut u32,
        answer: *mut u32,
    ) -> u32;

    fn moonbleat_rewrite(
        sheet: *const u8,
        sheet_len: usize,
        out: *mut u8,
        out_len: usize,
        answer: *mut u32,
    ) -> u32;

    fn moonbleat_check(
        sheet: *const u8,
        sheet_len: usize,
        memory_len: usize,
        answer: *mut u32,
    ) -> u32;

    fn moonbleat_carry_out(
        sheet: *const u8,
        sheet_len: usize,
        memory: *mut u8,
        memory_len: usize,
        types: *mut u8,
        elements: *mut u32,
        answer: *mut u32,
    ) -> u32;

    fn moonbleat_translate(
        sheet: *const u8,
        sheet_len: usize,
        memory_len: usize,
        tape: *mut i32,
        tape_len: usize,
        masks: *mut u8,
        masks_len: usize,
        records: *mut u32,
        answer: *mut u32,
    ) -> u32;

    fn moonbleat_run(
        sheet: *const u8,
        sheet_len: usize,
        tape: *const i32,
        tape_len: usize,
        records: usize,
        memory: *mut u8,
        memory_len: usize,
        types: *mut u8,
        elements: *mut u32,
        answer: *mut u32,
    ) -> u32;

    fn moonbleat_trace(
        sheet: *const u8,
        sheet_len: usize,
        memory_len: usize,
        out: *mut u8,
        out_len: usize,
        answer: *mut u32,
    ) -> u32;

    fn moonbleat_replay(
        sheet: *const u8,
        sheet_len: usize,
        memory_len: usize,
        trace: *const u8,
        trace_len: usize,
        verdict: *mut u32,
        answer: *mut u32,
    ) -> u32;

    fn moonbleat_divisions(
        sheet: *const u8,
        sheet_len: usize,
        memory_len: usize,
        answer: *mut u32,
    ) -> u32;

    fn moonbleat_outcome(
        sheet: *const u8,
        sheet_len: usize,
        memory_len: usize,
        step: u32,
        element: u32,
        outcome: *mut u32,
        answer: *mut u32,
    ) -> u32;

    fn moonbleat_touched(masks: *const u8, masks_len: usize, step: u32, element: u32) -> u32;
}

/// The archive's eleven functions. They ask nothing of their arguments but that each pointer has
/// the length that is passed with it or that the header names, as references in Rust have.
pub struct Archive;

impl Jobs for Archive {
    fn read(&self, sheet: &[u8], counts: &mut [u32; 3], answer: &mut Answer) -> u32 {
        // SAFETY: slices and arrays of the lengths that the header names.
        unsafe {
            moonbleat_read(sheet.as_ptr(), sheet.len(), counts.as_mut_ptr(), answer.as_mut_ptr())
        }
    }

    fn rewrite(&self, sheet: &[u8], out: &mut [u8], answer: &mut Answer) -> u32 {
        let (room, room_len) = (out.as_mut_ptr(), out.len());
        // SAFETY: as above.
        unsafe {
            moonbleat_rewrite(sheet.as_ptr(), sheet.len(), room, room_len, answer.as_mut_ptr())
        }
    }

    fn check(&self, sheet: &[u8], memory_len: usize, answer: &mut Answer) -> u32 {
        // SAFETY: as above; the memory's length comes without a memory.
        unsafe { moonbleat_check(sheet.as_ptr(), sheet.len(), memory_len, answer.as_mut_ptr()) }
    }

    fn carry_out(
        &self,
        sheet: &[u8],
        memory: &mut [u8],
        state: &mut State,
        answer: &mut Answer,
    ) -> u32 {
        // SAFETY: as above.
        unsafe {
            moonbleat_carry_out(
                sheet.as_ptr(),
                sheet.len(),
                memory.as_mut_ptr(),
                memory.len(),
                state.types.as_mut_ptr(),
                state.elements.as_mut_ptr(),
                answer.as_mut_ptr(),
            )
        }
    }

    fn translate(
        &self,
        sheet: &[u8],
        memory_len: usize,
        tape: &mut [i32],
        masks: &mut [u8],
        records: &mut [u32; 1],
        answer: &mut Answer,
    ) -> u32 {
        // SAFETY: as above; the memory's length comes without a memory.
        unsafe {
            moonbleat_translate(
                sheet.as_ptr(),
                sheet.len(),
                memory_len,
                tape.as_mut_ptr(),
                tape.len(),
                masks.as_mut_ptr(),
                masks.len(),
                records.as_mut_ptr(),
                answer.as_mut_ptr(),
            )
        }
    }

    fn run(
        &self,
        sheet: &[u8],
        tape: &[i32],
        records: usize,
        memory: &mut [u8],
        state: &mut State,
        answer: &mut Answer,
    ) -> u32 {
        // SAFETY: as above; the record count is the archive's to judge.
        unsafe {
            moonbleat_run(
                sheet.as_ptr(),
                sheet.len(),
                tape.as_ptr(),
                tape.len(),
                records,
                memory.as_mut_ptr(),
                memory.len(),
                state.types.as_mut_ptr(),
                state.elements.as_mut_ptr(),
                answer.as_mut_ptr(),
            )
        }
    }

    fn trace(&self, sheet: &[u8], memory_len: usize, out: &mut [u8], answer: &mut Answer) -> u32 {
        let (room, room_len) = (out.as_mut_ptr(), out.len());
        // SAFETY: as above; the memory's length comes without a memory.
        unsafe {
            moonbleat_trace(
                sheet.as_ptr(),
                sheet.len(),
                memory_len,
                room,
                room_len,
                answer.as_mut_ptr(),
            )
        }
    }

    fn replay(
        &self,
        sheet: &[u8],
        memory_len: usize,
        trace: &[u8],
        verdict: &mut VerdictRow,
        answer: &mut Answer,
    ) -> u32 {
        // SAFETY: as above; the memory's length comes without a memory.
        unsafe {
            moonbleat_replay(
                sheet.as_ptr(),
                sheet.len(),
                memory_len,
                trace.as_ptr(),
                trace.len(),
                verdict.as_mut_ptr(),
                answer.as_mut_ptr(),
            )
        }
    }

    fn divisions(&self, sheet: &[u8], memory_len: usize, answer: &mut Answer) -> u32 {
        // SAFETY: as above; the memory's length comes without a memory.
        unsafe { moonbleat_divisions(sheet.as_ptr(), sheet.len(), memory_len, answer.as_mut_ptr()) }
    }

    fn outcome(
        &self,
        sheet: &[u8],
        memory_len: usize,
        step: u32,
        element: u32,
        outcome: &mut OutcomeRow,
        answer: &mut Answer,
    ) -> u32 {
        // SAFETY: as above; the memory's length comes without a memory, and step and element are
        // the archive's to judge.
        unsafe {
            moonbleat_outcome(
                sheet.as_ptr(),
                sheet.len(),
                memory_len,
                step,
                element,
                outcome.as_mut_ptr(),
                answer.as_mut_ptr(),
            )
        }
    }

    fn touched(&self, masks: &[u8], step: u32, element: u32) -> u32 {
        // SAFETY: as above; any bytes may come as masks, and step and element are the archive's to
        // judge.
        unsafe { moonbleat_touched(masks.as_ptr(), masks.len(), step, element) }
    }
}
