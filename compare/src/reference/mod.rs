//! A plain implementation of every public job: the rules one by one, in the order in which they
//! are written, with nothing clever. It is the other side of each comparison and the yardstick
//! of the timings.

mod addressing;
mod carry;
mod edition;
mod kind;
mod mask;
mod outcome;
mod refusal;
mod registers;
mod sheet;
mod tape;
mod trace;
mod vector;
mod whole;

pub use addressing::{
    divides, divisions, indices, side, Access, Addressing, Outcome, Outside, Side, DIMENSIONS_MAX,
};
pub use carry::{carry_out, check, check_step, Carried, Checked, Types};
pub use edition::{Edition, Start};
pub use kind::Kind;
pub use mask::{mask_byte, touched, Mask, BITS_A_BYTE, MASKS_LENGTH, MASK_BITS, MASK_LENGTH};
pub use outcome::Located;
pub use refusal::{Cause, Refusal};
pub use registers::{Matrix, Registers, Type};
pub use sheet::{
    read_sheet, sheet_bytes, write_sheet, ClampMode, Clip, Combine, Dimension, Layout, ReduceMode,
    Sheet, Step, View, ViewDimension,
};
pub use tape::{run_tape, step_records, translate, Record, Translated, FILL, WHOLE_STEP};
pub use trace::{
    entries, read_trace, replay, trace, trace_bytes, verdict, Entry, Replayed, Verdict,
    ACCESS_LENGTH, PLACED,
};
pub use vector::{Interpretation, MemoryLayout, VectorStep, BIAS_SIZE, COMPONENTS_A_WORD};
pub use whole::whole_type;

/// The longest memory, in bytes.
pub const MEMORY_MAX: usize = 65_536;
/// The longest tape, in records.
pub const RECORDS_MAX: usize = 1_024;
/// Numbers a record.
pub const RECORD_NUMBERS: usize = 6;
/// The most rows, and the most columns, of a matrix.
pub const SIDE_MAX: usize = 16;
/// The most elements of a matrix.
pub const ELEMENTS_MAX: usize = SIDE_MAX * SIDE_MAX;
/// The most steps of a sheet.
pub const STEPS_MAX: usize = 32;
/// Registers.
pub const REGISTERS: usize = 4;

/// Refusal 18 comes before everything else.
fn check_memory(memory_len: usize) -> Result<(), Refusal> {
    if memory_len > MEMORY_MAX {
        return Err(Refusal::nowhere(Cause::MemoryTooLong));
    }
    Ok(())
}
