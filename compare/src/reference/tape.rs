//! The tape: translating a sheet into records, and running records.

use super::addressing::Outcome;
use super::carry::{bits_at, check, put_bits, Carried, Checked, Types};
use super::edition::Start;
use super::mask::{Mask, MASKS_LENGTH};
use super::refusal::{Cause, Refusal};
use super::registers::{Registers, Type};
use super::sheet::{read_sheet, Sheet, Step};
use super::whole::{do_whole, whole_type};
use super::{check_memory, RECORDS_MAX, RECORD_NUMBERS, REGISTERS, STEPS_MAX};

const COPY: i32 = 0;
const TAKE: i32 = 1;
const PUT: i32 = 2;
/// The op of a run of elements that get a value.
pub const FILL: i32 = 3;
/// The op of a step that the tape does not take apart.
pub const WHOLE_STEP: i32 = 4;
const BYTE_STEP_MAX: i32 = 65_535;

/// A record: six signed numbers, the op first.
pub type Record = [i32; RECORD_NUMBERS];

/// A translated sheet.
pub struct Translated {
    pub records: Vec<Record>,
    pub masks: [Mask; STEPS_MAX],
    pub byte_elements: u32,
}

/// Translates a sheet for a memory length; the room for the tape is in numbers, that for the masks
/// in bytes.
pub fn translate(
    sheet: &[u8],
    memory_len: usize,
    tape_room: usize,
    mask_room: usize,
) -> Result<Translated, Refusal> {
    let checked = check(sheet, memory_len)?;
    let mut records = Vec::new();
    for step in 0..checked.sheet.steps.len() {
        step_records(&checked, step, &mut records);
    }
    if records.len() > RECORDS_MAX {
        return Err(Refusal::nowhere(Cause::TooManyRecords));
    }
    if records.len() > tape_room / RECORD_NUMBERS {
        return Err(Refusal::nowhere(Cause::TapeRoom));
    }
    if mask_room < MASKS_LENGTH {
        return Err(Refusal::nowhere(Cause::MaskRoom));
    }
    Ok(Translated { records, masks: checked.masks(), byte_elements: checked.byte_elements() })
}

/// Adds the records of a step of an accepted sheet.
pub fn step_records(checked: &Checked, number: usize, records: &mut Vec<Record>) {
    let outcomes = &checked.outcomes[number];
    match checked.sheet.steps[number] {
        Step::Load { register, object, .. } => {
            let start = checked.sheet.edition.start(object);
            records.extend(start_record(start, register, outcomes.len()));
            push_runs(TAKE, register, outcomes, records);
        }
        Step::Store { register, .. } => push_runs(PUT, register, outcomes, records),
        _ => records.push([WHOLE_STEP, number as i32, 0, 0, 0, 0]),
    }
}

/// The record before the runs of a load with so many elements, if there is one.
fn start_record(start: Start, register: usize, elements: usize) -> Option<Record> {
    let register = register as i32;
    match start {
        Start::Object(object) => Some([COPY, register, object as i32, 0, 0, 0]),
        Start::Own => None,
        Start::Zeros => Some([FILL, register, 0, elements as i32, 0, 0]),
    }
}

/// The runs of a load or a store, greedily over the element numbers.
fn push_runs(byte_op: i32, register: usize, outcomes: &[Outcome], records: &mut Vec<Record>) {
    let register = register as i32;
    let mut first = 0;
    while first < outcomes.len() {
        let rest = &outcomes[first..];
        let at = first as i32;
        first += match rest[0] {
            Outcome::Skipped | Outcome::Discarded => 1,
            Outcome::Filled(bits) => {
                let count = run_length(rest, |_| Outcome::Filled(bits));
                records.push([FILL, register, at, count as i32, bits as i32, 0]);
                count
            }
            Outcome::Placed(byte) => {
                let step = byte_step(rest);
                let expected = |i| Outcome::Placed((byte as i64 + i as i64 * step) as usize);
                let count = run_length(rest, expected);
                records.push([byte_op, register, at, count as i32, byte as i32, step as i32]);
                count
            }
        };
    }
}

/// How many outcomes, from the first on, are the expected ones.
fn run_length(outcomes: &[Outcome], expected: impl Fn(usize) -> Outcome) -> usize {
    let alike = outcomes.iter().enumerate().take_while(|&(i, &outcome)| outcome == expected(i));
    alike.count()
}

/// The step from the first element's byte to the second's; 0 for a run of one.
fn byte_step(outcomes: &[Outcome]) -> i64 {
    match *outcomes {
        [Outcome::Placed(byte), Outcome::Placed(next), ..] => next as i64 - byte as i64,
        _ => 0,
    }
}

/// Runs the first records of a tape with its sheet on a memory, which is changed only if the
/// tape is accepted. Of the sheet only its reading is checked.
pub fn run_tape(
    sheet: &[u8],
    tape: &[i32],
    records: usize,
    memory: &mut [u8],
) -> Result<Carried, Refusal> {
    check_memory(memory.len())?;
    let sheet = read_sheet(sheet)?;
    let records = first_records(tape, records)?;
    let mut types = Types::default();
    for (number, record) in records.iter().enumerate() {
        check_record(&sheet, record, &mut types, memory.len())
            .map_err(|cause| Refusal::at(cause, number))?;
    }
    let mut carried = Carried { registers: Registers::default(), byte_elements: 0 };
    for record in &records {
        run_record(&sheet, record, &mut carried, memory);
    }
    Ok(carried)
}

fn first_records(tape: &[i32], records: usize) -> Result<Vec<Record>, Refusal> {
    if records > RECORDS_MAX || records * RECORD_NUMBERS > tape.len() {
        return Err(Refusal::nowhere(Cause::RecordCount));
    }
    let numbers = tape[..records * RECORD_NUMBERS].chunks_exact(RECORD_NUMBERS);
    Ok(numbers.map(|record| record.try_into().expect("six numbers")).collect())
}

/// Refusal 17 of one record; updates the types.
fn check_record(
    sheet: &Sheet,
    record: &Record,
    types: &mut Types,
    memory_len: usize,
) -> Result<(), Cause> {
    let [op, register, ..] = *record;
    match op {
        COPY => {
            let register = register_number(register)?;
            let object = register_number(record[2])?;
            types[register] = Some(read(types, object)?);
            unused(&record[3..])
        }
        TAKE | PUT => {
            let type_ = read(types, register_number(register)?)?;
            check_elements(record, type_)?;
            check_bytes(record, type_, memory_len)
        }
        FILL => {
            let type_ = read(types, register_number(register)?)?;
            check_elements(record, type_)?;
            if !type_.kind.holds(record[4] as u32) {
                return Err(Cause::RecordValue);
            }
            unused(&record[5..])
        }
        WHOLE_STEP => {
            unused(&record[2..])?;
            check_whole_step(sheet, register, types, memory_len)
        }
        _ => Err(Cause::UnknownOp),
    }
}

fn register_number(number: i32) -> Result<usize, Cause> {
    match usize::try_from(number) {
        Ok(register) if register < REGISTERS => Ok(register),
        _ => Err(Cause::RecordRegister),
    }
}

fn read(types: &Types, register: usize) -> Result<Type, Cause> {
    types[register].ok_or(Cause::RecordEmptyRegister)
}

fn unused(numbers: &[i32]) -> Result<(), Cause> {
    if numbers.iter().any(|&number| number != 0) {
        return Err(Cause::RecordUnused);
    }
    Ok(())
}

/// The elements of a take, a put or a fill lie in the matrix.
fn check_elements(record: &Record, type_: Type) -> Result<(), Cause> {
    let [_, _, first, count, ..] = *record;
    if count < 1 {
        return Err(Cause::RecordElementCount);
    }
    if first < 0 {
        return Err(Cause::RecordFirst);
    }
    if i64::from(first) + i64::from(count) > type_.elements() as i64 {
        return Err(Cause::RecordPastMatrix);
    }
    Ok(())
}

/// The bytes of a take or a put lie in memory: those of its first and of its last element, and
/// so those between.
fn check_bytes(record: &Record, type_: Type, memory_len: usize) -> Result<(), Cause> {
    let [_, _, _, count, byte, step] = *record;
    if !(-BYTE_STEP_MAX..=BYTE_STEP_MAX).contains(&step) {
        return Err(Cause::RecordByteStep);
    }
    let first = i64::from(byte);
    let last = first + i64::from(count - 1) * i64::from(step);
    let inside = |byte: i64| byte >= 0 && byte + type_.kind.size() as i64 <= memory_len as i64;
    if !inside(first) || !inside(last) {
        return Err(Cause::RecordPastMemory);
    }
    Ok(())
}

/// Op 4 names a step of the sheet, no load and no store, that would not get 7, 8 or 14 here.
fn check_whole_step(
    sheet: &Sheet,
    number: i32,
    types: &mut Types,
    memory_len: usize,
) -> Result<(), Cause> {
    let step = usize::try_from(number).ok().and_then(|number| sheet.steps.get(number));
    let step = step.ok_or(Cause::RecordNoStep)?;
    let type_ = whole_type(step, types, memory_len).ok_or(Cause::RecordAccessStep)?;
    types[step.register()] = Some(type_.map_err(|(cause, _)| record_cause(cause))?);
    Ok(())
}

/// The cause of 17 for a whole step's cause of 7, 8 or 14.
fn record_cause(cause: Cause) -> Cause {
    match cause {
        Cause::EmptyRegister => Cause::RecordStepEmpty,
        Cause::EmptyInput => Cause::RecordInputEmpty,
        Cause::InputShape | Cause::PackedKind | Cause::PackedShape => Cause::RecordInputShape,
        Cause::MatrixPastMemory => Cause::RecordMatrixPastMemory,
        Cause::BiasPastMemory => Cause::RecordBiasPastMemory,
        _ => Cause::RecordStepShapes,
    }
}

/// Runs a record that is known to be accepted, its elements in order.
fn run_record(sheet: &Sheet, record: &Record, carried: &mut Carried, memory: &mut [u8]) {
    // The fourth number after the op is a byte for a take or a put, a value for a fill.
    let [op, register, first, count, byte_or_value, step] = *record;
    let registers = &mut carried.registers;
    match op {
        COPY => registers[register as usize] = registers[first as usize].clone(),
        WHOLE_STEP => do_whole(&sheet.steps[register as usize], registers, memory),
        _ => {
            let matrix = registers[register as usize].as_mut().expect("accepted");
            let size = matrix.type_.kind.size();
            let elements = &mut matrix.elements[first as usize..(first + count) as usize];
            for (i, element) in elements.iter_mut().enumerate() {
                let byte = || (i64::from(byte_or_value) + i as i64 * i64::from(step)) as usize;
                match op {
                    TAKE => *element = bits_at(memory, byte(), size),
                    PUT => put_bits(memory, byte(), size, *element),
                    _ => *element = byte_or_value as u32,
                }
            }
            if op != FILL {
                carried.byte_elements += count as u32;
            }
        }
    }
}

#[cfg(test)]
mod tests {
    use super::super::carry::carry_out;
    use super::super::sheet::{
        sheet_bytes, ClampMode, Clip, Combine, Dimension, Layout, ReduceMode, View,
    };
    use super::super::{Edition, Kind};
    use super::*;

    /// A fill of register 0, 2 by 3, a load of it, and a reduction of all of register 1 to 2.
    fn sheet(kind: u8) -> Vec<u8> {
        let dimension = Dimension { block_size: 1, size: 6, stride: 1, offset: 0, span: 6 };
        let layout = Layout {
            clamp_mode: ClampMode::Undefined,
            clamp_value: 0,
            dimensions: vec![dimension],
        };
        let fill = Step::Fill { register: 0, rows: 2, columns: 3, kind: Kind(kind), value: 0 };
        let load = Step::Load { register: 0, object: None, layout: 0, view: None, base: 0 };
        let reduce = Step::Reduce {
            result: 2,
            source: 1,
            rows: 1,
            columns: 1,
            mode: ReduceMode::Both,
            combine: Combine::Add,
        };
        sheet_bytes(&Sheet {
            layouts: vec![layout],
            steps: vec![fill, load, reduce],
            ..Sheet::default()
        })
    }

    const FILL_0: Record = [WHOLE_STEP, 0, 0, 0, 0, 0];

    /// Runs records on a memory of 16 bytes; gives it and the count, or the refusal.
    fn ran(kind: u8, records: &[Record]) -> Result<(Vec<u8>, u32), Refusal> {
        let mut memory: Vec<u8> = (0..16).collect();
        let carried = run_tape(&sheet(kind), &records.concat(), records.len(), &mut memory)?;
        Ok((memory, carried.byte_elements))
    }

    fn refused(kind: u8, records: &[Record]) -> (Cause, [u32; 2]) {
        let refusal = ran(kind, records).expect_err("refused");
        (refusal.cause, refusal.place)
    }

    #[test]
    fn a_run_goes_on_across_rows() {
        let mut bytes = sheet(2);
        // The reduction is of an empty register; the tape is that of the first two steps.
        bytes.truncate(bytes.len() - 9);
        let translated = translate(&bytes, 16, 12, MASKS_LENGTH).expect("accepted");
        assert_eq!(translated.records, [FILL_0, [TAKE, 0, 0, 6, 0, 2]]);
        assert_eq!(translated.byte_elements, 6);
    }

    #[test]
    fn the_rooms_are_judged_after_the_sheet_that_of_the_tape_first() {
        let bytes = sheet(2);
        let refused = |bytes: &[u8], tape_room, mask_room| {
            let translated = translate(bytes, 16, tape_room, mask_room);
            translated.map_err(|refusal| (refusal.cause, refusal.place)).err()
        };
        // The reduction is of an empty register; without it the tape has two records.
        assert_eq!(refused(&bytes, 0, 0), Some((Cause::EmptyRegister, [2, 0])));
        let accepted = &bytes[..bytes.len() - 9];
        assert_eq!(refused(accepted, 11, MASKS_LENGTH), Some((Cause::TapeRoom, [0, 0])));
        assert_eq!(refused(accepted, 11, 1_087), Some((Cause::TapeRoom, [0, 0])));
        assert_eq!(refused(accepted, 12, 1_087), Some((Cause::MaskRoom, [0, 0])));
        assert_eq!(refused(accepted, 12, 0), Some((Cause::MaskRoom, [0, 0])));
        assert_eq!(refused(accepted, 12, 1_088), None);
    }

    const COPY_0: Record = [COPY, 0, 0, 0, 0, 0];
    const ZEROS_0: Record = [FILL, 0, 0, 8, 0, 0];

    /// What register 0 holds and the tape, both behind its fill: 2 by 4 of 100, then loaded from byte
    /// 16 on, but for the columns before one. Eight places from an offset on are meant; those
    /// outside get 0.
    fn loaded(
        edition: Edition,
        object: Option<usize>,
        offset: i16,
        column_offset: u16,
    ) -> (Vec<u32>, Vec<Record>) {
        let dimensions = vec![Dimension { block_size: 1, size: 8, stride: 1, offset, span: 8 }];
        let clip = Clip { row_offset: 0, row_span: 2, column_offset, column_span: 65_535 };
        let sheet = sheet_bytes(&Sheet {
            edition,
            layouts: vec![Layout { clamp_mode: ClampMode::Constant, clamp_value: 0, dimensions }],
            views: vec![View { permutation: vec![0], dimensions: None, clip }],
            steps: vec![
                Step::Fill { register: 0, rows: 2, columns: 4, kind: Kind::U8, value: 100 },
                Step::Load { register: 0, object, layout: 0, view: Some(0), base: 16 },
            ],
        });
        let mut memory: Vec<u8> = (0..24).collect();
        let [matrix, ..] = carry_out(&sheet, &mut memory).expect("accepted").registers;
        let records = translate(&sheet, memory.len(), 60, MASKS_LENGTH).expect("accepted").records;
        let ran = run_tape(&sheet, &records.concat(), records.len(), &mut memory);
        assert_eq!(ran.expect("accepted").registers[0], matrix);
        assert_eq!(records[0], FILL_0);
        (matrix.expect("not empty").elements, records[1..].to_vec())
    }

    #[test]
    fn a_load_without_an_object_starts_from_zeros_from_edition_3_on() {
        let takes = [[TAKE, 0, 2, 2, 16, 1], [TAKE, 0, 6, 2, 20, 1]];
        let with_skipped = |skipped| [skipped, skipped, 16, 17, skipped, skipped, 20, 21].to_vec();
        for edition in [Edition::One, Edition::Two] {
            assert_eq!(loaded(edition, None, 0, 2), (with_skipped(100), takes.to_vec()));
        }
        let records = [&[ZEROS_0][..], &takes].concat();
        assert_eq!(loaded(Edition::Three, None, 0, 2), (with_skipped(0), records));
        let records = [&[COPY_0][..], &takes].concat();
        for edition in Edition::ALL {
            let of_itself = loaded(edition, Some(0), 0, 2);
            assert_eq!(of_itself, (with_skipped(100), records.clone()));
        }
    }

    #[test]
    fn the_zeros_have_a_record_that_is_always_there_and_joined_with_none() {
        let loaded = |offset, column_offset| loaded(Edition::Three, None, offset, column_offset);
        let taken = [TAKE, 0, 0, 8, 16, 1];
        assert_eq!(loaded(0, 0), ((16..24).collect(), vec![ZEROS_0, taken]));
        let (filled, taken) = ([FILL, 0, 0, 2, 0, 0], [TAKE, 0, 2, 6, 16, 1]);
        let elements = vec![0, 0, 16, 17, 18, 19, 20, 21];
        assert_eq!(loaded(-2, 0), (elements, vec![ZEROS_0, filled, taken]));
        assert_eq!(loaded(-8, 0), (vec![0; 8], vec![ZEROS_0, ZEROS_0]));
        assert_eq!(loaded(0, 4), (vec![0; 8], vec![ZEROS_0]));
    }

    #[test]
    fn the_step_of_a_lone_element_is_used() {
        assert!(ran(0, &[FILL_0, [TAKE, 0, 5, 1, 15, 65_535]]).is_ok());
        assert!(ran(0, &[FILL_0, [PUT, 0, 5, 1, 15, -65_535]]).is_ok());
        let past = [TAKE, 0, 5, 1, 15, 65_536];
        assert_eq!(refused(0, &[FILL_0, past]), (Cause::RecordByteStep, [1, 0]));
    }

    #[test]
    fn a_whole_step_is_judged_where_it_stands() {
        let reduce = [WHOLE_STEP, 2, 0, 0, 0, 0];
        assert_eq!(refused(0, &[FILL_0, reduce]), (Cause::RecordStepEmpty, [1, 0]));
        assert!(ran(0, &[FILL_0, [COPY, 1, 0, 0, 0, 0], reduce]).is_ok());
        let load = [WHOLE_STEP, 1, 0, 0, 0, 0];
        assert_eq!(refused(0, &[FILL_0, load]), (Cause::RecordAccessStep, [1, 0]));
    }

    /// A fill of register 0, 2 by 1 of 3, and twice that register by the 2 by 2 matrix of u8 at
    /// byte 0, with the bias at byte 4, to the register itself.
    fn vector_sheet() -> Vec<u8> {
        let fill = [0x20, 8, 0, 0, 2, 1, 0, 3, 0, 0, 0];
        let vector = [0x26, 19, 0, 0, 5, 0, 5, 0, 2, 2, 0, 2, 0, 0, 0, 0, 0, 1, 4, 0, 0, 0];
        [&[1, 1, 0, 2][..], &fill, &vector, &vector].concat()
    }

    const VECTOR: Record = [WHOLE_STEP, 1, 0, 0, 0, 0];

    #[test]
    fn a_vector_step_is_a_whole_step_that_reads_memory() {
        let mut memory = [1, 2, 3, 4, 10, 0, 0, 0, 20, 0, 0, 0];
        let (sheet, before) = (vector_sheet(), memory);
        let carried = carry_out(&sheet, &mut memory).expect("accepted");
        // 3 and 3 give 19 and 41, which give 111 and 241.
        let column = carried.registers[0].as_ref().expect("not empty");
        assert_eq!(
            (&column.elements[..], carried.byte_elements, memory),
            (&[111, 241][..], 0, before)
        );
        let translated = translate(&sheet, memory.len(), 18, MASKS_LENGTH).expect("accepted");
        assert_eq!(translated.records, [FILL_0, VECTOR, [WHOLE_STEP, 2, 0, 0, 0, 0]]);
        assert_eq!(translated.byte_elements, 0);
        let tape = translated.records.concat();
        let ran = run_tape(&sheet, &tape, 3, &mut memory).expect("accepted");
        assert_eq!((ran.registers, ran.byte_elements, memory), (carried.registers, 0, before));
    }

    #[test]
    fn a_vector_step_is_judged_where_it_stands() {
        let sheet = vector_sheet();
        let ran = |records: &[Record], memory_len: usize| {
            let mut memory = vec![0; memory_len];
            let ran = run_tape(&sheet, &records.concat(), records.len(), &mut memory);
            ran.map_err(|refusal| (refusal.cause, refusal.place)).err()
        };
        assert_eq!(ran(&[FILL_0, VECTOR], 12), None);
        assert_eq!(ran(&[VECTOR], 12), Some((Cause::RecordInputEmpty, [0, 0])));
        assert_eq!(ran(&[FILL_0, VECTOR], 11), Some((Cause::RecordBiasPastMemory, [1, 0])));
        assert_eq!(ran(&[FILL_0, VECTOR], 3), Some((Cause::RecordMatrixPastMemory, [1, 0])));
        let check = |memory_len| check(&sheet, memory_len).map_err(|refusal| refusal.place).err();
        assert_eq!([check(12), check(11), check(3)], [None, Some([1, 5]), Some([1, 3])]);
    }

    #[test]
    fn later_elements_of_a_put_win() {
        let taken = [TAKE, 0, 0, 6, 0, 2];
        let (memory, count) = ran(2, &[FILL_0, taken, [PUT, 0, 0, 3, 10, 1]]).expect("accepted");
        assert_eq!(memory, [0, 1, 2, 3, 4, 5, 6, 7, 8, 9, 0, 2, 4, 5, 14, 15]);
        assert_eq!(count, 9);
    }

    #[test]
    fn a_value_is_raw_bits() {
        let filled = |kind, value| ran(kind, &[FILL_0, [FILL, 0, 0, 6, value, 0]]).is_ok();
        assert!(filled(1, 255) && !filled(1, 256) && !filled(1, -1));
        assert!(filled(3, 65_535) && !filled(3, -1));
        assert!(filled(4, -1) && filled(5, i32::MIN));
    }

    #[test]
    fn records_are_counted_within_the_tape() {
        let tape = vec![0; RECORD_NUMBERS * (RECORDS_MAX + 1)];
        let refused = |tape: &[i32], records| {
            run_tape(&sheet(0), tape, records, &mut []).err().map(|refusal| refusal.cause)
        };
        assert_eq!(refused(&tape[..11], 2), Some(Cause::RecordCount));
        assert_eq!(refused(&tape, RECORDS_MAX + 1), Some(Cause::RecordCount));
        assert_eq!(refused(&tape, usize::MAX), Some(Cause::RecordCount));
        assert_eq!(refused(&tape, RECORDS_MAX), Some(Cause::RecordEmptyRegister));
        assert_eq!(refused(&tape, 0), None);
    }
}
