//! Makes a failing case smaller while it still fails.

use std::fmt;

use crate::case::{Asked, Case};
use crate::damage::fields;
use crate::outcomes::Place;
use crate::reference::{
    read_sheet, sheet_bytes, Sheet, Step, VectorStep, RECORDS_MAX, RECORD_NUMBERS,
};
use crate::tapes::Tape;

/// How many smaller cases are tried.
const TRIES: usize = 20_000;

/// The smallest failing case that was found.
pub fn shrink(case: Case, fails: &mut dyn FnMut(&Case) -> bool) -> Case {
    let mut smallest = case;
    let mut tries = 0;
    'smaller: loop {
        for candidate in candidates(&smallest) {
            tries += 1;
            if tries > TRIES {
                return smallest;
            }
            if fails(&candidate) {
                smallest = candidate;
                continue 'smaller;
            }
        }
        return smallest;
    }
}

/// Simpler cases, the most promising first. Each is simpler by some measure that none of the
/// others raises again, so that shrinking ends.
fn candidates(case: &Case) -> Vec<Case> {
    let mut candidates = Vec::new();
    let mut add = |change: &dyn Fn(&mut Case)| {
        let mut candidate = case.clone();
        change(&mut candidate);
        candidates.push(candidate);
    };
    for tape in 0..case.tapes.len() {
        add(&|case| drop(case.tapes.remove(tape)));
    }
    for trace in 0..case.traces.len() {
        add(&|case| drop(case.traces.remove(trace)));
    }
    for length in shorter(case.memory.len()) {
        add(&|case| {
            case.memory.truncate(length);
            case.told_len = length;
        });
    }
    if case.memory.iter().any(|&byte| byte != 0) {
        add(&|case| case.memory.fill(0));
    }
    for (start, end) in fields(&case.sheet) {
        add(&|case| drop(case.sheet.drain(start..end)));
    }
    for length in shorter(case.sheet.len()) {
        add(&|case| case.sheet.truncate(length));
    }
    for sheet in simpler_vectors(&case.sheet) {
        add(&|case| case.sheet = sheet_bytes(&sheet));
    }
    for tape in 0..case.tapes.len() {
        add_smaller_tapes(&case.tapes[tape], &mut |smaller| {
            add(&|case| case.tapes[tape] = smaller.clone());
        });
    }
    // One trace fails alone, so the others are gone before.
    if let [trace] = &case.traces[..] {
        add_smaller_traces(trace, &mut |smaller| {
            add(&|case| case.traces = vec![smaller.clone()]);
        });
    }
    for (at, &byte) in case.sheet.iter().enumerate() {
        for smaller in smaller_bytes(byte) {
            add(&|case| case.sheet[at] = smaller);
        }
    }
    for room in shorter(case.trace_room) {
        add(&|case| case.trace_room = room);
    }
    for room in shorter(case.mask_room) {
        add(&|case| case.mask_room = room);
    }
    if case.place != [0, 0] {
        add(&|case| case.place = [0, 0]);
    }
    if case.orders != 0 {
        add(&|case| case.orders = 0);
    }
    if case.asked != Asked::ALL {
        add(&|case| case.asked = Asked::ALL);
    }
    add_smaller_masks(case, &mut candidates);
    add_plain_rooms(case, &mut candidates);
    candidates
}

/// Fewer bytes that come as masks, with no bits, and fewer and smaller places.
fn add_smaller_masks(case: &Case, candidates: &mut Vec<Case>) {
    let mut add = |masks: &[u8], touches: &[Place]| {
        let (masks, touches) = (masks.to_vec(), touches.to_vec());
        candidates.push(Case { masks, touches, ..case.clone() });
    };
    let Case { masks, touches, .. } = case;
    for length in shorter(masks.len()) {
        add(&masks[..length], touches);
    }
    if masks.iter().any(|&byte| byte != 0) {
        add(&vec![0; masks.len()], touches);
    }
    for touch in 0..touches.len() {
        add(masks, &[&touches[..touch], &touches[touch + 1..]].concat());
    }
    if let [[step, element]] = touches[..] {
        shorter(step as usize).iter().for_each(|&step| add(masks, &[[step as u32, element]]));
        shorter(element as usize).iter().for_each(|&element| add(masks, &[[step, element as u32]]));
    }
}

/// Rooms that hold everything, and a told length that is the memory's.
fn add_plain_rooms(case: &Case, candidates: &mut Vec<Case>) {
    let plain = Case {
        told_len: case.memory.len(),
        sheet_room: case.sheet.len(),
        tape_room: RECORDS_MAX * RECORD_NUMBERS,
        ..case.clone()
    };
    if case.told_len != plain.told_len {
        candidates.push(Case { told_len: plain.told_len, ..case.clone() });
    }
    if case.sheet_room > plain.sheet_room {
        candidates.push(Case { sheet_room: plain.sheet_room, ..case.clone() });
    }
    if case.tape_room > plain.tape_room {
        candidates.push(Case { tape_room: plain.tape_room, ..case.clone() });
    }
}

/// Sheets that differ in one vector step, by more than a byte: it has no bias, or fewer
/// components, which the fills and vector steps that make its input follow.
fn simpler_vectors(sheet: &[u8]) -> Vec<Sheet> {
    let Ok(sheet) = read_sheet(sheet) else {
        return Vec::new();
    };
    let mut simpler = Vec::new();
    for (number, step) in sheet.steps.iter().enumerate() {
        let Step::Vector(vector) = *step else { continue };
        if vector.bias.is_some() {
            let mut sheet = sheet.clone();
            sheet.steps[number] = Step::Vector(VectorStep { bias: None, ..vector });
            simpler.push(sheet);
        }
        for k in shorter(vector.k).into_iter().filter(|&k| k > 0) {
            let mut sheet = sheet.clone();
            let fewer = VectorStep { k, ..vector };
            let (rows, fewer_rows) = (vector.input_rows(), fewer.input_rows());
            for step in &mut sheet.steps {
                shorten_column(step, vector.input, rows, fewer_rows);
            }
            sheet.steps[number] = Step::Vector(fewer);
            simpler.push(sheet);
        }
    }
    simpler
}

/// Gives a step's result fewer rows if it is a column of so many rows in a register.
fn shorten_column(step: &mut Step, register: usize, from: usize, to: usize) {
    match step {
        Step::Fill { register: result, rows, columns: 1, .. }
        | Step::Vector(VectorStep { result, m: rows, .. })
            if *result == register && *rows == from =>
        {
            *rows = to;
        }
        _ => {}
    }
}

/// Lengths below a length: halves first, then one less.
fn shorter(length: usize) -> Vec<usize> {
    let mut lengths = vec![0, length / 2, length - length / 4, length.saturating_sub(1)];
    lengths.retain(|&shorter| shorter < length);
    lengths.dedup();
    lengths
}

fn smaller_bytes(byte: u8) -> Vec<u8> {
    let mut smaller = vec![0, 1, byte / 2, byte.saturating_sub(1)];
    smaller.retain(|&smaller| smaller < byte);
    smaller.dedup();
    smaller
}

fn add_smaller_tapes(tape: &Tape, add: &mut dyn FnMut(Tape)) {
    let whole = tape.numbers.len() / RECORD_NUMBERS;
    for records in shorter(whole) {
        let numbers = tape.numbers[..records * RECORD_NUMBERS].to_vec();
        add(Tape { numbers, records: tape.records.min(records) });
    }
    for record in 0..whole.min(100) {
        let mut numbers = tape.numbers.clone();
        numbers.drain(record * RECORD_NUMBERS..(record + 1) * RECORD_NUMBERS);
        add(Tape { numbers, records: tape.records.saturating_sub(1) });
    }
    for at in 0..tape.numbers.len().min(120) {
        let number = tape.numbers[at];
        for smaller in [0, 1, number / 2] {
            if smaller.unsigned_abs() < number.unsigned_abs() {
                let mut numbers = tape.numbers.clone();
                numbers[at] = smaller;
                add(Tape { numbers, records: tape.records });
            }
        }
    }
}

/// Fields cut off at the end, a field left out, or a byte of the first fields smaller.
fn add_smaller_traces(trace: &[u8], add: &mut dyn FnMut(Vec<u8>)) {
    let fields = fields(trace);
    for count in shorter(fields.len()) {
        add(trace[..fields[count].0].to_vec());
    }
    for length in shorter(trace.len()) {
        add(trace[..length].to_vec());
    }
    for &(start, end) in fields.iter().take(100) {
        add([&trace[..start], &trace[end..]].concat());
    }
    for (at, &byte) in trace.iter().enumerate().take(120) {
        for smaller in smaller_bytes(byte) {
            let mut trace = trace.to_vec();
            trace[at] = smaller;
            add(trace);
        }
    }
}

impl fmt::Display for Case {
    fn fmt(&self, f: &mut fmt::Formatter) -> fmt::Result {
        writeln!(f, "sheet, {} bytes:", self.sheet.len())?;
        write_fields(f, &self.sheet)?;
        if self.memory.iter().all(|&byte| byte == 0) {
            writeln!(f, "memory, {} bytes, all 00", self.memory.len())?;
        } else {
            writeln!(f, "memory, {} bytes: {}", self.memory.len(), hex(&self.memory))?;
        }
        writeln!(f, "memory length told where there is no memory: {}", self.told_len)?;
        writeln!(f, "room for a sheet: {} bytes", self.sheet_room)?;
        writeln!(f, "room for a trace: {} bytes", self.trace_room)?;
        writeln!(f, "room for a tape: {} numbers", self.tape_room)?;
        writeln!(f, "room for masks: {} bytes", self.mask_room)?;
        writeln!(f, "bytes that come as masks, {}: {}", self.masks.len(), hex(&self.masks))?;
        writeln!(f, "steps and elements that masks are asked for: {:?}", self.touches)?;
        writeln!(f, "outcome asked for: step {}, element {}", self.place[0], self.place[1])?;
        write!(f, "orders of stores from seed {}", self.orders)?;
        for tape in &self.tapes {
            write!(f, "\ntape, {} records of {} numbers:", tape.records, tape.numbers.len())?;
            for record in tape.numbers.chunks(RECORD_NUMBERS) {
                let numbers: Vec<String> = record.iter().map(i32::to_string).collect();
                write!(f, "\n  {}", numbers.join(" "))?;
            }
        }
        for trace in &self.traces {
            writeln!(f, "\ntrace, {} bytes:", trace.len())?;
            write_fields(f, trace)?;
        }
        Ok(())
    }
}

/// Writes a sheet or a trace as a hex file has it, a field a line.
fn write_fields(f: &mut fmt::Formatter, bytes: &[u8]) -> fmt::Result {
    let fields = fields(bytes);
    for &(start, end) in &fields {
        writeln!(f, "  {}  # {}", hex(&bytes[start..end]), name_of_tag(bytes[start]))?;
    }
    let rest = fields.last().map_or(0, |&(_, end)| end);
    if rest < bytes.len() {
        writeln!(f, "  {}  # cut short", hex(&bytes[rest..]))?;
    }
    Ok(())
}

fn name_of_tag(tag: u8) -> &'static str {
    match tag {
        0x01 => "edition",
        0x10 => "layout",
        0x11 => "view",
        0x20 => "fill",
        0x21 => "load",
        0x22 => "store",
        0x23 => "reduce",
        0x24 => "transpose",
        0x25 => "multiply-add",
        0x26 => "vector",
        0x30 => "access",
        _ => "no tag",
    }
}

fn hex(bytes: &[u8]) -> String {
    let pairs: Vec<String> = bytes.iter().map(|byte| format!("{byte:02X}")).collect();
    pairs.join(" ")
}

#[cfg(test)]
mod tests {
    use super::*;
    use crate::reference::{check, mask_byte, read_trace, touched, Cause, Edition, ACCESS_LENGTH};

    #[test]
    fn what_does_not_matter_is_taken_away() {
        let case = Case::of_seed(Edition::One, 1, 0);
        let small = shrink(case, &mut |case| case.sheet.contains(&1));
        assert_eq!((small.memory.len(), small.tapes.len(), small.traces.len()), (0, 0, 0));
        assert!(small.sheet.contains(&1));
        assert!(small.sheet.len() <= 4, "{small}");
    }

    #[test]
    fn a_trace_keeps_the_fields_that_matter() {
        let repeats = |case: &Case| {
            case.traces.iter().any(|trace| {
                let refused = read_trace(trace).map_err(|refusal| refusal.cause).err();
                refused == Some(Cause::SameElement)
            })
        };
        let mut cases = (0..).map(|number| Case::of_seed(Edition::One, 1, number));
        let case = cases.find(repeats).expect("there are some");
        let small = shrink(case, &mut |case| repeats(case));
        assert_eq!((small.sheet.len(), small.traces.len()), (0, 1));
        assert_eq!(small.traces[0].len(), 2 * ACCESS_LENGTH);
    }

    #[test]
    fn masks_end_at_the_byte_that_matters() {
        let is_touched = |case: &Case| {
            case.touches.iter().any(|&[step, element]| touched(&case.masks, step, element))
        };
        let mut cases = (0..).map(|number| Case::of_seed(Edition::One, 1, number));
        let case = cases.find(is_touched).expect("there are some");
        let small = shrink(case, &mut |case| is_touched(case));
        let [[step, element]] = small.touches[..] else { panic!("{small}") };
        assert_eq!(small.masks.len(), mask_byte(step as usize, element as usize) + 1);
        assert_eq!((small.sheet.len(), small.mask_room), (0, 0));
    }

    #[test]
    fn a_vector_step_becomes_one_product() {
        let accepted_vector = |case: &Case| {
            let checked = check(&case.sheet, case.memory.len()).ok()?;
            checked.sheet.steps.into_iter().find_map(|step| match step {
                Step::Vector(vector) => Some(vector),
                _ => None,
            })
        };
        let with_bias = |case: &Case| {
            accepted_vector(case).is_some_and(|vector| vector.k > 1 && vector.bias.is_some())
        };
        let mut cases = (0..).map(|number| Case::of_seed(Edition::Two, 1, number));
        let case = cases.find(with_bias).expect("there are some");
        let small = shrink(case, &mut |case| accepted_vector(case).is_some());
        let vector = accepted_vector(&small).expect("kept");
        assert_eq!((vector.m, vector.k, vector.bias, small.memory.len()), (1, 1, None, 1));
    }
}
