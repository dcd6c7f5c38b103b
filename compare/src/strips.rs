//! The strips of the scope and eight beside them: sheets and memories from the files under `strips/`, and what the
//! scope says that they give.

use crate::jobs::{Answer, Jobs, OutcomeRow, State, AGREES};
use crate::outcomes::{Place, Told};
use crate::reference::{
    trace_bytes, Entry, MASKS_LENGTH, MASK_BITS, MASK_LENGTH, PLACED, RECORD_NUMBERS,
};

/// A strip: a sheet, the memory that it is carried out on, and what that gives.
pub struct Strip {
    pub name: &'static str,
    pub sheet: Vec<u8>,
    pub memory: Vec<u8>,
    pub expected: Expected,
}

/// What the scope says of a strip.
pub enum Expected {
    /// The sides of a register's u8 matrix and its elements.
    Register(usize, [u8; 2], &'static [u32]),
    /// The bytes of memory from a place on; the others keep what they held.
    Memory(usize, &'static [u8]),
    /// Number and place of a refusal.
    Refusal([u32; 3]),
}

macro_rules! strip {
    ($name:literal, $expected:expr) => {
        Strip {
            name: $name,
            sheet: bytes_of_hex(include_str!(concat!("../../strips/", $name, "/sheet.hex"))),
            memory: bytes_of_hex(include_str!(concat!("../../strips/", $name, "/memory.hex"))),
            expected: $expected,
        }
    };
}

/// Every strip, in the scope's order; the last eight are none of the scope's.
pub fn strips() -> Vec<Strip> {
    use Expected::*;
    vec![
        strip!("01-constant", Register(1, [1, 8], &[9, 9, 0, 1, 2, 3, 9, 9])),
        strip!("02-clamp-to-edge", Register(1, [1, 8], &[0, 0, 0, 1, 2, 3, 3, 3])),
        strip!("03-repeat", Register(1, [1, 8], &[2, 3, 0, 1, 2, 3, 0, 1])),
        strip!("04-mirror-repeat", Register(1, [1, 8], &[2, 1, 0, 1, 2, 3, 2, 1])),
        strip!("04-mirror-repeat-of-one", Register(1, [1, 8], &[0; 8])),
        strip!("05-undefined", Refusal([13, 1, 0])),
        strip!("06-clamped-store", Memory(0, &[16, 17, 18, 19])),
        strip!("07-permuted-view", Register(0, [3, 2], &[0, 3, 1, 4, 2, 5])),
        strip!("08-clip", Register(0, [2, 4], &[99, 99, 0, 1, 99, 99, 4, 5])),
        strip!("09-large-index", Refusal([12, 1, 1])),
        strip!("10-stride-zero-single", Memory(0, &[5])),
        strip!("10-stride-zero-pair", Refusal([15, 1, 1])),
        strip!("11-two-by-two-add", Register(1, [1, 1], &[47])),
        strip!("12-blocks-of-two", Register(1, [1, 8], &[0, 0, 1, 1, 2, 2, 3, 3])),
        strip!(
            "13-two-layer-network",
            Memory(80, &[0xF4, 0x01, 0, 0, 0xC5, 0x03, 0, 0, 0x48, 0xF4, 0xFF, 0xFF])
        ),
        strip!("14-spans-of-one", Register(0, [2, 4], &[0, 1, 2, 4, 5, 6, 0, 1])),
        strip!("15-no-object-kept", Register(0, [2, 4], &[100, 100, 16, 17, 100, 100, 20, 21])),
        strip!("15-no-object-zeros", Register(0, [2, 4], &[0, 0, 16, 17, 0, 0, 20, 21])),
        strip!(
            "16-clip-ends",
            Register(1, [4, 4], &[99, 99, 99, 99, 99, 0, 1, 99, 99, 2, 3, 99, 99, 99, 99, 99])
        ),
        strip!("17-view-sizes", Register(1, [2, 4], &[0, 1, 4, 5, 8, 9, 0, 1])),
        strip!("18-low-bits", Register(1, [1, 8], &[120, 120, 0, 1, 2, 3, 120, 120])),
    ]
}

/// The tape of strip 4's sheet as the scope prints it.
pub const STRIP_4_TAPE: [[i32; RECORD_NUMBERS]; 5] = [
    [4, 0, 0, 0, 0, 0],
    [0, 1, 0, 0, 0, 0],
    [1, 1, 0, 3, 2, -1],
    [1, 1, 3, 3, 1, 1],
    [1, 1, 6, 2, 2, -1],
];

/// Where the loads and stores of the strips begin, after a fill.
const FIRST_ACCESS: Place = [1, 0];
const NO_OUTCOME: OutcomeRow = [0; 4];
const SKIPPED: OutcomeRow = [0, 0, 0, 0];
/// With strip 1's value.
const FILLED_BELOW: OutcomeRow = [1, 9, 0, 1];
const FILLED_ABOVE: OutcomeRow = [1, 9, 0, 2];
const DISCARDED_BELOW: OutcomeRow = [2, 0, 0, 1];
const DISCARDED_ABOVE: OutcomeRow = [2, 0, 0, 2];

/// At a byte, and inside.
const fn at(byte: u32) -> OutcomeRow {
    [3, byte, 0, 0]
}

/// At a byte, from a coordinate of dimension 0 that is below.
const fn below(byte: u32) -> OutcomeRow {
    [3, byte, 0, 1]
}

const fn above(byte: u32) -> OutcomeRow {
    [3, byte, 0, 2]
}

/// Strips with what becomes of the elements of their loads and stores, from step 1 on, as the
/// scope says. In strips 1 to 6 the coordinates are -2 to 5, of which 0 to 3 are inside; of a
/// dimension of 1, 0 alone.
const OUTCOMES: [(&str, &[&[OutcomeRow]]); 9] = [
    (
        "01-constant",
        &[&[FILLED_BELOW, FILLED_BELOW, at(0), at(1), at(2), at(3), FILLED_ABOVE, FILLED_ABOVE]],
    ),
    ("02-clamp-to-edge", &[&[below(0), below(0), at(0), at(1), at(2), at(3), above(3), above(3)]]),
    ("03-repeat", &[&[below(2), below(3), at(0), at(1), at(2), at(3), above(0), above(1)]]),
    ("04-mirror-repeat", &[&[below(2), below(1), at(0), at(1), at(2), at(3), above(2), above(1)]]),
    (
        "04-mirror-repeat-of-one",
        &[&[below(0), below(0), at(0), above(0), above(0), above(0), above(0), above(0)]],
    ),
    (
        "06-clamped-store",
        &[
            &[below(16), below(16), at(16), at(17), at(18), at(19), above(19), above(19)],
            &[
                DISCARDED_BELOW,
                DISCARDED_BELOW,
                at(0),
                at(1),
                at(2),
                at(3),
                DISCARDED_ABOVE,
                DISCARDED_ABOVE,
            ],
        ],
    ),
    ("07-permuted-view", &[&[at(0), at(3), at(1), at(4), at(2), at(5)]]),
    ("08-clip", &[&[SKIPPED, SKIPPED, at(0), at(1), SKIPPED, SKIPPED, at(4), at(5)]]),
    ("10-stride-zero-single", &[&[at(0)]]),
];

/// Strips with the divisions that rule 3 counts over all elements of their loads and stores.
const DIVISIONS: [(&str, u32); 6] = [
    // Indices 0 to 7 by 8, in the store as in the load.
    ("01-constant", 7),
    ("06-clamped-store", 14),
    // Indices 0 to 5 by 3, and 3 to 5 then by 2.
    ("07-permuted-view", 8),
    // Indices 0, 1, 4 and 5 by 8.
    ("08-clip", 3),
    // Indices 0 and 1, then 0 to 2 by 3.
    ("13-two-layer-network", 3),
    // Indices 0 to 7 by 3, and 3 to 7 then by 2.
    ("14-spans-of-one", 12),
];

/// Strips with the masks of their steps, from step 1 on: the bits of elements 7 to 0, and how many
/// are set. All other bytes are 0.
const MASKS: [(&str, &[(u8, u8)]); 11] = [
    ("01-constant", &[(0b0011_1100, 4)]),
    ("02-clamp-to-edge", &[(0b1111_1111, 8)]),
    ("04-mirror-repeat-of-one", &[(0b1111_1111, 8)]),
    ("06-clamped-store", &[(0b1111_1111, 8), (0b0011_1100, 4)]),
    ("07-permuted-view", &[(0b0011_1111, 6)]),
    ("08-clip", &[(0b1100_1100, 4)]),
    ("10-stride-zero-single", &[(0b0000_0001, 1)]),
    // Vector steps between the load and the store.
    ("13-two-layer-network", &[(0b0000_0011, 2), (0, 0), (0, 0), (0b0000_0111, 3)]),
    ("14-spans-of-one", &[(0b1111_1111, 8)]),
    ("15-no-object-kept", &[(0b1100_1100, 4)]),
    ("15-no-object-zeros", &[(0b1100_1100, 4)]),
];

/// Reads hex digits, two a byte, with blanks between them and comments from `#` to the line's end.
pub fn bytes_of_hex(text: &str) -> Vec<u8> {
    let digits: Vec<u32> = text
        .lines()
        .flat_map(|line| line.split('#').next().unwrap_or("").chars())
        .filter(|digit| !digit.is_whitespace())
        .map(|digit| digit.to_digit(16).expect("a hex digit"))
        .collect();
    assert!(digits.len().is_multiple_of(2), "two digits a byte");
    digits.chunks(2).map(|pair| (pair[0] * 16 + pair[1]) as u8).collect()
}

/// Sets an implementation beside every strip; gives how many there are, or what differs.
pub fn check_strips(jobs: &dyn Jobs) -> Result<usize, String> {
    let strips = strips();
    for strip in &strips {
        check_strip(jobs, strip).map_err(|what| format!("strip {}: {what}", strip.name))?;
    }
    check_strip_4_tape(jobs)?;
    let named = |name| strips.iter().find(|strip| strip.name == name).expect("there is one");
    for (name, steps) in OUTCOMES {
        check_trace(jobs, named(name), steps)
            .and_then(|()| check_outcomes(jobs, named(name), steps))
            .map_err(|what| format!("strip {name}: {what}"))?;
    }
    for (name, masks) in MASKS {
        check_masks(jobs, named(name), masks).map_err(|what| format!("strip {name}: {what}"))?;
    }
    for (name, count) in DIVISIONS {
        check_divisions(jobs, named(name), count)
            .map_err(|what| format!("strip {name}: {what}"))?;
    }
    Ok(strips.len())
}

fn check_strip(jobs: &dyn Jobs, strip: &Strip) -> Result<(), String> {
    let mut memory = strip.memory.clone();
    let mut state = State::EMPTY;
    let mut answer = [0; 4];
    jobs.carry_out(&strip.sheet, &mut memory, &mut state, &mut answer);
    let mut expected_memory = strip.memory.clone();
    let mut expected_answer = [0; 3];
    match strip.expected {
        Expected::Register(register, [rows, columns], elements) => {
            let at = 256 * register;
            equal("type", &state.types[4 * register..][..4], &[0, rows, columns, 0])?;
            equal("elements", &state.elements[at..at + elements.len()], elements)?;
        }
        Expected::Memory(at, bytes) => {
            expected_memory[at..at + bytes.len()].copy_from_slice(bytes);
        }
        Expected::Refusal(refusal) => {
            expected_answer = refusal;
            let [number, step, element] = refusal;
            check_outcome(jobs, strip, FIRST_ACCESS, NO_OUTCOME, [number, step, element, 0])?;
        }
    }
    equal("number and place", &answer[..3], &expected_answer)?;
    equal("memory", &memory, &expected_memory)
}

fn equal<T: PartialEq + std::fmt::Debug>(
    name: &str,
    got: &[T],
    wanted: &[T],
) -> Result<(), String> {
    if got == wanted {
        return Ok(());
    }
    Err(format!("{name} {got:?}, not {wanted:?}"))
}

fn check_strip_4_tape(jobs: &dyn Jobs) -> Result<(), String> {
    let strip = strip!("04-mirror-repeat", Expected::Refusal([0; 3]));
    let (mut tape, mut masks) = ([0; 60], [0; MASKS_LENGTH]);
    let (mut records, mut answer) = ([0], [0; 4]);
    jobs.translate(&strip.sheet, 65_536, &mut tape, &mut masks, &mut records, &mut answer);
    let expected = STRIP_4_TAPE.concat();
    if answer != [0, 0, 0, 8] || records != [5] || tape[..30] != expected[..] {
        return Err(format!("strip 4's tape: {answer:?} {records:?} {tape:?}"));
    }
    Ok(())
}

/// The masks of a strip, written over ones, are those that are expected.
fn check_masks(jobs: &dyn Jobs, strip: &Strip, steps: &[(u8, u8)]) -> Result<(), String> {
    let mut expected = [0; MASKS_LENGTH];
    for (mask, &(bits, count)) in expected.chunks_exact_mut(MASK_LENGTH).skip(1).zip(steps) {
        (mask[0], mask[MASK_BITS]) = (bits, count);
    }
    let (mut masks, mut answer) = ([0xFF; MASKS_LENGTH], [0; 4]);
    jobs.translate(
        &strip.sheet,
        strip.memory.len(),
        &mut [0; 60],
        &mut masks,
        &mut [0],
        &mut answer,
    );
    let count = steps.iter().map(|&(_, count)| u32::from(count)).sum();
    equal("answer of its masks", &answer, &[0, 0, 0, count])?;
    equal("masks", &masks, &expected)
}

/// The trace of a strip is the one that is expected, which agrees in a replay.
fn check_trace(jobs: &dyn Jobs, strip: &Strip, steps: &[&[OutcomeRow]]) -> Result<(), String> {
    let mut entries = Vec::new();
    for (step, outcomes) in (1..).zip(steps) {
        for (element, &[sort, value, ..]) in (0..).zip(*outcomes) {
            let sort = sort as u8;
            let byte = if sort == PLACED { value } else { 0 };
            entries.push(Entry { step, element, sort, byte });
        }
    }
    let (expected, memory_len) = (trace_bytes(&entries), strip.memory.len());
    let (mut trace, mut verdict, mut answer) = (vec![0; expected.len()], [0; 2], [0; 4]);
    jobs.trace(&strip.sheet, memory_len, &mut trace, &mut answer);
    equal("answer of its trace", &answer, &[0, 0, 0, expected.len() as u32])?;
    equal("trace", &trace, &expected)?;
    jobs.replay(&strip.sheet, memory_len, &expected, &mut verdict, &mut answer);
    equal("answer of its replay", &answer, &[0, 0, 0, entries.len() as u32])?;
    equal("verdict", &verdict, &AGREES)
}

/// Each element has the outcome that is expected. The fill and what is past a matrix have none.
fn check_outcomes(jobs: &dyn Jobs, strip: &Strip, steps: &[&[OutcomeRow]]) -> Result<(), String> {
    let mut none = vec![[0, 0], [1 + steps.len() as u32, 0]];
    for (step, &outcomes) in (1..).zip(steps) {
        none.push([step, outcomes.len() as u32]);
        for (element, &outcome) in (0..).zip(outcomes) {
            check_outcome(jobs, strip, [step, element], outcome, [0; 4])?;
        }
    }
    for [step, element] in none {
        check_outcome(jobs, strip, [step, element], NO_OUTCOME, [5, step, element, 0])?;
    }
    Ok(())
}

fn check_outcome(
    jobs: &dyn Jobs,
    strip: &Strip,
    place: Place,
    outcome: OutcomeRow,
    answer: Answer,
) -> Result<(), String> {
    let told = Told::by(jobs, &strip.sheet, strip.memory.len(), place);
    equal(&format!("outcome at {place:?}"), &told.outcome, &outcome)?;
    equal(&format!("answer at {place:?}"), &told.answer, &answer)
}

fn check_divisions(jobs: &dyn Jobs, strip: &Strip, count: u32) -> Result<(), String> {
    let mut answer = [0; 4];
    jobs.divisions(&strip.sheet, strip.memory.len(), &mut answer);
    equal("answer of its divisions", &answer, &[0, 0, 0, count])
}

#[cfg(test)]
mod tests {
    use super::*;
    use crate::jobs::Reference;

    #[test]
    fn strip_4_is_the_sheet_of_45_bytes() {
        let printed = "01 01 00 01 10 10 00 01 04 00 00 00 00 01 00 04 00 01 00 FE FF 08 00 20 08 \
                       00 00 01 08 00 00 00 00 00 21 08 00 01 00 00 FF 00 00 00 00";
        assert_eq!(strips()[3].sheet, bytes_of_hex(printed));
        assert_eq!(strips()[3].sheet.len(), 45);
    }

    #[test]
    fn the_reference_gives_what_the_scope_says() {
        assert_eq!(check_strips(&Reference::default()), Ok(21));
    }
}
