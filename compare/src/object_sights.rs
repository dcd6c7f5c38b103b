//! What loads are to be seen doing with and without an object, what their tapes are to be seen
//! having where they start from zeros, and what those of a sheet do and have.

use std::collections::BTreeSet;

use crate::reference::{
    step_records, Cause, Checked, Edition, Kind, Matrix, Outcome, Record, Registers, Start, Step,
    FILL, RECORDS_MAX, RECORD_NUMBERS,
};
use crate::tapes::Tape;

const EMPTY: &str = "load without an object of an empty register";
const NONE_SKIPPED: &str = "load without an object skips no element";
/// Of the skipped elements some are not 0, here and below.
const ALL_SKIPPED: &str = "load without an object skips every element";
const FIRST_SKIPPED: &str = "load without an object skips the first element";
const LAST_SKIPPED: &str = "load without an object skips the last element";
const BETWEEN_SKIPPED: &str = "load without an object skips an element between two others";
const OF_ITSELF: &str = "load of its own register as object skips an element";
const OF_ANOTHER: &str = "load of another register as object skips an element";

const PLAIN: [&str; 8] = [
    EMPTY,
    NONE_SKIPPED,
    ALL_SKIPPED,
    FIRST_SKIPPED,
    LAST_SKIPPED,
    BETWEEN_SKIPPED,
    OF_ITSELF,
    OF_ANOTHER,
];

const BEFORE_A_FILL: &str = "zeros before a run of 0 from the first element on";
const BEFORE_THE_SAME: &str = "zeros before a run of 0 over the whole matrix";
const BEFORE_ZEROS: &str = "zeros before the zeros of the next load";
const LONGEST: &str = "zeros in a tape of as many records as there may be";
const TOO_LONG: &str = "tape too long by its zeros alone";
const ROOM_FITS: &str = "zeros in a tape whose room fits";
const ROOM_SHORT_BY_ONE: &str = "zeros in a tape whose room is a record short";

/// Of the records that fill with zeros before a load's runs.
const OF_ZEROS: [&str; 7] =
    [BEFORE_A_FILL, BEFORE_THE_SAME, BEFORE_ZEROS, LONGEST, TOO_LONG, ROOM_FITS, ROOM_SHORT_BY_ONE];
/// What such a record is refused for once it is changed, or what is before it.
const ZEROS_REFUSED: [Cause; 7] = [
    Cause::RecordRegister,
    Cause::RecordEmptyRegister,
    Cause::RecordElementCount,
    Cause::RecordFirst,
    Cause::RecordPastMatrix,
    Cause::RecordValue,
    Cause::RecordUnused,
];

/// Everything that loads of an edition are to be seen doing.
pub fn every(edition: Edition) -> Vec<String> {
    let mut sights: Vec<String> = PLAIN.map(String::from).to_vec();
    sights.extend((0..6).map(|kind| of_kind(Kind(kind))));
    if edition.start(None) == Start::Zeros {
        sights.extend(OF_ZEROS.map(String::from));
        sights.extend(ZEROS_REFUSED.map(refused_zeros));
    }
    sights
}

fn of_kind(kind: Kind) -> String {
    format!("load without an object skips an element of kind {}", kind.0)
}

fn refused_zeros(cause: Cause) -> String {
    format!("zeros refused for {cause:?}")
}

/// What an accepted load does with what the registers hold before it.
pub fn of_load(
    register: usize,
    object: Option<usize>,
    outcomes: &[Outcome],
    registers: &Registers,
) -> Vec<String> {
    let held = registers[object.unwrap_or(register)].as_ref().expect("accepted");
    let skipped: Vec<bool> = outcomes.iter().map(|outcome| *outcome == Outcome::Skipped).collect();
    let shows = |element: usize| skipped[element] && held.elements[element] != 0;
    let shown: Vec<usize> = (0..skipped.len()).filter(|&element| shows(element)).collect();
    match object {
        None if !skipped.contains(&true) => vec![String::from(NONE_SKIPPED)],
        _ if shown.is_empty() => Vec::new(),
        None => of_no_object(held, &skipped, &shown),
        Some(object) if object == register => vec![String::from(OF_ITSELF)],
        Some(_) => vec![String::from(OF_ANOTHER)],
    }
}

/// What a load without an object does that skips elements, some of which are not 0.
fn of_no_object(held: &Matrix, skipped: &[bool], shown: &[usize]) -> Vec<String> {
    let last = skipped.len() - 1;
    let is_between = |&element: &usize| {
        skipped[..element].contains(&false) && skipped[element + 1..].contains(&false)
    };
    let mut sights = vec![of_kind(held.type_.kind)];
    for (is_so, sight) in [
        (!skipped.contains(&false), ALL_SKIPPED),
        (shown.contains(&0), FIRST_SKIPPED),
        (shown.contains(&last), LAST_SKIPPED),
        (shown.iter().any(is_between), BETWEEN_SKIPPED),
    ] {
        if is_so {
            sights.push(String::from(sight));
        }
    }
    sights
}

/// What a step is that is refused.
pub fn of_refused(step: &Step, cause: Cause) -> Option<&'static str> {
    let is_empty = cause == Cause::EmptyRegister && matches!(step, Step::Load { object: None, .. });
    is_empty.then_some(EMPTY)
}

/// The records of an accepted sheet, and which of them are the zeros that loads start from.
fn with_zeros(checked: &Checked) -> (Vec<Record>, BTreeSet<usize>) {
    let (mut records, mut zeros) = (Vec::new(), BTreeSet::new());
    for step in 0..checked.sheet.steps.len() {
        if checked.start(step) == Some(Start::Zeros) {
            zeros.insert(records.len());
        }
        step_records(checked, step, &mut records);
    }
    (records, zeros)
}

/// What the tape of an accepted sheet has, which was run.
pub fn of_tape(checked: &Checked) -> BTreeSet<&'static str> {
    let (records, zeros) = with_zeros(checked);
    let mut sights = BTreeSet::new();
    if !zeros.is_empty() && records.len() == RECORDS_MAX {
        sights.insert(LONGEST);
    }
    for &at in &zeros {
        let Some(next) = records.get(at + 1) else { continue };
        let is_same = *next == records[at];
        match *next {
            _ if zeros.contains(&(at + 1)) => {
                sights.extend(is_same.then_some(BEFORE_ZEROS));
            }
            [FILL, _, 0, _, 0, _] => {
                sights.insert(if is_same { BEFORE_THE_SAME } else { BEFORE_A_FILL });
            }
            _ => {}
        }
    }
    sights
}

/// What the tape of an accepted sheet is beside its room, in numbers.
pub fn of_room(checked: &Checked, room: usize) -> Option<&'static str> {
    let (records, zeros) = with_zeros(checked);
    let (length, room) = (records.len(), room / RECORD_NUMBERS);
    match length {
        _ if zeros.is_empty() => None,
        ..=RECORDS_MAX if length == room => Some(ROOM_FITS),
        ..=RECORDS_MAX if length == room + 1 => Some(ROOM_SHORT_BY_ONE),
        ..=RECORDS_MAX => None,
        _ => (length - zeros.len() <= RECORDS_MAX).then_some(TOO_LONG),
    }
}

/// What a record of a tape is that is refused in the place of the zeros that a load starts from.
pub fn of_refused_record(
    checked: &Checked,
    tape: &Tape,
    at: usize,
    cause: Cause,
) -> Option<String> {
    let (_, zeros) = with_zeros(checked);
    let is_fill = tape.numbers.get(at * RECORD_NUMBERS) == Some(&FILL);
    (is_fill && zeros.contains(&at)).then(|| refused_zeros(cause))
}
