//! Faults in the masks beside the tape: in their bits and counts, in when and where they are written,
//! and in what they answer.

use std::collections::BTreeSet;

use crate::faults::by_the_registers_size;
use crate::jobs::{put_records, Answer, Jobs, Reference};
use crate::reference::{
    check, mask_byte, read_sheet, touched, translate, Cause, Checked, Edition, Mask, Outcome, Step,
    BITS_A_BYTE, ELEMENTS_MAX, MASKS_LENGTH, MASK_BITS, MASK_LENGTH, STEPS_MAX,
};

/// What is done wrong with masks.
#[derive(Clone, Copy, Debug)]
pub enum MaskFault {
    HasTheHighestBitFirst,
    HasFilledElements,
    HasSkippedElements,
    HasDiscardedElements,
    HasAByteOnce,
    HasLoadsByTheRegistersSize,
    HasAnElementPastTheMatrix,
    HasNoStores,
    HasTheMatrixOfAVector,
    RepeatsTheMaskBefore,
    LeavesOutWholeSteps,
    CountsTheHighByteFirst,
    CountsInAByte,
    CountsTheMatrix,
    KeepsWholeSteps,
    KeepsPlacesPastTheSteps,
    KeepsSetBits,
    WritesPastTheMasks,
    ClearsMasksOfRefused,
    WritesBesideAShortTape,
    WritesWhatFits,
    WritesTheTapeAlone,
    KeepsTheRecordsOfRefused,
    KeepsTheCountOfRefused,
    JudgesTheRoomFirst,
    TakesAByteLess,
    TakesRoomForTheSteps,
    AsksForMoreRoom,
    AnswersForStep32,
    AnswersForElement256,
    AnswersByTheHighestBitFirst,
    AnswersWithoutRoomForCounts,
    AnswersPastTheEnd,
    LosesHighBitsOfAPlace,
    LosesHighBitsOfAByte,
    LeavesOutTheLastByte,
    AsksForAllMasks,
    AsksTheCount,
    GivesTheBitInItsPlace,
}

/// By what a fault is told: the masks, the numbers, the tape, or an answer from masks.
const MASKS: &str = "Translate: archive and reference differ in lent bytes";
const NUMBERS: &str = "Translate: archive and reference differ in returned";
const TAPE: &str = "Translate: archive and reference differ in lent tape";
const TOUCHED: &str = "Touched: archive and reference differ";

const ALL: &[Edition] = &Edition::ALL;
const WITH_VECTORS: &[Edition] = &[Edition::Two, Edition::Three];

/// Faults, what is told of each, and the editions whose sheets show it.
pub const MASK_FAULTS: [(MaskFault, &str, &[Edition]); 39] = [
    (MaskFault::HasTheHighestBitFirst, MASKS, ALL),
    (MaskFault::HasFilledElements, MASKS, ALL),
    (MaskFault::HasSkippedElements, MASKS, ALL),
    (MaskFault::HasDiscardedElements, MASKS, ALL),
    (MaskFault::HasAByteOnce, MASKS, ALL),
    (MaskFault::HasLoadsByTheRegistersSize, MASKS, ALL),
    (MaskFault::HasAnElementPastTheMatrix, MASKS, ALL),
    (MaskFault::HasNoStores, MASKS, ALL),
    (MaskFault::HasTheMatrixOfAVector, MASKS, WITH_VECTORS),
    (MaskFault::RepeatsTheMaskBefore, MASKS, ALL),
    (MaskFault::LeavesOutWholeSteps, MASKS, ALL),
    (MaskFault::CountsTheHighByteFirst, MASKS, ALL),
    (MaskFault::CountsInAByte, MASKS, ALL),
    (MaskFault::CountsTheMatrix, MASKS, ALL),
    (MaskFault::KeepsWholeSteps, MASKS, ALL),
    (MaskFault::KeepsPlacesPastTheSteps, MASKS, ALL),
    (MaskFault::KeepsSetBits, MASKS, ALL),
    (MaskFault::WritesPastTheMasks, MASKS, ALL),
    (MaskFault::ClearsMasksOfRefused, MASKS, ALL),
    (MaskFault::WritesBesideAShortTape, MASKS, ALL),
    (MaskFault::WritesWhatFits, MASKS, ALL),
    (MaskFault::WritesTheTapeAlone, TAPE, ALL),
    (MaskFault::KeepsTheRecordsOfRefused, NUMBERS, ALL),
    (MaskFault::KeepsTheCountOfRefused, NUMBERS, ALL),
    (MaskFault::JudgesTheRoomFirst, NUMBERS, ALL),
    (MaskFault::TakesAByteLess, NUMBERS, ALL),
    (MaskFault::TakesRoomForTheSteps, NUMBERS, ALL),
    (MaskFault::AsksForMoreRoom, NUMBERS, ALL),
    (MaskFault::AnswersForStep32, TOUCHED, ALL),
    (MaskFault::AnswersForElement256, TOUCHED, ALL),
    (MaskFault::AnswersByTheHighestBitFirst, TOUCHED, ALL),
    (MaskFault::AnswersWithoutRoomForCounts, TOUCHED, ALL),
    (MaskFault::AnswersPastTheEnd, TOUCHED, ALL),
    (MaskFault::LosesHighBitsOfAPlace, TOUCHED, ALL),
    (MaskFault::LosesHighBitsOfAByte, TOUCHED, ALL),
    (MaskFault::LeavesOutTheLastByte, TOUCHED, ALL),
    (MaskFault::AsksForAllMasks, TOUCHED, ALL),
    (MaskFault::AsksTheCount, TOUCHED, ALL),
    (MaskFault::GivesTheBitInItsPlace, TOUCHED, ALL),
];

/// What a translation is lent to write to.
pub struct Lent<'a> {
    pub tape: &'a mut [i32],
    pub masks: &'a mut [u8],
    pub records: &'a mut [u32; 1],
    pub answer: &'a mut Answer,
}

/// Translates a sheet with a fault.
pub fn translate_with(
    fault: MaskFault,
    reference: &Reference,
    sheet: &[u8],
    memory_len: usize,
    lent: Lent,
) {
    let Lent { tape, masks: before, records, answer } = lent;
    let mut masks = before.to_vec();
    masks.resize(room_with(fault, sheet, before.len()), 0);
    reference.translate(sheet, memory_len, tape, &mut masks, records, answer);
    match reference.cause() {
        None => {
            let checked = check(sheet, memory_len).expect("accepted");
            write_with(fault, &checked, before, &mut masks);
        }
        Some(cause) => {
            let lent = Lent { tape, masks: &mut masks, records, answer };
            refuse_with(fault, cause, sheet, memory_len, lent);
        }
    }
    put(&masks, before);
}

/// Writes as many bytes as there are and fit.
fn put(bytes: &[u8], room: &mut [u8]) {
    room.iter_mut().zip(bytes).for_each(|(place, byte)| *place = *byte);
}

/// The length that a room of some length is taken to have.
fn room_with(fault: MaskFault, sheet: &[u8], length: usize) -> usize {
    let steps = read_sheet(sheet).map_or(0, |sheet| sheet.steps.len());
    match fault {
        MaskFault::TakesAByteLess if length == MASKS_LENGTH - 1 => MASKS_LENGTH,
        MaskFault::TakesRoomForTheSteps if length >= MASK_LENGTH * steps => {
            length.max(MASKS_LENGTH)
        }
        MaskFault::AsksForMoreRoom if length == MASKS_LENGTH => MASKS_LENGTH - 1,
        _ => length,
    }
}

/// Writes the masks of an accepted sheet to a room that had other bytes before.
fn write_with(fault: MaskFault, checked: &Checked, before: &[u8], room: &mut [u8]) {
    put(masks_with(fault, checked).as_flattened(), room);
    let places = room.chunks_exact_mut(MASK_LENGTH).zip(before.chunks_exact(MASK_LENGTH));
    for (step, (place, before)) in places.take(STEPS_MAX).enumerate() {
        let is_past = step >= checked.outcomes.len();
        match fault {
            MaskFault::KeepsWholeSteps if !is_past && checked.outcomes[step].is_empty() => {
                put(before, place);
            }
            MaskFault::KeepsPlacesPastTheSteps if is_past => put(before, place),
            MaskFault::KeepsSetBits => {
                place.iter_mut().zip(before).for_each(|(byte, before)| *byte |= before);
            }
            _ => {}
        }
    }
    if matches!(fault, MaskFault::WritesPastTheMasks) {
        room[MASKS_LENGTH..].fill(0);
    }
}

fn masks_with(fault: MaskFault, checked: &Checked) -> [Mask; STEPS_MAX] {
    let mut masks = outcomes_with(fault, checked).masks();
    for (step, outcomes) in checked.outcomes.iter().enumerate() {
        match fault {
            MaskFault::RepeatsTheMaskBefore if step > 0 && outcomes.is_empty() => {
                masks[step] = masks[step - 1];
            }
            _ => mask_with(fault, outcomes.len(), &mut masks[step]),
        }
    }
    if matches!(fault, MaskFault::LeavesOutWholeSteps) {
        masks.sort_by_key(|mask| *mask == [0; MASK_LENGTH]);
    }
    masks
}

/// Changes the mask of a step with so many elements.
fn mask_with(fault: MaskFault, elements: usize, mask: &mut Mask) {
    let (bits, count) = mask.split_at_mut(MASK_BITS);
    match fault {
        MaskFault::HasTheHighestBitFirst => {
            bits.iter_mut().for_each(|byte| *byte = byte.reverse_bits());
        }
        MaskFault::CountsTheHighByteFirst => count.reverse(),
        MaskFault::CountsInAByte => count[1] = 0,
        MaskFault::CountsTheMatrix => put(&(elements as u16).to_le_bytes(), count),
        _ => {}
    }
}

/// An accepted sheet with the outcomes of which masks are made.
fn outcomes_with(fault: MaskFault, checked: &Checked) -> Checked {
    let mut checked = match fault {
        MaskFault::HasLoadsByTheRegistersSize => by_the_registers_size(checked),
        _ => checked.clone(),
    };
    for (step, outcomes) in checked.sheet.steps.iter().zip(&mut checked.outcomes) {
        match (fault, step) {
            (MaskFault::HasNoStores, Step::Store { .. }) => outcomes.clear(),
            (MaskFault::HasTheMatrixOfAVector, Step::Vector(vector)) => {
                outcomes.resize(vector.matrix_elements(), Outcome::Placed(0));
            }
            (MaskFault::HasAnElementPastTheMatrix, Step::Load { .. } | Step::Store { .. }) => {
                outcomes.resize(ELEMENTS_MAX.min(outcomes.len() + 1), Outcome::Placed(0));
            }
            _ => {}
        }
        let mut bytes = BTreeSet::new();
        for outcome in outcomes {
            match (fault, *outcome) {
                (MaskFault::HasFilledElements, Outcome::Filled(_))
                | (MaskFault::HasSkippedElements, Outcome::Skipped)
                | (MaskFault::HasDiscardedElements, Outcome::Discarded) => {
                    *outcome = Outcome::Placed(0);
                }
                (MaskFault::HasAByteOnce, Outcome::Placed(byte)) if !bytes.insert(byte) => {
                    *outcome = Outcome::Skipped;
                }
                _ => {}
            }
        }
    }
    checked
}

/// Changes what a refused sheet leaves.
fn refuse_with(fault: MaskFault, cause: Cause, sheet: &[u8], memory_len: usize, lent: Lent) {
    let Lent { tape, masks, records, answer } = lent;
    let in_full = || translate(sheet, memory_len, usize::MAX, usize::MAX).expect("it has room");
    match (fault, cause) {
        (MaskFault::ClearsMasksOfRefused, _) => masks.fill(0),
        (MaskFault::WritesBesideAShortTape, Cause::TapeRoom)
        | (MaskFault::WritesWhatFits, Cause::MaskRoom) => {
            put(in_full().masks.as_flattened(), masks);
        }
        (MaskFault::WritesTheTapeAlone, Cause::MaskRoom) => {
            put_records(&in_full().records, tape);
        }
        (MaskFault::KeepsTheRecordsOfRefused, Cause::MaskRoom) => {
            records[0] = in_full().records.len() as u32;
        }
        (MaskFault::KeepsTheCountOfRefused, Cause::MaskRoom) => {
            answer[3] = in_full().byte_elements;
        }
        (MaskFault::JudgesTheRoomFirst, _) if masks.len() < MASKS_LENGTH => {
            *answer = [Cause::MaskRoom.number(), 0, 0, 0];
        }
        _ => {}
    }
}

/// What masks answer with a fault.
pub fn touched_with(fault: MaskFault, masks: &[u8], step: u32, element: u32) -> u32 {
    let is_set = |byte: usize, bit: usize| masks.get(byte).is_some_and(|byte| byte >> bit & 1 == 1);
    let is_touched = touched(masks, step, element);
    let (at_step, at_element) = (step as usize, element as usize);
    let (byte, bit) = (mask_byte(at_step, at_element), at_element % BITS_A_BYTE);
    let (has_step, has_element) = (at_step < STEPS_MAX, at_element < ELEMENTS_MAX);
    let answer = match fault {
        MaskFault::AnswersForStep32 => is_touched || at_step == STEPS_MAX && is_set(byte, bit),
        MaskFault::AnswersForElement256 => {
            is_touched || has_step && at_element == ELEMENTS_MAX && is_set(byte, bit)
        }
        MaskFault::AnswersByTheHighestBitFirst => {
            has_step && has_element && is_set(byte, BITS_A_BYTE - 1 - bit)
        }
        MaskFault::AnswersWithoutRoomForCounts => {
            has_step && has_element && is_set(byte - 2 * at_step, bit)
        }
        MaskFault::AnswersPastTheEnd => {
            is_touched || has_step && has_element && byte >= masks.len()
        }
        MaskFault::LosesHighBitsOfAPlace => touched(masks, step & 0xFF, element & 0xFF),
        MaskFault::LosesHighBitsOfAByte => {
            let byte = byte as u32 as usize;
            has_element && byte < MASKS_LENGTH && is_set(byte, bit)
        }
        MaskFault::LeavesOutTheLastByte => is_touched && byte + 1 < masks.len(),
        MaskFault::AsksForAllMasks => is_touched && masks.len() >= MASKS_LENGTH,
        MaskFault::AsksTheCount => {
            let count = mask_byte(at_step, ELEMENTS_MAX);
            is_touched && masks.get(count..count + 2) != Some(&[0, 0])
        }
        _ => is_touched,
    };
    match fault {
        MaskFault::GivesTheBitInItsPlace => u32::from(answer) << bit,
        _ => answer.into(),
    }
}
