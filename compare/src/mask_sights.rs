//! What masks are to be seen having, in which rooms they are to be written and what they are to be
//! asked for; and what those of a sheet have, where they are written and what they are asked for.

use std::collections::BTreeSet;

use crate::masks::{areas, LOST};
use crate::outcomes::{Place, FAR};
use crate::reference::{
    mask_byte, read_sheet, touched, Access, Cause, Checked, Edition, Outcome, Step, Type,
    BITS_A_BYTE, ELEMENTS_MAX, MASKS_LENGTH, MASK_BITS, MASK_LENGTH, STEPS_MAX,
};
use crate::trace_sights::OF_SHEET;

/// Its count is the one that takes the second byte.
const FULL: &str = "mask of 256 elements";
const LAST_ELEMENT: &str = "mask of element 255, not of all";
const WITHIN_A_BYTE: &str = "mask of a matrix that ends within a byte";
const SAME_BYTE: &str = "mask of elements that have the same byte";
const OBJECT_LARGER: &str = "mask of elements that a load's own register did not have";
const NO_STEPS: &str = "masks of no steps";
const LAST_STEP: &str = "mask of step 31";

const PLAIN: [&str; 7] =
    [FULL, LAST_ELEMENT, WITHIN_A_BYTE, SAME_BYTE, OBJECT_LARGER, NO_STEPS, LAST_STEP];

/// What becomes of the elements that have no byte.
const WITHOUT_A_BYTE: [(Access, &str); 4] = [
    (Access::Load, "skipped"),
    (Access::Load, "filled"),
    (Access::Store, "skipped"),
    (Access::Store, "discarded"),
];
const VECTOR: &str = "vector";
const WHOLE_STEPS: [&str; 5] = ["fill", "reduce", "transpose", "multiply-add", VECTOR];

const ROOM_FITS: &str = "masks in a room that fits";
const ROOM_TO_SPARE: &str = "masks with room to spare";
const ROOM_SHORT_BY_ONE: &str = "masks in a room one byte short";
const ROOM_FOR_ITS_STEPS: &str = "masks in a room for the sheet's own steps";
const NO_ROOM: &str = "masks without room";
const TAPE_ALONE_SHORT: &str = "masks with room beside a tape without";
const BOTH_SHORT: &str = "masks and tape without room";
const TAPE_TOO_LONG: &str = "masks without room beside a tape that is too long";

const ROOMS: [&str; 8] = [
    ROOM_FITS,
    ROOM_TO_SPARE,
    ROOM_SHORT_BY_ONE,
    ROOM_FOR_ITS_STEPS,
    NO_ROOM,
    TAPE_ALONE_SHORT,
    BOTH_SHORT,
    TAPE_TOO_LONG,
];

const TOUCHED: &str = "touched";
const TOUCHED_LAST: &str = "touched, element 255 of step 31";
const TOUCHED_AT_THE_END: &str = "touched by the last byte of masks cut short";
const TOUCHED_UNCOUNTED: &str = "touched in a mask that counts none";
const UNTOUCHED: &str = "not touched";
const JUST_PAST: &str = "not touched, masks cut short before its byte";
const NO_MASKS: &str = "not touched, no masks";
/// The bytes have the bit, counted on from the places that they have.
const ELEMENT_PAST: &str = "not touched, a bit for an element above 255";
const STEP_PAST: &str = "not touched, a bit for a step above 31";
const FAR_STEP: &str = "not touched, the last number for a step";
const FAR_ELEMENT: &str = "not touched, the last number for an element";

const ASKED: [&str; 11] = [
    TOUCHED,
    TOUCHED_LAST,
    TOUCHED_AT_THE_END,
    TOUCHED_UNCOUNTED,
    UNTOUCHED,
    JUST_PAST,
    NO_MASKS,
    ELEMENT_PAST,
    STEP_PAST,
    FAR_STEP,
    FAR_ELEMENT,
];

/// Everything that masks of an edition are to be seen having and being asked for.
pub fn every(edition: Edition) -> Vec<String> {
    let mut sights: Vec<String> =
        [&PLAIN[..], &ROOMS, &ASKED].concat().into_iter().map(String::from).collect();
    for (access, name) in WITHOUT_A_BYTE {
        sights.extend([empty(access, name), beside(access, name)]);
    }
    sights.extend((0..MASK_BITS).map(in_byte));
    sights.extend((0..BITS_A_BYTE).map(alone));
    let is_step = |step: &&str| edition.has_vectors() || *step != VECTOR;
    sights.extend(WHOLE_STEPS.into_iter().filter(is_step).map(behind_bits));
    sights.extend(OF_SHEET.map(refused_before));
    for past in LOST {
        sights.extend([lost_of_step(past), lost_of_element(past)]);
    }
    sights
}

fn empty(access: Access, name: &str) -> String {
    format!("empty mask of a {access:?} with every element {name}")
}

fn beside(access: Access, name: &str) -> String {
    format!("mask of a {access:?} with an element {name} beside one with a byte")
}

fn in_byte(byte: usize) -> String {
    format!("mask with a bit in byte {byte}")
}

fn alone(bit: usize) -> String {
    format!("mask with bit {bit} alone in a byte")
}

fn behind_bits(step: &str) -> String {
    format!("empty mask of a {step} behind one with bits")
}

fn refused_before(number: u32) -> String {
    format!("masks without room for a sheet that is refused {number}")
}

fn lost_of_step(past: u32) -> String {
    format!("not touched, {past} steps past one that is")
}

fn lost_of_element(past: u32) -> String {
    format!("not touched, {past} elements past one that is")
}

/// What the masks of an accepted sheet have.
pub fn of_masks(checked: &Checked) -> BTreeSet<String> {
    let mut sights = BTreeSet::new();
    let mut before_has_bits = false;
    for (number, step) in checked.sheet.steps.iter().enumerate() {
        let outcomes = &checked.outcomes[number];
        match checked.addressing(number) {
            Some(addressing) => {
                let own = checked.types[number][step.register()];
                sights.extend(of_access(addressing.access, outcomes, own));
            }
            None if before_has_bits => drop(sights.insert(behind_bits(whole_step(step)))),
            None => {}
        }
        before_has_bits = outcomes.iter().any(has_byte);
    }
    match checked.sheet.steps.len() {
        0 => drop(sights.insert(String::from(NO_STEPS))),
        STEPS_MAX if before_has_bits => drop(sights.insert(String::from(LAST_STEP))),
        _ => {}
    }
    sights
}

fn whole_step(step: &Step) -> &'static str {
    match step {
        Step::Fill { .. } => "fill",
        Step::Reduce { .. } => "reduce",
        Step::Transpose { .. } => "transpose",
        Step::MultiplyAdd { .. } => "multiply-add",
        Step::Vector(_) => VECTOR,
        Step::Load { .. } | Step::Store { .. } => unreachable!("no whole step"),
    }
}

fn has_byte(outcome: &Outcome) -> bool {
    outcome.byte().is_some()
}

fn name(outcome: &Outcome) -> &'static str {
    match outcome {
        Outcome::Skipped => "skipped",
        Outcome::Filled(_) => "filled",
        Outcome::Discarded => "discarded",
        Outcome::Placed(_) => "placed",
    }
}

/// What the mask of a load or a store has, whose own register had a type or was empty.
fn of_access(access: Access, outcomes: &[Outcome], own: Option<Type>) -> Vec<String> {
    let elements = outcomes.len();
    let placed: Vec<usize> = outcomes.iter().filter_map(|outcome| outcome.byte()).collect();
    let last = outcomes.iter().rposition(has_byte);
    let is_full = placed.len() == ELEMENTS_MAX;
    let ends_within = !elements.is_multiple_of(BITS_A_BYTE);
    let mut sights = Vec::new();
    for (is_so, sight) in [
        (is_full, FULL),
        (!is_full && last == Some(ELEMENTS_MAX - 1), LAST_ELEMENT),
        (ends_within && last == Some(elements - 1), WITHIN_A_BYTE),
        (BTreeSet::from_iter(&placed).len() < placed.len(), SAME_BYTE),
        (own.is_some_and(|own| last >= Some(own.elements())), OBJECT_LARGER),
    ] {
        if is_so {
            sights.push(String::from(sight));
        }
    }
    for (_, sort) in WITHOUT_A_BYTE.into_iter().filter(|&(of_access, _)| of_access == access) {
        let is_it = |outcome: &Outcome| name(outcome) == sort;
        let has_both = |byte: &[Outcome]| byte.iter().any(has_byte) && byte.iter().any(is_it);
        if outcomes.iter().all(is_it) {
            sights.push(empty(access, sort));
        }
        if outcomes.chunks(BITS_A_BYTE).any(has_both) {
            sights.push(beside(access, sort));
        }
    }
    sights.extend(of_bits(outcomes));
    sights
}

/// Where a mask has its bits.
fn of_bits(outcomes: &[Outcome]) -> Vec<String> {
    let mut sights = Vec::new();
    for (number, byte) in outcomes.chunks(BITS_A_BYTE).enumerate() {
        let bits: Vec<usize> = (0..byte.len()).filter(|&bit| has_byte(&byte[bit])).collect();
        if !bits.is_empty() {
            sights.push(in_byte(number));
        }
        if let [bit] = bits[..] {
            sights.push(alone(bit));
        }
    }
    sights
}

/// What a room for masks is, in bytes, by why the sheet's translation is refused, if it is.
pub fn of_room(sheet: &[u8], refused: Option<Cause>, room: usize) -> Option<String> {
    let is_short = room < MASKS_LENGTH;
    let steps = || read_sheet(sheet).expect("refused for its room").steps.len();
    let sight = match refused {
        None if room == MASKS_LENGTH => ROOM_FITS,
        None => ROOM_TO_SPARE,
        Some(Cause::MaskRoom) if room == 0 => NO_ROOM,
        Some(Cause::MaskRoom) if room == MASKS_LENGTH - 1 => ROOM_SHORT_BY_ONE,
        Some(Cause::MaskRoom) if room >= MASK_LENGTH * steps() => ROOM_FOR_ITS_STEPS,
        Some(Cause::MaskRoom) => return None,
        Some(Cause::TapeRoom) if is_short => BOTH_SHORT,
        Some(Cause::TapeRoom) => TAPE_ALONE_SHORT,
        Some(Cause::TooManyRecords) if is_short => TAPE_TOO_LONG,
        Some(cause) => return is_short.then(|| refused_before(cause.number())),
    };
    Some(String::from(sight))
}

/// What some places are that masks are asked for.
pub fn of_places(masks: &[u8], places: &[Place]) -> BTreeSet<String> {
    let mut sights = BTreeSet::new();
    for &place in places {
        for masks in areas(masks, place) {
            sights.extend(of_place(masks, place));
        }
    }
    sights
}

fn of_place(masks: &[u8], place: Place) -> Vec<String> {
    let [step, element] = place.map(|number| number as usize);
    if step >= STEPS_MAX || element >= ELEMENTS_MAX {
        return of_no_place(masks, place);
    }
    let sights = match masks.len() {
        _ if touched(masks, place[0], place[1]) => of_touched(masks, step, element),
        0 => vec![NO_MASKS],
        length if length == mask_byte(step, element) => vec![JUST_PAST],
        _ => vec![UNTOUCHED],
    };
    sights.into_iter().map(String::from).collect()
}

fn of_touched(masks: &[u8], step: usize, element: usize) -> Vec<&'static str> {
    let is_last = mask_byte(step, element) == masks.len() - 1;
    let count = mask_byte(step, ELEMENTS_MAX);
    let mut sights = vec![TOUCHED];
    for (is_so, sight) in [
        ([step, element] == [STEPS_MAX - 1, ELEMENTS_MAX - 1], TOUCHED_LAST),
        (is_last && masks.len() < MASKS_LENGTH, TOUCHED_AT_THE_END),
        (masks.get(count..count + 2) == Some(&[0, 0]), TOUCHED_UNCOUNTED),
    ] {
        if is_so {
            sights.push(sight);
        }
    }
    sights
}

/// What a place is that no masks have.
fn of_no_place(masks: &[u8], [step, element]: Place) -> Vec<String> {
    let byte = masks.get(mask_byte(step as usize, element as usize));
    let has_bit = byte.is_some_and(|byte| byte >> (element as usize % BITS_A_BYTE) & 1 == 1);
    let is_past_steps = step as usize >= STEPS_MAX;
    let mut sights = Vec::new();
    for (is_so, sight) in [
        (has_bit && is_past_steps, STEP_PAST),
        (has_bit && !is_past_steps, ELEMENT_PAST),
        (step == FAR, FAR_STEP),
        (element == FAR, FAR_ELEMENT),
    ] {
        if is_so {
            sights.push(String::from(sight));
        }
    }
    for past in LOST {
        let is_touched = |step: Option<u32>, element: Option<u32>| {
            step.zip(element).is_some_and(|(step, element)| touched(masks, step, element))
        };
        if is_touched(step.checked_sub(past), Some(element)) {
            sights.push(lost_of_step(past));
        }
        if is_touched(Some(step), element.checked_sub(past)) {
            sights.push(lost_of_element(past));
        }
    }
    sights
}
