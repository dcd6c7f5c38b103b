//! Questions whether a step touched an element, for the masks of a sheet and for any bytes; and
//! what the counts of masks must come to.

use crate::outcomes::{Place, FAR, PAST_A_BYTE, PAST_TWO_BYTES};
use crate::random::Random;
use crate::reference::{
    mask_byte, Checked, ELEMENTS_MAX, MASKS_LENGTH, MASK_BITS, MASK_LENGTH, STEPS_MAX,
};

/// So many places are asked for beside those of the masks themselves.
const PLACES: usize = 12;
/// What a byte, two bytes and a sign lose of a number. The last comes to nothing, too, where a byte
/// of masks is counted by 32 bits, since 34 is even.
pub const LOST: [u32; 3] = [PAST_A_BYTE, PAST_TWO_BYTES, 1 << 31];

/// The room for masks, in bytes.
pub fn mask_room(random: &mut Random) -> usize {
    match random.below(8) {
        0 => 0,
        1 => MASKS_LENGTH - 1,
        2 => random.below(MASKS_LENGTH),
        3 | 4 => MASKS_LENGTH + random.between(1, 2 * MASK_LENGTH),
        _ => MASKS_LENGTH,
    }
}

/// Bytes that come as masks, with any bits or with all; now and then none is counted.
pub fn any_masks(random: &mut Random) -> Vec<u8> {
    let mut masks = vec![u8::MAX; mask_room(random)];
    if random.percent(75) {
        random.fill(&mut masks);
    }
    if random.percent(25) {
        masks.chunks_exact_mut(MASK_LENGTH).for_each(|mask| mask[MASK_BITS..].fill(0));
    }
    masks
}

/// Places that masks have, that they just do not have, or that they have once high bits are lost.
pub fn any_places(random: &mut Random) -> Vec<Place> {
    (0..PLACES).map(|_| any_place(random)).collect()
}

fn any_place(random: &mut Random) -> Place {
    let (steps, elements) = (STEPS_MAX as u32, ELEMENTS_MAX as u32);
    let step = random.below(STEPS_MAX) as u32;
    let element = random.below(ELEMENTS_MAX) as u32;
    let past = random.pick(&LOST);
    match random.below(8) {
        0 => [random.pick(&[steps - 1, steps, steps + 1, FAR]), element],
        1 => [step, random.pick(&[elements - 1, elements, elements + 1, FAR])],
        2 => [steps - 1, elements - 1],
        3 => [step + past, element],
        4 => [step, element + past],
        _ => [step, element],
    }
}

/// The places that masks have, in order.
pub fn places() -> impl Iterator<Item = Place> {
    (0..STEPS_MAX as u32)
        .flat_map(|step| (0..ELEMENTS_MAX as u32).map(move |element| [step, element]))
}

/// Whether an element of an accepted sheet has a byte; no where there is none.
pub fn has_byte(checked: &Checked, [step, element]: Place) -> bool {
    let outcomes = checked.outcomes.get(step as usize);
    let outcome = outcomes.and_then(|outcomes| outcomes.get(element as usize));
    outcome.is_some_and(|outcome| outcome.byte().is_some())
}

/// The bytes that a place is asked of: all of some, and those that end before and behind its own.
pub fn areas(masks: &[u8], [step, element]: Place) -> impl Iterator<Item = &[u8]> {
    let byte = mask_byte(step as usize, element as usize);
    [masks.len(), byte, byte + 1].into_iter().filter_map(|end| masks.get(..end))
}

/// Each mask counts its bits, and all come to the count of the answer, or the difference is told.
pub fn check_counts(masks: &[u8], byte_elements: u32) -> Result<(), String> {
    let mut sum = 0;
    for (step, mask) in masks[..MASKS_LENGTH].chunks_exact(MASK_LENGTH).enumerate() {
        let (bits, count) = mask.split_at(MASK_BITS);
        let ones: u32 = bits.iter().map(|byte| byte.count_ones()).sum();
        let count = u32::from(u16::from_le_bytes([count[0], count[1]]));
        if count != ones {
            return Err(format!("the mask of step {step} has {ones} bits and counts {count}"));
        }
        sum += count;
    }
    if sum != byte_elements {
        return Err(format!("the masks count {sum}, the answer {byte_elements}"));
    }
    Ok(())
}

#[cfg(test)]
mod tests {
    use super::*;

    #[test]
    fn a_place_is_asked_of_bytes_that_end_before_it_and_behind_it() {
        let masks = [0; MASKS_LENGTH];
        let lengths = |place| areas(&masks, place).map(<[u8]>::len).collect::<Vec<_>>();
        assert_eq!(lengths([0, 7]), [1_088, 0, 1]);
        assert_eq!(lengths([2, 9]), [1_088, 69, 70]);
        assert_eq!(lengths([31, 255]), [1_088, 1_085, 1_086]);
        assert_eq!(lengths([32, 0]), [1_088, 1_088]);
        assert_eq!(lengths([FAR, FAR]), [1_088]);
    }

    #[test]
    fn there_are_places_for_256_elements_of_32_steps() {
        assert_eq!(places().count(), 8_192);
        assert_eq!(places().nth(256), Some([1, 0]));
        assert_eq!(places().last(), Some([31, 255]));
    }

    #[test]
    fn wrong_counts_are_told() {
        // Ten elements in step 1, all 256 in step 31, and bytes that are no masks.
        let mut masks = [&[0; MASKS_LENGTH][..], &[0xA5; MASK_LENGTH]].concat();
        masks[34..36].copy_from_slice(&[0xFF, 0x03]);
        masks[34 + 32] = 10;
        masks[34 * 31..34 * 31 + 32].fill(0xFF);
        masks[1_087] = 1;
        assert_eq!(check_counts(&masks, 266), Ok(()));
        let told = |what: &str| Err(String::from(what));
        assert_eq!(check_counts(&masks, 265), told("the masks count 266, the answer 265"));
        masks[1_086..1_088].copy_from_slice(&[1, 0]);
        assert_eq!(
            check_counts(&masks, 266),
            told("the mask of step 31 has 256 bits and counts 1")
        );
        masks[34] = 0xFE;
        assert_eq!(check_counts(&masks, 266), told("the mask of step 1 has 9 bits and counts 10"));
    }
}
