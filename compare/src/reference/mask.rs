//! The masks beside the tape: which elements of each step have a byte, and how many.

use super::addressing::Outcome;
use super::carry::Checked;
use super::{ELEMENTS_MAX, STEPS_MAX};

/// The bits of a byte.
pub const BITS_A_BYTE: usize = 8;
/// The bytes of a step's bits, which stand before their number.
pub const MASK_BITS: usize = ELEMENTS_MAX / BITS_A_BYTE;
/// The bytes of a step's mask: its bits, and their number in two.
pub const MASK_LENGTH: usize = MASK_BITS + 2;
/// The bytes of the masks of a sheet, however few steps it has.
pub const MASKS_LENGTH: usize = STEPS_MAX * MASK_LENGTH;

/// The mask of a step.
pub type Mask = [u8; MASK_LENGTH];

impl Checked {
    /// The mask of each step; past the last one they are empty.
    pub fn masks(&self) -> [Mask; STEPS_MAX] {
        let mut masks = [[0; MASK_LENGTH]; STEPS_MAX];
        for (mask, outcomes) in masks.iter_mut().zip(&self.outcomes) {
            *mask = mask_of(outcomes);
        }
        masks
    }
}

/// The mask of a step whose elements have some outcomes, none where it is no load or store.
fn mask_of(outcomes: &[Outcome]) -> Mask {
    let mut mask = [0; MASK_LENGTH];
    let mut count: u16 = 0;
    for (element, outcome) in outcomes.iter().enumerate() {
        if outcome.byte().is_some() {
            mask[element / BITS_A_BYTE] |= 1 << (element % BITS_A_BYTE);
            count += 1;
        }
    }
    mask[MASK_BITS..].copy_from_slice(&count.to_le_bytes());
    mask
}

/// Whether a step touched an element, by the bits of any bytes; no outside them.
pub fn touched(masks: &[u8], step: u32, element: u32) -> bool {
    let (step, element) = (step as usize, element as usize);
    if step >= STEPS_MAX || element >= ELEMENTS_MAX {
        return false;
    }
    let byte = masks.get(mask_byte(step, element));
    byte.is_some_and(|byte| byte >> (element % BITS_A_BYTE) & 1 == 1)
}

/// Where the byte of an element's bit stands in masks.
pub fn mask_byte(step: usize, element: usize) -> usize {
    MASK_LENGTH * step + element / BITS_A_BYTE
}

#[cfg(test)]
mod tests {
    use super::super::carry::check;
    use super::super::sheet::{sheet_bytes, ClampMode, Dimension, Layout, Sheet, Step};
    use super::super::Kind;
    use super::*;

    const PLACED: Outcome = Outcome::Placed(7);

    #[test]
    fn an_element_with_a_byte_has_a_bit_the_lowest_first() {
        let mut outcomes = vec![Outcome::Filled(1); 21];
        for element in [0, 1, 10, 15, 20] {
            outcomes[element] = PLACED;
        }
        outcomes[9] = Outcome::Skipped;
        outcomes[11] = Outcome::Discarded;
        let mask = mask_of(&outcomes);
        assert_eq!(mask[..3], [0b0000_0011, 0b1000_0100, 0b0001_0000]);
        assert_eq!(mask[3..MASK_BITS], [0; 29]);
        assert_eq!(mask[MASK_BITS..], [5, 0]);
    }

    #[test]
    fn the_number_of_bits_takes_two_bytes() {
        let counted = |count| mask_of(&vec![PLACED; count]);
        assert_eq!(counted(255)[31..], [0x7F, 0xFF, 0]);
        assert_eq!(counted(256)[..MASK_BITS], [0xFF; 32]);
        assert_eq!(counted(256)[MASK_BITS..], [0, 1]);
        assert_eq!(counted(0), [0; 34]);
    }

    #[test]
    fn loads_and_stores_alone_have_masks() {
        let dimension = Dimension { block_size: 1, size: 4, stride: 1, offset: -2, span: 6 };
        let layout =
            Layout { clamp_mode: ClampMode::Constant, clamp_value: 0, dimensions: vec![dimension] };
        let sheet = Sheet {
            layouts: vec![layout],
            steps: vec![
                Step::Fill { register: 0, rows: 2, columns: 3, kind: Kind::U8, value: 0 },
                Step::Load { register: 0, object: None, layout: 0, view: None, base: 0 },
                Step::Transpose { result: 0, source: 0 },
                Step::Store { register: 0, layout: 0, view: None, base: 16 },
            ],
            ..Sheet::default()
        };
        let masks = check(&sheet_bytes(&sheet), 20).expect("accepted").masks();
        let (mut expected, access) = ([[0; 34]; 32], 0b0011_1100);
        for step in [1, 3] {
            (expected[step][0], expected[step][32]) = (access, 4);
        }
        assert_eq!(masks, expected);
        assert_eq!(masks.concat().len(), 1_088);
    }

    #[test]
    fn what_was_touched_is_answered_by_the_bits_of_32_steps() {
        let mut masks = vec![0; 1_088 + 34];
        masks[34] = 0b0000_0010;
        masks[34 * 31 + 31] = 0b1000_0000;
        let touched_places = |masks: &[u8]| -> Vec<[u32; 2]> {
            let places = (0..40).flat_map(|step| (0..300).map(move |element| [step, element]));
            places.filter(|&[step, element]| touched(masks, step, element)).collect()
        };
        assert_eq!(touched_places(&masks), [[1, 1], [31, 255]]);
        let full = vec![0xFF; 1_088 + 34];
        assert_eq!(touched_places(&full).len(), 32 * 256);
        for [step, element] in [[32, 0], [31, 256], [u32::MAX, 0], [0, u32::MAX], [1 << 31, 0]] {
            assert!(!touched(&full, step, element));
        }
    }

    #[test]
    fn nothing_is_touched_past_the_bytes() {
        let full = [0xFF; 1_088];
        assert!(touched(&full[..34 * 5 + 3], 5, 23));
        assert!(!touched(&full[..34 * 5 + 3], 5, 24));
        assert!(!touched(&full[..34 * 5 + 2], 5, 23));
        assert!(!touched(&[], 0, 0));
    }
}
