//! What the comparison does with stores on its own: it writes placed elements in a given order,
//! exchanges neighbouring stores, and says whether two share a byte.

use std::collections::BTreeSet;

use crate::reference::{check, Checked, Matrix, Outcome, Refusal, Sheet, Step};

/// The comparison's own part in the orders of stores. The tests put faults into it.
pub trait Stores {
    /// What becomes of a sheet's elements, or its refusal.
    fn check(&self, sheet: &[u8], memory_len: usize) -> Result<Checked, Refusal> {
        check(sheet, memory_len)
    }

    /// Writes placed elements of a matrix to their bytes, in the order in which they are named.
    fn write(&self, order: &[usize], matrix: &Matrix, outcomes: &[Outcome], memory: &mut [u8]) {
        for &element in order {
            let byte = outcomes[element].byte().expect("placed");
            for at in 0..matrix.type_.kind.size() {
                memory[byte + at] = (matrix.elements[element] >> (8 * at)) as u8;
            }
        }
    }

    /// A sheet with a step and the next one exchanged.
    fn exchanged(&self, sheet: &Sheet, first: usize) -> Sheet {
        let mut sheet = sheet.clone();
        sheet.steps.swap(first, first + 1);
        sheet
    }

    /// Whether some byte is written by both of two stores.
    fn share(&self, [one, other]: &[Written; 2]) -> bool {
        !one.bytes.is_disjoint(&other.bytes)
    }
}

/// Stores without a fault.
pub struct Faultless;

impl Stores for Faultless {}

/// Whether a step is a store.
pub fn is_store(step: &Step) -> bool {
    matches!(step, Step::Store { .. })
}

/// The steps that are stores and have another store behind them. Equal ones count for nothing:
/// exchanging them gives the same sheet.
pub fn exchangeable(steps: &[Step]) -> Vec<usize> {
    let is_pair = |pair: &[Step]| pair.iter().all(is_store) && pair[0] != pair[1];
    let pairs = steps.windows(2).enumerate();
    pairs.filter(|(_, pair)| is_pair(pair)).map(|(first, _)| first).collect()
}

/// The bytes that a store writes.
pub struct Written {
    /// The bytes of an element.
    pub size: usize,
    /// The first byte of each element.
    pub firsts: BTreeSet<usize>,
    pub bytes: BTreeSet<usize>,
}

impl Written {
    /// What a store of an accepted sheet writes.
    pub fn by(checked: &Checked, step: usize) -> Written {
        let size = checked.addressing(step).expect("a store").type_.kind.size();
        let firsts: BTreeSet<usize> =
            checked.outcomes[step].iter().filter_map(|outcome| outcome.byte()).collect();
        let bytes = firsts.iter().flat_map(|&first| first..first + size).collect();
        Written { size, firsts, bytes }
    }
}

#[cfg(test)]
mod tests {
    use super::*;
    use crate::reference::{sheet_bytes, ClampMode, Dimension, Kind, Layout};

    fn fill(register: usize, kind: u8) -> Step {
        Step::Fill { register, rows: 1, columns: 2, kind: Kind(kind), value: 0 }
    }

    fn store(register: usize, layout: usize) -> Step {
        Step::Store { register, layout, view: None, base: 16 }
    }

    /// Every second place from one on, two of them.
    fn every_second(offset: i16) -> Layout {
        let dimension =
            |stride, offset, span| Dimension { block_size: 1, size: 2, stride, offset, span };
        let dimensions = vec![dimension(1, offset, 1), dimension(2, 0, 2)];
        Layout { clamp_mode: ClampMode::Undefined, clamp_value: 0, dimensions }
    }

    #[test]
    fn stores_share_bytes_that_are_no_elements_first() {
        let sheet = Sheet {
            layouts: vec![every_second(0), every_second(1)],
            steps: vec![fill(0, 2), fill(1, 0), store(0, 0), store(1, 1), store(1, 0)],
            ..Sheet::default()
        };
        let checked = check(&sheet_bytes(&sheet), 64).expect("accepted");
        let written = |step| Written::by(&checked, step);
        let [wide, odd, even] = [2, 3, 4].map(written);
        assert_eq!((wide.size, odd.size), (2, 1));
        assert_eq!(wide.firsts, [16, 20].into());
        assert_eq!(wide.bytes, [16, 17, 20, 21].into());
        assert_eq!(odd.bytes, [17, 19].into());
        assert_eq!(even.bytes, [16, 18].into());
        assert!(!Faultless.share(&[odd, even]));
        assert!(Faultless.share(&[written(2), written(3)]));
        assert!(Faultless.share(&[written(4), wide]));
    }

    #[test]
    fn neighbouring_stores_that_are_not_equal_are_exchanged() {
        let steps =
            vec![store(0, 0), fill(0, 0), store(1, 0), store(1, 0), store(1, 1), store(0, 1)];
        assert_eq!(exchangeable(&steps), [3, 4]);
        let exchanged = Faultless.exchanged(&Sheet { steps, ..Sheet::default() }, 3);
        assert_eq!(exchanged.steps[2..], [store(1, 0), store(1, 1), store(1, 0), store(0, 1)]);
    }
}
