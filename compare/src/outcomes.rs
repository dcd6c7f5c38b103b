//! Questions for the outcome of an element, beside those for each element that there is, and what
//! a call leaves.

use crate::case::GARBAGE_WORD;
use crate::jobs::{Answer, Jobs, OutcomeRow};
use crate::random::Random;
use crate::reference::{Checked, Entry, Step, PLACED};

/// What a byte, and what two bytes, would lose of a number.
pub const PAST_A_BYTE: u32 = 1 << 8;
pub const PAST_TWO_BYTES: u32 = 1 << 16;
pub const FAR: u32 = u32::MAX;

/// A step and an element of it.
pub type Place = [u32; 2];

/// What a call returns, and the lent arrays at its exit.
#[derive(PartialEq, Eq, Debug)]
pub struct Told {
    pub returned: u32,
    pub outcome: OutcomeRow,
    pub answer: Answer,
}

impl Told {
    /// What a call leaves of garbage that it is lent.
    pub fn by(jobs: &dyn Jobs, sheet: &[u8], memory_len: usize, place: Place) -> Told {
        let (mut outcome, mut answer) = ([GARBAGE_WORD; 4], [GARBAGE_WORD; 4]);
        let [step, element] = place;
        let returned = jobs.outcome(sheet, memory_len, step, element, &mut outcome, &mut answer);
        Told { returned, outcome, answer }
    }

    /// Whether the outcome has the sort and the byte that the trace has.
    pub fn agrees(&self, access: &Entry) -> bool {
        let [sort, value, ..] = self.outcome;
        sort == u32::from(access.sort) && (access.sort != PLACED || value == access.byte)
    }
}

/// Places at which an accepted sheet has no element of a load or a store: past each matrix, in each
/// other step, and past the steps.
pub fn no_elements(checked: &Checked) -> Vec<Place> {
    let steps = checked.outcomes.len() as u32;
    let mut places = vec![[steps, 0], [FAR, 0]];
    for step in 0..steps {
        if let Some(addressing) = checked.addressing(step as usize) {
            let past = addressing.type_.elements() as u32;
            places.extend([past, PAST_TWO_BYTES, FAR].map(|element| [step, element]));
        } else {
            places.push([step, 0]);
        }
    }
    let [access, element] = first_access(&checked.sheet.steps);
    places.extend([PAST_A_BYTE, PAST_TWO_BYTES].map(|past| [past + access, element]));
    places
}

/// The first place of some steps that may have an outcome, or the first of all.
pub fn first_access(steps: &[Step]) -> Place {
    let is_access = |step: &Step| matches!(step, Step::Load { .. } | Step::Store { .. });
    [steps.iter().position(is_access).unwrap_or(0) as u32, 0]
}

/// Any place, most often one that a sheet might have.
pub fn random_place(random: &mut Random) -> Place {
    if random.percent(30) {
        return [random.bits() as u32, random.bits() as u32];
    }
    [random.below(12) as u32, random.below(40) as u32]
}
