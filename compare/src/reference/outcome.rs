//! The outcome of one element, with the way in which it was clamped.

use super::addressing::{Outcome, Outside};
use super::carry::Checked;
use super::refusal::{Cause, Refusal};

/// What becomes of an element, and the first dimension in which it is not inside, if any.
#[derive(Clone, Copy, PartialEq, Eq, Debug)]
pub struct Located {
    pub outcome: Outcome,
    pub outside: Option<Outside>,
}

impl Checked {
    /// The outcome of an element of a load or a store, or 5.
    pub fn located(&self, step: u32, element: u32) -> Result<Located, Refusal> {
        self.find(step as usize, element as usize)
            .map_err(|cause| Refusal { cause, place: [step, element] })
    }

    fn find(&self, step: usize, element: usize) -> Result<Located, Cause> {
        if step >= self.sheet.steps.len() {
            return Err(Cause::AskedPastSteps);
        }
        let addressing = self.addressing(step).ok_or(Cause::AskedWholeStep)?;
        let outcome = *self.outcomes[step].get(element).ok_or(Cause::AskedPastMatrix)?;
        Ok(Located { outcome, outside: addressing.outside(element)? })
    }
}

#[cfg(test)]
mod tests {
    use super::super::addressing::Side;
    use super::super::carry::check;
    use super::super::sheet::{sheet_bytes, ClampMode, Clip, Dimension, Layout, Sheet, Step, View};
    use super::super::Kind;
    use super::*;

    const LOAD: u32 = 1;
    const STORE: u32 = 2;

    fn dimension(size: u16, stride: u16, offset: i16, span: u16) -> Dimension {
        Dimension { block_size: 1, size, stride, offset, span }
    }

    /// A sheet that fills a 2 by 4 matrix, loads it through a view without its last column, and
    /// stores its four rows of two. Rows -1 to 2 of 2 and columns 1 and 2 of 2 are meant.
    fn sheet(clamp_mode: ClampMode) -> Vec<u8> {
        let dimensions = vec![dimension(2, 2, -1, 4), dimension(2, 1, 1, 2)];
        let clip = Clip { row_offset: 0, row_span: 2, column_offset: 0, column_span: 3 };
        sheet_bytes(&Sheet {
            layouts: vec![Layout { clamp_mode, clamp_value: 0x107, dimensions }],
            views: vec![View { permutation: vec![0, 1], dimensions: None, clip }],
            steps: vec![
                Step::Fill { register: 0, rows: 2, columns: 4, kind: Kind::U8, value: 0 },
                Step::Load { register: 0, object: None, layout: 0, view: Some(0), base: 0 },
                Step::Store { register: 0, layout: 0, view: None, base: 0 },
            ],
            ..Sheet::default()
        })
    }

    /// What becomes of the elements of a step.
    fn of_step(clamp_mode: ClampMode, step: u32) -> Vec<(Outcome, Option<(usize, Side)>)> {
        let checked = check(&sheet(clamp_mode), 4).expect("accepted");
        let located = |element| checked.located(step, element).expect("there is one");
        let pair = |outside: Outside| (outside.dimension, outside.side);
        (0..8).map(located).map(|l| (l.outcome, l.outside.map(pair))).collect()
    }

    const ABOVE_0: Option<(usize, Side)> = Some((0, Side::Above));
    const BELOW_0: Option<(usize, Side)> = Some((0, Side::Below));
    const ABOVE_1: Option<(usize, Side)> = Some((1, Side::Above));

    #[test]
    fn a_store_names_the_first_dimension_of_the_discarded() {
        use Outcome::{Discarded, Placed};
        let expected = [
            (Discarded, BELOW_0),
            (Discarded, BELOW_0),
            (Placed(1), None),
            (Discarded, ABOVE_1),
            (Placed(3), None),
            (Discarded, ABOVE_1),
            (Discarded, ABOVE_0),
            (Discarded, ABOVE_0),
        ];
        assert_eq!(of_step(ClampMode::Repeat, STORE), expected);
    }

    #[test]
    fn a_load_names_it_for_the_filled_and_the_placed_and_not_for_the_skipped() {
        use Outcome::{Filled, Placed, Skipped};
        let sides = [BELOW_0, BELOW_0, None, None, ABOVE_1, None, ABOVE_1, None];
        let named = |outcomes: [Outcome; 8]| outcomes.into_iter().zip(sides).collect::<Vec<_>>();
        let [p0, p1, p2, p3] = [0, 1, 2, 3].map(Placed);
        let filled = [Filled(7), Filled(7), p1, Skipped, Filled(7), p3, Filled(7), Skipped];
        assert_eq!(of_step(ClampMode::Constant, LOAD), named(filled));
        let at_the_edge = [p1, p1, p1, Skipped, p1, p3, p3, Skipped];
        assert_eq!(of_step(ClampMode::ClampToEdge, LOAD), named(at_the_edge));
        let repeated = [p3, p2, p1, Skipped, p0, p3, p2, Skipped];
        assert_eq!(of_step(ClampMode::Repeat, LOAD), named(repeated));
    }

    #[test]
    fn there_is_no_outcome_of_another_step_or_past_a_matrix() {
        let checked = check(&sheet(ClampMode::Constant), 4).expect("accepted");
        let refused = |step, element| {
            let refusal = checked.located(step, element).expect_err("no such element");
            assert_eq!((refusal.cause.number(), refusal.place), (5, [step, element]));
            refusal.cause
        };
        assert_eq!(refused(0, 0), Cause::AskedWholeStep);
        assert_eq!(refused(3, 0), Cause::AskedPastSteps);
        assert_eq!(refused(u32::MAX, u32::MAX), Cause::AskedPastSteps);
        assert_eq!(refused(LOAD, 8), Cause::AskedPastMatrix);
        assert_eq!(refused(STORE, u32::MAX), Cause::AskedPastMatrix);
    }
}
