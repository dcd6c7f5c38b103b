//! Where the elements of loads and stores are to be seen, inside and outside, and where those of a
//! sheet are.

use std::collections::BTreeSet;

use crate::generate::UNCLIPPED;
use crate::reference::{
    Access, Addressing, Checked, ClampMode, Dimension, Outcome, Outside, Side, View, DIMENSIONS_MAX,
};

const ACCESSES: [Access; 2] = [Access::Load, Access::Store];
const SIDES: [Side; 2] = [Side::Below, Side::Above];
/// The modes that place an element of a load that is outside.
const PLACING: [ClampMode; 3] =
    [ClampMode::ClampToEdge, ClampMode::Repeat, ClampMode::MirrorRepeat];
const LOW_BITS: &str = "filled with the low bits of a wider value";

/// Everywhere that elements are to be seen.
pub fn every() -> Vec<String> {
    let mut sights = vec![String::from(LOW_BITS)];
    for access in ACCESSES {
        sights.extend([inside(access), clipped(access), leading(access)]);
        for side in SIDES {
            sights.extend((0..DIMENSIONS_MAX).map(|dimension| first(access, dimension, side)));
            sights.extend([just(access, side), opposite(access, side)]);
        }
    }
    for side in SIDES {
        sights.extend([filled(side), discarded(side)]);
        sights.extend(PLACING.map(|mode| placed(mode, side)));
    }
    sights
}

fn inside(access: Access) -> String {
    format!("{access:?} inside in every dimension")
}

fn clipped(access: Access) -> String {
    format!("{access:?} of a clipped element that would be outside")
}

fn leading(access: Access) -> String {
    format!("{access:?} below in a leading span of 1")
}

fn first(access: Access, dimension: usize, side: Side) -> String {
    format!("{access:?} outside first in dimension {dimension}, {side:?}")
}

fn just(access: Access, side: Side) -> String {
    format!("{access:?} just {side:?}")
}

fn opposite(access: Access, side: Side) -> String {
    format!("{access:?} {side:?} before a dimension on the other side")
}

fn filled(side: Side) -> String {
    format!("filled {side:?}")
}

fn discarded(side: Side) -> String {
    format!("discarded {side:?}")
}

fn placed(mode: ClampMode, side: Side) -> String {
    format!("placed {side:?} by {mode:?}")
}

/// Where the elements of an accepted sheet are.
pub fn of_accepted(checked: &Checked) -> BTreeSet<String> {
    let mut sights = BTreeSet::new();
    for (addressing, outcomes) in checked.addressings() {
        for (element, &outcome) in outcomes.iter().enumerate() {
            match addressing.index(element).expect("accepted") {
                Some(index) => sights.extend(of_index(&addressing, index, outcome)),
                None => sights.extend(of_skipped(&addressing, element)),
            }
        }
    }
    sights
}

fn of_skipped(addressing: &Addressing, element: usize) -> Option<String> {
    let index = unclipped_index(addressing, element)?;
    addressing.all_outside(index).next().map(|_| clipped(addressing.access))
}

/// Where an element with some index is.
fn of_index(addressing: &Addressing, index: u64, outcome: Outcome) -> Vec<String> {
    let Addressing { access, layout, .. } = *addressing;
    let outside: Vec<Outside> = addressing.all_outside(index).collect();
    let [Outside { dimension, side }, ref later @ ..] = outside[..] else {
        return vec![inside(access)];
    };
    let mut sights = vec![first(access, dimension, side)];
    sights.push(match outcome {
        Outcome::Filled(_) => filled(side),
        Outcome::Discarded => discarded(side),
        Outcome::Placed(_) => placed(layout.clamp_mode, side),
        Outcome::Skipped => unreachable!("a skipped element has no index"),
    });
    if matches!(outcome, Outcome::Filled(bits) if bits != layout.clamp_value) {
        sights.push(String::from(LOW_BITS));
    }
    if is_just_outside(&layout.dimensions[dimension], addressing.coordinates(index)[dimension]) {
        sights.push(just(access, side));
    }
    if later.iter().any(|later| later.side != side) {
        sights.push(opposite(access, side));
    }
    if (dimension, side, layout.dimensions[0].span) == (0, Side::Below, 1) {
        sights.push(leading(access));
    }
    sights
}

/// Whether a coordinate is next to its dimension.
fn is_just_outside(dimension: &Dimension, coordinate: i64) -> bool {
    coordinate == -1 || coordinate == i64::from(dimension.size)
}

/// The index that an element would have if its view clipped nothing, unless it is too large.
pub fn unclipped_index(addressing: &Addressing, element: usize) -> Option<u64> {
    let view = addressing.view.map(|view| View { clip: UNCLIPPED, ..view.clone() });
    Addressing { view: view.as_ref(), ..*addressing }.index(element).ok()?
}
