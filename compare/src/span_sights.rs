//! What rule 3 is to be seen doing with spans of 1, with indices of 0 and beside the other rules,
//! and what it does in a sheet.

use std::collections::BTreeSet;

use crate::reference::{divides, divisions, indices, side, Checked, Dimension, Outcome};

const LEADING_AT_0: &str = "leading span of 1 at an index of 0";
const SECOND_AT_0: &str = "second leading span of 1 at an index of 0";
const LEADING: &str = "leading span of 1 at an index above 0";
const MIDDLE: &str = "span of 1 between longer ones at an index above 0";
const LAST: &str = "last span of 1 at an index above 0";
const ALONE: &str = "no span above 1 at an index above 0";
const INDEX_0: &str = "span above 1 at an index of 0";
const QUOTIENT_0: &str = "span above 1 at an index that has become 0";
const LEFT_OVER: &str = "index left over after the first dimension";
const FILLED: &str = "filled element with divisions";
const DISCARDED: &str = "discarded element with divisions";
const BEFORE_OUTSIDE: &str = "division in a dimension before one that is outside";
const BEHIND_OUTSIDE: &str = "division in a dimension behind one that is outside";
const SKIPPED: &str = "skipped element in a sheet with divisions";
const NO_ACCESS: &str = "divisions of a sheet without loads and stores";

const PLAIN: [&str; 15] = [
    LEADING_AT_0,
    SECOND_AT_0,
    LEADING,
    MIDDLE,
    LAST,
    ALONE,
    INDEX_0,
    QUOTIENT_0,
    LEFT_OVER,
    FILLED,
    DISCARDED,
    BEFORE_OUTSIDE,
    BEHIND_OUTSIDE,
    SKIPPED,
    NO_ACCESS,
];

/// By the number of divisions.
const COUNTS: [&str; 6] = [
    "element with no division",
    "element with 1 division",
    "element with 2 divisions",
    "element with 3 divisions",
    "element with 4 divisions",
    "element with 5 divisions",
];

/// Everything that rule 3 is to be seen doing.
pub fn every() -> Vec<String> {
    PLAIN.iter().chain(&COUNTS).copied().map(String::from).collect()
}

/// What rule 3 does in an accepted sheet.
pub fn of_accepted(checked: &Checked) -> BTreeSet<&'static str> {
    let mut sights = BTreeSet::new();
    for (addressing, outcomes) in checked.addressings() {
        let dimensions = &addressing.layout.dimensions;
        for (element, outcome) in outcomes.iter().enumerate() {
            let Some(index) = addressing.index(element).expect("accepted") else { continue };
            let indices = &indices(dimensions, index)[..dimensions.len()];
            sights.insert(COUNTS[divisions(dimensions, index) as usize]);
            sights.extend((0..indices.len()).filter_map(|i| of_dimension(dimensions, indices, i)));
            sights.extend(of_outside(dimensions, indices, outcome));
            if indices[0] >= u64::from(dimensions[0].span) {
                sights.insert(LEFT_OVER);
            }
        }
    }
    let skipped = checked.outcomes.iter().flatten().any(|outcome| *outcome == Outcome::Skipped);
    if skipped && checked.divisions() > 0 {
        sights.insert(SKIPPED);
    }
    if checked.addressings().next().is_none() {
        sights.insert(NO_ACCESS);
    }
    sights
}

/// What rule 3 does in a dimension without a division; each dimension has an index.
fn of_dimension(dimensions: &[Dimension], indices: &[u64], i: usize) -> Option<&'static str> {
    let longer = |dimensions: &[Dimension]| dimensions.iter().any(|d| d.span > 1);
    let around = (longer(&dimensions[..i]), longer(&dimensions[i + 1..]));
    match (dimensions[i].span, indices[i]) {
        (1, 0) => match (around, i) {
            ((false, true), 0) => Some(LEADING_AT_0),
            ((false, true), 1) => Some(SECOND_AT_0),
            _ => None,
        },
        (1, _) => Some(match around {
            (false, true) => LEADING,
            (true, true) => MIDDLE,
            (true, false) => LAST,
            (false, false) => ALONE,
        }),
        (_, 0) if indices.ends_with(&[0]) => Some(INDEX_0),
        (_, 0) => Some(QUOTIENT_0),
        _ => None,
    }
}

/// What rule 3 does with an element for which rule 4 then finds a dimension outside.
fn of_outside(dimensions: &[Dimension], indices: &[u64], outcome: &Outcome) -> Vec<&'static str> {
    let sight = match outcome {
        Outcome::Filled(_) => FILLED,
        Outcome::Discarded => DISCARDED,
        Outcome::Placed(_) | Outcome::Skipped => return Vec::new(),
    };
    let places = |is_it: fn(&Dimension, u64) -> bool| -> Vec<usize> {
        (0..indices.len()).filter(|&i| is_it(&dimensions[i], indices[i])).collect()
    };
    let (divided, outside) = (places(divides), places(is_outside));
    if divided.is_empty() {
        return Vec::new();
    }
    let mut sights = vec![sight];
    if divided.first() < outside.last() {
        sights.push(BEFORE_OUTSIDE);
    }
    if outside.first() < divided.last() {
        sights.push(BEHIND_OUTSIDE);
    }
    sights
}

/// Whether the coordinate of an index in a dimension is outside.
pub fn is_outside(dimension: &Dimension, index: u64) -> bool {
    let coordinate = (index % u64::from(dimension.span)) as i64 + i64::from(dimension.offset);
    side(coordinate, dimension).is_some()
}
