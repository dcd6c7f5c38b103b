//! Which orders of a store's elements are to be seen, which exchanges of neighbouring stores, and
//! which those of a sheet are.

use crate::jobs::Answer;
use crate::orders::{Card, Order};
use crate::reference::{Access, Addressing, Checked, Outcome, Step};
use crate::stores::{is_store, Written};

/// Counted once an exchange: what became of it.
pub const REFUSED: &str = "exchanged, refused before and after";
pub const APART: &str = "exchanged apart";
pub const SHARING: &str = "exchanged sharing a byte";
/// Of those that share one.
pub const OTHER_MEMORY: &str = "exchanged sharing a byte, another memory";

const SAME_MEMORY: &str = "exchanged sharing a byte, the same memory";
const TOUCHING: &str = "exchanged where one ends and the other begins";
const BETWEEN: &str = "exchanged apart, bytes of one between those of the other";
const NOTHING_WRITTEN: &str = "exchanged with a store that writes nothing";
const SAME_BYTES: &str = "exchanged on the same bytes, another memory";
const NO_FIRST: &str = "exchanged sharing no first byte of both, another memory";
const ONE_BYTE: &str = "exchanged sharing one byte alone, another memory";
const THREE: &str = "exchanged beside a third store";
const SAME_REGISTER: &str = "exchanged of one register";
const OTHER_REGISTER: &str = "exchanged of two registers";
const OTHER_LAYOUT: &str = "exchanged through two layouts";
const OTHER_VIEW: &str = "exchanged with another view or none";
const LOADED_APART: &str = "exchanged apart before a load of what was written";
const LOADED_SHARING: &str = "exchanged sharing a byte before a load of what was written";
const SAME_REFUSAL: &str = "exchanged, both refused alike";
const OTHER_REFUSAL: &str = "exchanged, both refused with other numbers";

const PLAIN: [&str; 20] = [
    REFUSED,
    APART,
    SHARING,
    OTHER_MEMORY,
    SAME_MEMORY,
    TOUCHING,
    BETWEEN,
    NOTHING_WRITTEN,
    SAME_BYTES,
    NO_FIRST,
    ONE_BYTE,
    THREE,
    SAME_REGISTER,
    OTHER_REGISTER,
    OTHER_LAYOUT,
    OTHER_VIEW,
    LOADED_APART,
    LOADED_SHARING,
    SAME_REFUSAL,
    OTHER_REFUSAL,
];

const ORDERS: [Order; 2] = [Order::Reversed, Order::Shuffled];
const SIZES: [usize; 3] = [1, 2, 4];
const OF_TWO: [&str; 2] = ["first", "second"];
/// The refusals that a store can get.
const STORE_REFUSALS: [u32; 8] = [7, 9, 10, 11, 12, 13, 14, 15];

/// Every order and every exchange that is to be seen.
pub fn every() -> Vec<String> {
    let mut sights: Vec<String> = PLAIN.map(String::from).to_vec();
    for order in ORDERS {
        sights.push(of_several(order));
        sights.extend(SIZES.map(|size| of_size(order, size)));
        sights.extend([Outcome::Skipped, Outcome::Discarded].map(|other| beside(order, other)));
    }
    for one in SIZES {
        sights.extend(SIZES.map(|other| apart([one, other])));
        sights.extend(SIZES.map(|other| other_memory([one, other])));
    }
    for which in OF_TWO {
        sights.extend(STORE_REFUSALS.map(|number| refused(which, number)));
    }
    sights
}

/// Counted once an order that is not that of rows.
pub fn of_several(order: Order) -> String {
    format!("store of several elements {order:?}")
}

fn of_size(order: Order, size: usize) -> String {
    format!("store of elements of size {size} {order:?}")
}

fn beside(order: Order, other: Outcome) -> String {
    format!("store beside {other:?} elements {order:?}")
}

fn apart([one, other]: [usize; 2]) -> String {
    format!("exchanged apart, elements of sizes {one} and {other}")
}

fn other_memory([one, other]: [usize; 2]) -> String {
    format!("exchanged sharing a byte, elements of sizes {one} and {other}, another memory")
}

fn refused(which: &str, number: u32) -> String {
    format!("exchanged, the {which} refused with {number}")
}

/// The orders in which a card performed the stores of an accepted sheet.
pub fn of_card(checked: &Checked, card: &Card) -> Vec<String> {
    let mut sights = Vec::new();
    for (step, _) in card.performed.iter().filter(|(_, elements)| !elements.is_sorted()) {
        let size = checked.addressing(*step).expect("a store").type_.kind.size();
        sights.extend([of_several(card.order), of_size(card.order, size)]);
        for other in [Outcome::Skipped, Outcome::Discarded] {
            if checked.outcomes[*step].contains(&other) {
                sights.push(beside(card.order, other));
            }
        }
    }
    sights
}

/// An exchange of two neighbouring stores of an accepted sheet.
pub struct Exchange<'a> {
    pub checked: &'a Checked,
    /// The step of the first, before they are exchanged.
    pub first: usize,
    pub written: [Written; 2],
    pub leaves_another_memory: bool,
}

impl Exchange<'_> {
    fn pair(&self) -> &[Step] {
        &self.checked.sheet.steps[self.first..self.first + 2]
    }

    fn sizes(&self) -> [usize; 2] {
        [self.written[0].size, self.written[1].size]
    }

    /// Whether a third store is next to the two.
    fn has_a_third(&self) -> bool {
        let steps = &self.checked.sheet.steps;
        let before = self.first.checked_sub(1).map(|before| &steps[before]);
        before.is_some_and(is_store) || steps.get(self.first + 2).is_some_and(is_store)
    }

    /// Whether a later load reads a byte that one of the two wrote.
    fn is_loaded(&self) -> bool {
        let mut later = self.first + 2..self.checked.sheet.steps.len();
        later.any(|step| {
            let is_load = |a: &Addressing| a.access == Access::Load;
            let Some(load) = self.checked.addressing(step).filter(is_load) else { return false };
            let size = load.type_.kind.size();
            let mut bytes = self.checked.outcomes[step].iter().filter_map(|outcome| outcome.byte());
            bytes.any(|byte| self.writes(byte..byte + size))
        })
    }

    fn writes(&self, bytes: std::ops::Range<usize>) -> bool {
        self.written.iter().any(|written| written.bytes.range(bytes.clone()).next().is_some())
    }
}

/// What an exchange of an accepted sheet is.
pub fn of_exchange(exchange: &Exchange) -> Vec<String> {
    let mut sights = of_steps(exchange.pair());
    let [one, other] = &exchange.written;
    let is_loaded = exchange.is_loaded();
    if exchange.has_a_third() {
        sights.push(THREE);
    }
    if one.bytes.is_disjoint(&other.bytes) {
        sights.push(APART);
        sights.extend(of_apart(one, other));
        sights.extend(is_loaded.then_some(LOADED_APART));
    } else {
        sights.push(SHARING);
        sights.extend(of_sharing(exchange));
        sights.extend(is_loaded.then_some(LOADED_SHARING));
    }
    let mut sights: Vec<String> = sights.into_iter().map(String::from).collect();
    sights.extend(by_sizes(exchange));
    sights
}

/// What two stores, which are not equal, name.
fn of_steps(pair: &[Step]) -> Vec<&'static str> {
    let names = |step: &Step| match *step {
        Step::Store { register, layout, view, .. } => (register, layout, view),
        _ => unreachable!("a store"),
    };
    let (register, layout, view) = names(&pair[0]);
    let (other_register, other_layout, other_view) = names(&pair[1]);
    let mut sights = vec![if register == other_register { SAME_REGISTER } else { OTHER_REGISTER }];
    if layout != other_layout {
        sights.push(OTHER_LAYOUT);
    }
    if view != other_view {
        sights.push(OTHER_VIEW);
    }
    sights
}

/// Two stores that share no byte.
fn of_apart(one: &Written, other: &Written) -> Vec<&'static str> {
    let ends = |written: &Written| Some((*written.bytes.first()?, *written.bytes.last()?));
    let (Some((first, last)), Some((other_first, other_last))) = (ends(one), ends(other)) else {
        return vec![NOTHING_WRITTEN];
    };
    let mut sights = Vec::new();
    if last + 1 == other_first || other_last + 1 == first {
        sights.push(TOUCHING);
    }
    if first < other_last && other_first < last {
        sights.push(BETWEEN);
    }
    sights
}

/// Two stores that share a byte.
fn of_sharing(exchange: &Exchange) -> Vec<&'static str> {
    if !exchange.leaves_another_memory {
        return vec![SAME_MEMORY];
    }
    let [one, other] = &exchange.written;
    let mut sights = vec![OTHER_MEMORY];
    if one.bytes == other.bytes {
        sights.push(SAME_BYTES);
    }
    if one.firsts.is_disjoint(&other.firsts) {
        sights.push(NO_FIRST);
    }
    if one.bytes.intersection(&other.bytes).count() == 1 {
        sights.push(ONE_BYTE);
    }
    sights
}

/// The sizes of elements of two stores that each write some.
fn by_sizes(exchange: &Exchange) -> Option<String> {
    let [one, other] = &exchange.written;
    if exchange.leaves_another_memory {
        return Some(other_memory(exchange.sizes()));
    }
    let both_write = !one.bytes.is_empty() && !other.bytes.is_empty();
    (both_write && one.bytes.is_disjoint(&other.bytes)).then(|| apart(exchange.sizes()))
}

/// What an exchange of two stores from a step on is in a refused sheet, by the answers before and
/// after it.
pub fn of_refused(first: usize, before: &Answer, after: &Answer) -> Vec<String> {
    let which = |answer: &Answer| {
        let step = (answer[1] as usize).checked_sub(first).filter(|&step| step < 2)?;
        STORE_REFUSALS.contains(&answer[0]).then_some(step)
    };
    let mut sights = vec![String::from(REFUSED)];
    match (which(before), which(after)) {
        (Some(0), Some(0)) if before[0] == after[0] => sights.push(String::from(SAME_REFUSAL)),
        (Some(0), Some(0)) => sights.push(String::from(OTHER_REFUSAL)),
        (Some(step), Some(_)) => sights.push(refused(OF_TWO[step], before[0])),
        _ => {}
    }
    sights
}
