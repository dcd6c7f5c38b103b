//! Faults in what the comparison does with stores on its own. Archive and reference agree, so only
//! orders and exchanges can show them.

use crate::case::{Case, Comparison, FIRST_NEIGHBOURING};
use crate::jobs::Reference;
use crate::order_sights::OTHER_MEMORY;
use crate::reference::{
    check, check_step, read_sheet, Cause, Checked, Edition, Kind, Matrix, Outcome, Refusal, Sheet,
    Types,
};
use crate::stores::{Faultless, Stores, Written};

/// So many cases with neighbouring stores find each fault out.
const CASES: u64 = 200;

/// What is done wrong with stores.
#[derive(Clone, Copy, Debug)]
pub enum StoreFault {
    WritesOneByteOfTwo,
    WritesTheHighestByteFirst,
    WritesAnElementTwice,
    LosesAnElement,
    OrdersElementsAndNotBytes,
    TakesAByteTwice,
    SharesByFirstBytes,
    LosesTheFirstStep,
    RepeatsTheFirstStep,
    ExchangesTheStepAfterNext,
    ExchangesNothing,
}

/// What is told of a fault: by the order of rows, by the archive, by the answers for an exchanged
/// sheet, and by what that leaves.
const ORDER: &str = "leaves another memory";
const CARRIED_OUT: &str = "order differs from carrying out";
const ANSWER: &str = "becomes";
const LEFT: &str = "the two differ in";

/// Faults, and what is told of each. A byte that is taken twice shows in the order only where two
/// elements differ.
pub const STORE_FAULTS: [(StoreFault, &str); 11] = [
    (StoreFault::WritesOneByteOfTwo, ORDER),
    (StoreFault::WritesTheHighestByteFirst, ORDER),
    (StoreFault::WritesAnElementTwice, ORDER),
    (StoreFault::LosesAnElement, ORDER),
    (StoreFault::OrdersElementsAndNotBytes, ORDER),
    (StoreFault::TakesAByteTwice, ORDER),
    (StoreFault::TakesAByteTwice, CARRIED_OUT),
    (StoreFault::SharesByFirstBytes, LEFT),
    (StoreFault::LosesTheFirstStep, ANSWER),
    (StoreFault::RepeatsTheFirstStep, LEFT),
    (StoreFault::ExchangesTheStepAfterNext, LEFT),
];

/// Stores with a fault.
struct Faulty(StoreFault);

impl Stores for Faulty {
    fn check(&self, sheet: &[u8], memory_len: usize) -> Result<Checked, Refusal> {
        match (self.0, check(sheet, memory_len)) {
            (StoreFault::TakesAByteTwice, Err(Refusal { cause: Cause::SharedByte, .. })) => {
                check_without_15(sheet, memory_len)
            }
            (_, checked) => checked,
        }
    }

    fn write(&self, order: &[usize], matrix: &Matrix, outcomes: &[Outcome], memory: &mut [u8]) {
        let mut faulty = matrix.clone();
        let size = matrix.type_.kind.size();
        let mut order = order.to_vec();
        match self.0 {
            StoreFault::WritesOneByteOfTwo if size == 2 => faulty.type_.kind = Kind::U8,
            StoreFault::WritesTheHighestByteFirst => {
                let turned = |bits: &mut u32| *bits = bits.swap_bytes() >> (32 - 8 * size);
                faulty.elements.iter_mut().for_each(turned);
            }
            StoreFault::WritesAnElementTwice if order.len() > 1 => order[1] = order[0],
            StoreFault::LosesAnElement => drop(order.pop()),
            StoreFault::OrdersElementsAndNotBytes => {
                let elements: Vec<u32> = order.iter().map(|&k| matrix.elements[k]).collect();
                order.sort();
                order.iter().zip(elements).for_each(|(&k, bits)| faulty.elements[k] = bits);
            }
            _ => {}
        }
        Faultless.write(&order, &faulty, outcomes, memory);
    }

    fn exchanged(&self, sheet: &Sheet, first: usize) -> Sheet {
        let mut steps = sheet.steps.clone();
        match self.0 {
            StoreFault::LosesTheFirstStep => drop(steps.remove(first)),
            StoreFault::RepeatsTheFirstStep => steps[first + 1] = steps[first].clone(),
            StoreFault::ExchangesTheStepAfterNext if first + 2 < steps.len() => {
                steps.swap(first, first + 2);
            }
            StoreFault::ExchangesNothing => {}
            _ => steps.swap(first, first + 1),
        }
        Sheet { steps, ..sheet.clone() }
    }

    fn share(&self, written: &[Written; 2]) -> bool {
        match self.0 {
            StoreFault::SharesByFirstBytes => !written[0].firsts.is_disjoint(&written[1].firsts),
            _ => Faultless.share(written),
        }
    }
}

/// Checks a readable sheet but for refusal 15.
fn check_without_15(sheet: &[u8], memory_len: usize) -> Result<Checked, Refusal> {
    let sheet = read_sheet(sheet)?;
    let mut checked = Checked { sheet, memory_len, types: Vec::new(), outcomes: Vec::new() };
    let mut now = Types::default();
    for (number, step) in checked.sheet.steps.iter().enumerate() {
        checked.types.push(now);
        let outcomes = match check_step(&checked.sheet, step, &mut now, memory_len) {
            Err((Cause::SharedByte, _)) => {
                let store = checked.addressing(number).expect("a store");
                let located = |element| store.locate(element).expect("refused for 15");
                (0..store.type_.elements()).map(located).collect()
            }
            Err((cause, element)) => return Err(Refusal::at_element(cause, number, element)),
            Ok(outcomes) => outcomes,
        };
        checked.outcomes.push(outcomes);
    }
    Ok(checked)
}

/// An edition's first cases with neighbouring stores.
fn cases(edition: Edition) -> impl Iterator<Item = Case> {
    (0..CASES).map(move |number| Case::of_seed(edition, 1, FIRST_NEIGHBOURING + number))
}

/// Whether a fault is told of in some words.
pub fn is_told(fault: StoreFault, words: &str, edition: Edition) -> bool {
    let (reference, stores) = (Reference::default(), Faulty(fault));
    let comparison = Comparison::new(&reference, &reference, edition);
    let mut comparison = Comparison { stores: &stores, ..comparison };
    cases(edition).any(|case| comparison.compare(&case).is_err_and(|what| what.contains(words)))
}

#[test]
fn an_exchange_of_nothing_agrees_and_is_missed() {
    let is_missed = |stores: &dyn Stores, edition| {
        let reference = Reference::default();
        let comparison = Comparison::new(&reference, &reference, edition);
        let mut comparison = Comparison { stores, ..comparison };
        cases(edition).for_each(|case| comparison.compare(&case).expect("it agrees"));
        comparison.coverage.missing().contains(&String::from(OTHER_MEMORY))
    };
    for edition in Edition::ALL {
        assert!(!is_missed(&Faultless, edition));
        assert!(is_missed(&Faulty(StoreFault::ExchangesNothing), edition));
    }
}
