//! Faults in what a load without an object starts from, carried out and on tape.

use crate::reference::{step_records, Checked, Edition, Outcome, Record, Start, Step, FILL};

/// What is done wrong with such a load, or with one of its own register as object.
#[derive(Clone, Copy, Debug)]
pub enum ObjectFault {
    TakesAnEmptyRegister,
    ZeroesInAnyEdition,
    ZeroesInNoEdition,
    ZeroesACopyOfItself,
    FillsInAnyEdition,
    FillsInNoEdition,
    FillsForACopyOfItself,
    FillsAfterTheRuns,
    FillsWhatRunsHave,
    FillsWhatIsSkipped,
    FillsNothingWhereNoneIsSkipped,
    JoinsWithARunOf0,
}

/// By which job a fault is told.
const CHECKED: &str = "Check: archive and reference differ";
const CARRIED_OUT: &str = "CarryOut: archive and reference differ";
const TRANSLATED: &str = "Translate: archive and reference differ";

const ALL: &[Edition] = &Edition::ALL;
const KEEPING: &[Edition] = &[Edition::One, Edition::Two];
const ZEROING: &[Edition] = &[Edition::Three];

/// Faults, what is told of each, and the editions whose sheets show it.
pub const OBJECT_FAULTS: [(ObjectFault, &str, &[Edition]); 12] = [
    (ObjectFault::TakesAnEmptyRegister, CHECKED, ALL),
    (ObjectFault::ZeroesInAnyEdition, CARRIED_OUT, KEEPING),
    (ObjectFault::ZeroesInNoEdition, CARRIED_OUT, ZEROING),
    (ObjectFault::ZeroesACopyOfItself, CARRIED_OUT, ZEROING),
    (ObjectFault::FillsInAnyEdition, TRANSLATED, KEEPING),
    (ObjectFault::FillsInNoEdition, TRANSLATED, ZEROING),
    (ObjectFault::FillsForACopyOfItself, TRANSLATED, ALL),
    (ObjectFault::FillsAfterTheRuns, TRANSLATED, ZEROING),
    (ObjectFault::FillsWhatRunsHave, TRANSLATED, ZEROING),
    (ObjectFault::FillsWhatIsSkipped, TRANSLATED, ZEROING),
    (ObjectFault::FillsNothingWhereNoneIsSkipped, TRANSLATED, ZEROING),
    (ObjectFault::JoinsWithARunOf0, TRANSLATED, ZEROING),
];

/// A load without an object is taken with any register.
pub fn takes(fault: ObjectFault, step: &Step) -> bool {
    matches!((fault, step), (ObjectFault::TakesAnEmptyRegister, Step::Load { object: None, .. }))
}

/// An accepted sheet as it is carried out with a fault.
pub fn carried_out(fault: ObjectFault, checked: Checked) -> Checked {
    match fault {
        ObjectFault::ZeroesInAnyEdition => in_edition(Edition::Three, checked),
        ObjectFault::ZeroesInNoEdition => in_edition(Edition::Two, checked),
        ObjectFault::ZeroesACopyOfItself => without_own_objects(checked),
        _ => checked,
    }
}

/// The records of an accepted sheet with a fault.
pub fn records(fault: ObjectFault, checked: Checked) -> Vec<Record> {
    let checked = match fault {
        ObjectFault::FillsInAnyEdition => in_edition(Edition::Three, checked),
        ObjectFault::FillsInNoEdition => in_edition(Edition::Two, checked),
        ObjectFault::FillsForACopyOfItself => without_own_objects(checked),
        _ => checked,
    };
    let mut records = Vec::new();
    for step in 0..checked.sheet.steps.len() {
        let mut of_step = Vec::new();
        step_records(&checked, step, &mut of_step);
        if checked.start(step) == Some(Start::Zeros) {
            let (zeros, runs) = of_step.split_first().expect("it has zeros");
            of_step = from_zeros(fault, &checked.outcomes[step], *zeros, runs);
        }
        records.extend(of_step);
    }
    records
}

fn in_edition(edition: Edition, mut checked: Checked) -> Checked {
    checked.sheet.edition = edition;
    checked
}

fn without_own_objects(mut checked: Checked) -> Checked {
    for step in &mut checked.sheet.steps {
        if let Step::Load { register, object, .. } = step {
            *object = object.filter(|object| object != register);
        }
    }
    checked
}

/// The records of a load that starts from zeros with a fault.
fn from_zeros(
    fault: ObjectFault,
    outcomes: &[Outcome],
    zeros: Record,
    runs: &[Record],
) -> Vec<Record> {
    let register = zeros[1];
    let skipped = || (0..).zip(outcomes).filter(|(_, outcome)| **outcome == Outcome::Skipped);
    let fills: Vec<Record> = match fault {
        ObjectFault::FillsAfterTheRuns => return [runs, &[zeros]].concat(),
        ObjectFault::FillsWhatRunsHave => {
            runs.iter().map(|run| [FILL, register, run[2], run[3], 0, 0]).collect()
        }
        ObjectFault::FillsWhatIsSkipped => {
            skipped().map(|(element, _)| [FILL, register, element, 1, 0, 0]).collect()
        }
        ObjectFault::FillsNothingWhereNoneIsSkipped if skipped().next().is_none() => Vec::new(),
        _ => vec![zeros],
    };
    let runs = match (fault, runs) {
        (ObjectFault::JoinsWithARunOf0, [[FILL, _, 0, _, 0, _], rest @ ..]) => rest,
        _ => runs,
    };
    [&fills, runs].concat()
}
