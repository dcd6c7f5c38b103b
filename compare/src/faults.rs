//! Tests of the comparison itself: an implementation with one fault must be found out.

use std::ops::Range;

use crate::case::{Case, Comparison, FIRST_CLIPPED};
use crate::coverage::{Coverage, EDITION_AT};
use crate::jobs::{
    outcome_row, put_records, verdict_row, Answer, Jobs, OutcomeRow, Reference, State, VerdictRow,
    AGREES,
};
use crate::mask_faults::{touched_with, translate_with, Lent, MaskFault, MASK_FAULTS};
use crate::object_faults::{self, ObjectFault, OBJECT_FAULTS};
use crate::reference::{
    check, divides, entries, indices, read_sheet, read_trace, trace_bytes, verdict, Addressing,
    Cause, Checked, Dimension, Edition, Entry, Interpretation, Kind, Located, Matrix, MemoryLayout,
    Outcome, Outside, Registers, Side, Step, VectorStep, ACCESS_LENGTH, BIAS_SIZE, PLACED,
    RECORD_NUMBERS,
};
use crate::side_sights::unclipped_index;
use crate::span_sights::is_outside;
use crate::store_faults::{is_told, STORE_FAULTS};
use crate::traces::{mended, BYTE, SORT};

/// So many cases find each fault out.
const CASES: u64 = 400;
/// Fewer find out a fault in what loads start from: they load through clipped views.
const CLIPPED: Range<u64> = FIRST_CLIPPED..FIRST_CLIPPED + 100;

/// What an implementation does wrong.
#[derive(Clone, Copy, Debug)]
enum Fault {
    Nothing,
    ChangesMemoryOfRefused,
    KeepsRegistersOfRefused,
    KeepsCountsOfRefused,
    WritesPastTheTape,
    WritesPastTheSheet,
    MiscountsByteElements,
    ReturnsAnotherNumber,
    RunsNothing,
    TakesVectorsInEdition1,
    NumbersTheBiasFrom0,
    ReadsColumnsAsRows,
    SaturatesToUnsigned,
    UnpacksTheHighestFirst,
    AddsTheNextBias,
    SaturatesSums,
    CountsAccessesFrom1,
    AgreesWithAnExtraAccess,
    AgreesWithMissingAccesses,
    TakesAByteOfAnySort,
    TakesAnElementTwice,
    OverlooksBytes,
    RefusesABytePastMemory,
    EndsAtTheFirstDifference,
    JudgesOrderBeforeNumbers,
    JudgesTheTraceFirst,
    LoadsByTheRegistersSize,
    CountsByteElements,
    KeepsTheVerdictOfRefused,
    WritesPastTheTrace,
    WritesWhatFits,
    CountsSpansOf1,
    CountsIndicesOf0,
    OverlooksQuotientsOf0,
    CountsSkippedElements,
    OverlooksElementsOutside,
    EndsAtADimensionOutside,
    CountsByTheElementsNumber,
    CountsByTheRegistersSize,
    KeepsTheDivisionsOfRefused,
    NamesTheLastDimension,
    CountsDimensionsFrom1,
    TellsAboveNextBelow,
    TellsBelowAtTheSize,
    TellsTheSideAfterRepeating,
    NamesNoneOfDiscarded,
    NamesNoneOfPlaced,
    NamesOneOfSkipped,
    FillsWithTheWholeValue,
    LosesHighBitsOfAPlace,
    GivesOutcomesByTheRegistersSize,
    CountsTheOutcome,
    KeepsTheOutcomeOfRefused,
    TakesEdition4,
    Object(ObjectFault),
    Mask(MaskFault),
}

const FAULTS: [Fault; 8] = [
    Fault::ChangesMemoryOfRefused,
    Fault::KeepsRegistersOfRefused,
    Fault::KeepsCountsOfRefused,
    Fault::WritesPastTheTape,
    Fault::WritesPastTheSheet,
    Fault::MiscountsByteElements,
    Fault::ReturnsAnotherNumber,
    Fault::RunsNothing,
];

/// Faults that take vector steps to show.
const VECTOR_FAULTS: [Fault; 7] = [
    Fault::TakesVectorsInEdition1,
    Fault::NumbersTheBiasFrom0,
    Fault::ReadsColumnsAsRows,
    Fault::SaturatesToUnsigned,
    Fault::UnpacksTheHighestFirst,
    Fault::AddsTheNextBias,
    Fault::SaturatesSums,
];

/// Faults that take traces to show.
const TRACE_FAULTS: [Fault; 15] = [
    Fault::CountsAccessesFrom1,
    Fault::AgreesWithAnExtraAccess,
    Fault::AgreesWithMissingAccesses,
    Fault::TakesAByteOfAnySort,
    Fault::TakesAnElementTwice,
    Fault::OverlooksBytes,
    Fault::RefusesABytePastMemory,
    Fault::EndsAtTheFirstDifference,
    Fault::JudgesOrderBeforeNumbers,
    Fault::JudgesTheTraceFirst,
    Fault::LoadsByTheRegistersSize,
    Fault::CountsByteElements,
    Fault::KeepsTheVerdictOfRefused,
    Fault::WritesPastTheTrace,
    Fault::WritesWhatFits,
];

/// Faults that take divisions to show.
const DIVISION_FAULTS: [Fault; 9] = [
    Fault::CountsSpansOf1,
    Fault::CountsIndicesOf0,
    Fault::OverlooksQuotientsOf0,
    Fault::CountsSkippedElements,
    Fault::OverlooksElementsOutside,
    Fault::EndsAtADimensionOutside,
    Fault::CountsByTheElementsNumber,
    Fault::CountsByTheRegistersSize,
    Fault::KeepsTheDivisionsOfRefused,
];

/// Faults that take outcomes to show.
const OUTCOME_FAULTS: [Fault; 13] = [
    Fault::NamesTheLastDimension,
    Fault::CountsDimensionsFrom1,
    Fault::TellsAboveNextBelow,
    Fault::TellsBelowAtTheSize,
    Fault::TellsTheSideAfterRepeating,
    Fault::NamesNoneOfDiscarded,
    Fault::NamesNoneOfPlaced,
    Fault::NamesOneOfSkipped,
    Fault::FillsWithTheWholeValue,
    Fault::LosesHighBitsOfAPlace,
    Fault::GivesOutcomesByTheRegistersSize,
    Fault::CountsTheOutcome,
    Fault::KeepsTheOutcomeOfRefused,
];

/// The reference with a fault.
struct Faulty {
    reference: Reference,
    fault: Fault,
}

impl Jobs for Faulty {
    fn read(&self, sheet: &[u8], counts: &mut [u32; 3], answer: &mut Answer) -> u32 {
        let sheet = &match self.fault {
            Fault::TakesVectorsInEdition1 => taken_for(sheet, 1, 2),
            Fault::TakesEdition4 => taken_for(sheet, 4, 3),
            _ => sheet.to_vec(),
        };
        let number = self.reference.read(sheet, counts, answer);
        if matches!(self.fault, Fault::KeepsCountsOfRefused) && number != 0 {
            counts[0] = 1;
        }
        number
    }

    fn rewrite(&self, sheet: &[u8], out: &mut [u8], answer: &mut Answer) -> u32 {
        let number = self.reference.rewrite(sheet, out, answer);
        if let (Fault::WritesPastTheSheet, Some(byte)) = (self.fault, out.last_mut()) {
            if answer[3] as usize != sheet.len() {
                *byte = 0;
            }
        }
        number
    }

    fn check(&self, sheet: &[u8], memory_len: usize, answer: &mut Answer) -> u32 {
        let number = self.reference.check(sheet, memory_len, answer);
        match self.fault {
            Fault::ReturnsAnotherNumber => return number + 1,
            Fault::NumbersTheBiasFrom0 if self.reference.cause() == Some(Cause::BiasPastMemory) => {
                answer[2] -= matrix_elements(sheet, answer[1] as usize);
            }
            Fault::Object(fault) if self.reference.cause() == Some(Cause::EmptyRegister) => {
                let steps = read_sheet(sheet).expect("read before").steps;
                if object_faults::takes(fault, &steps[answer[1] as usize]) {
                    *answer = [0; 4];
                }
            }
            _ => {}
        }
        answer[0]
    }

    fn carry_out(
        &self,
        sheet: &[u8],
        memory: &mut [u8],
        state: &mut State,
        answer: &mut Answer,
    ) -> u32 {
        let before = memory.to_vec();
        let number = self.reference.carry_out(sheet, memory, state, answer);
        if number == 0 {
            memory.copy_from_slice(&before);
            *state = State::of(&carry_out_with(self.fault, sheet, memory));
        }
        match self.fault {
            Fault::ChangesMemoryOfRefused if number != 0 && !memory.is_empty() => memory[0] ^= 1,
            Fault::KeepsRegistersOfRefused if number > 6 => state.types[1] = 1,
            Fault::MiscountsByteElements if answer[3] > 0 => answer[3] -= 1,
            _ => {}
        }
        number
    }

    fn translate(
        &self,
        sheet: &[u8],
        memory_len: usize,
        tape: &mut [i32],
        masks: &mut [u8],
        records: &mut [u32; 1],
        answer: &mut Answer,
    ) -> u32 {
        if let Fault::Mask(fault) = self.fault {
            let lent = Lent { tape, masks, records, answer };
            translate_with(fault, &self.reference, sheet, memory_len, lent);
            return answer[0];
        }
        let number = self.reference.translate(sheet, memory_len, tape, masks, records, answer);
        if let (Fault::WritesPastTheTape, Some(last)) = (self.fault, tape.last_mut()) {
            *last = 0;
        }
        if let (Fault::Object(fault), 0) = (self.fault, number) {
            let checked = check(sheet, memory_len).expect("accepted");
            let faulty = object_faults::records(fault, checked);
            if faulty.len() <= tape.len() / RECORD_NUMBERS {
                *records = put_records(&faulty, tape);
            }
        }
        number
    }

    fn run(
        &self,
        sheet: &[u8],
        tape: &[i32],
        records: usize,
        memory: &mut [u8],
        state: &mut State,
        answer: &mut Answer,
    ) -> u32 {
        // Carrying out the sheet is not running the tape.
        if matches!(self.fault, Fault::RunsNothing) {
            return self.reference.carry_out(sheet, memory, state, answer);
        }
        self.reference.run(sheet, tape, records, memory, state, answer)
    }

    fn trace(&self, sheet: &[u8], memory_len: usize, out: &mut [u8], answer: &mut Answer) -> u32 {
        let number = self.reference.trace(sheet, memory_len, out, answer);
        match self.fault {
            Fault::WritesPastTheTrace if number == 0 => out[answer[3] as usize..].fill(0),
            Fault::WritesWhatFits if number == 19 => {
                let checked = check(sheet, memory_len).expect("refused for its room");
                let bytes = trace_bytes(&entries(&checked));
                out.copy_from_slice(&bytes[..out.len()]);
            }
            _ => {}
        }
        number
    }

    fn replay(
        &self,
        sheet: &[u8],
        memory_len: usize,
        trace: &[u8],
        verdict: &mut VerdictRow,
        answer: &mut Answer,
    ) -> u32 {
        let trace = &trace_with(self.fault, trace);
        let number = self.reference.replay(sheet, memory_len, trace, verdict, answer);
        match (self.fault, check(sheet, memory_len)) {
            (_, Ok(checked)) => self.replay_checked(&checked, memory_len, trace, verdict, answer),
            (Fault::JudgesTheTraceFirst, Err(_)) => {
                if let Err(refusal) = read_trace(trace) {
                    *answer = [refusal.cause.number(), refusal.place[0], 0, 0];
                }
            }
            _ => {}
        }
        if matches!(self.fault, Fault::KeepsTheVerdictOfRefused) && number != 0 {
            *verdict = AGREES;
        }
        answer[0]
    }

    fn divisions(&self, sheet: &[u8], memory_len: usize, answer: &mut Answer) -> u32 {
        let number = self.reference.divisions(sheet, memory_len, answer);
        match (self.fault, check(sheet, memory_len)) {
            (Fault::CountsByTheRegistersSize, Ok(checked)) => {
                answer[3] = divisions_with(self.fault, &by_the_registers_size(&checked));
            }
            (_, Ok(checked)) => answer[3] = divisions_with(self.fault, &checked),
            (Fault::KeepsTheDivisionsOfRefused, Err(_)) if number > 6 => answer[3] = 1,
            _ => {}
        }
        number
    }

    fn outcome(
        &self,
        sheet: &[u8],
        memory_len: usize,
        step: u32,
        element: u32,
        outcome: &mut OutcomeRow,
        answer: &mut Answer,
    ) -> u32 {
        let [step, element] = match self.fault {
            Fault::LosesHighBitsOfAPlace => [step, element].map(|number| number & 0xFFFF),
            _ => [step, element],
        };
        self.reference.outcome(sheet, memory_len, step, element, outcome, answer);
        if answer[0] != 0 {
            outcome[0] = u32::from(matches!(self.fault, Fault::KeepsTheOutcomeOfRefused));
            return answer[0];
        }
        let checked = self.reference.checked(sheet, memory_len);
        let checked = checked.as_ref().expect("accepted");
        *outcome = outcome_with(self.fault, checked, step as usize, element as usize);
        match self.fault {
            Fault::CountsTheOutcome => answer[3] = 1,
            Fault::GivesOutcomesByTheRegistersSize
                if by_the_registers_size(checked).located(step, element).is_err() =>
            {
                (*outcome, *answer) = ([0; 4], [5, step, element, 0]);
            }
            _ => {}
        }
        answer[0]
    }

    fn touched(&self, masks: &[u8], step: u32, element: u32) -> u32 {
        match self.fault {
            Fault::Mask(fault) => touched_with(fault, masks, step, element),
            _ => self.reference.touched(masks, step, element),
        }
    }
}

impl Faulty {
    /// Puts the fault into the replay of an accepted sheet.
    fn replay_checked(
        &self,
        checked: &Checked,
        memory_len: usize,
        trace: &[u8],
        row: &mut VerdictRow,
        answer: &mut Answer,
    ) {
        let own = entries(checked);
        let Ok(traced) = read_trace(trace) else {
            return self.replay_refused(&own, trace, row, answer);
        };
        match self.fault {
            Fault::CountsAccessesFrom1 if *row != AGREES => row[1] += 1,
            Fault::AgreesWithAnExtraAccess if traced.starts_with(&own) => *row = AGREES,
            Fault::AgreesWithMissingAccesses if own.starts_with(&traced) => *row = AGREES,
            Fault::OverlooksBytes => {
                *row = verdict_row(verdict(&without_bytes(&own), &without_bytes(&traced)));
            }
            Fault::RefusesABytePastMemory => {
                let past = |entry: &Entry| entry.byte as usize >= memory_len.max(1);
                if let Some(index) = traced.iter().position(past) {
                    *row = [0, 0];
                    *answer = [5, (ACCESS_LENGTH * index) as u32, 0, 0];
                }
            }
            Fault::LoadsByTheRegistersSize => {
                *row = verdict_row(verdict(&entries(&by_the_registers_size(checked)), &traced));
            }
            Fault::CountsByteElements => answer[3] = checked.byte_elements(),
            _ => {}
        }
    }

    /// Puts the fault into the replay of a trace that is refused at a field.
    fn replay_refused(
        &self,
        own: &[Entry],
        trace: &[u8],
        row: &mut VerdictRow,
        answer: &mut Answer,
    ) {
        let before = read_trace(&trace[..answer[1] as usize]).expect("refused later");
        match self.fault {
            Fault::EndsAtTheFirstDifference if !own.starts_with(&before) => {
                *row = verdict_row(verdict(own, &before));
                *answer = [0, 0, 0, own.len() as u32];
            }
            Fault::JudgesOrderBeforeNumbers if answer[0] == 5 => {
                let (before, rest) = trace.split_at(answer[1] as usize);
                let field = mended(answer[0], rest).expect("a whole field");
                if let Err(refusal) = read_trace(&[before, &field].concat()) {
                    answer[0] = refusal.cause.number();
                }
            }
            _ => {}
        }
    }
}

/// What an implementation makes of a trace that overlooks some of its refusals.
fn trace_with(fault: Fault, trace: &[u8]) -> Vec<u8> {
    let mut fields: Vec<Vec<u8>> = trace.chunks(ACCESS_LENGTH).map(<[u8]>::to_vec).collect();
    match fault {
        Fault::TakesAByteOfAnySort => {
            for field in fields.iter_mut().filter(|field| field.len() == ACCESS_LENGTH) {
                if field[SORT] < PLACED {
                    field[BYTE..].fill(0);
                }
            }
        }
        Fault::TakesAnElementTwice => {
            fields.dedup_by_key(|field| field.get(..SORT).map(<[u8]>::to_vec));
        }
        _ => {}
    }
    fields.concat()
}

fn without_bytes(entries: &[Entry]) -> Vec<Entry> {
    entries.iter().map(|&entry| Entry { byte: 0, ..entry }).collect()
}

/// The outcomes, but those of a load as many as its own register had elements at most.
pub fn by_the_registers_size(checked: &Checked) -> Checked {
    let mut checked = checked.clone();
    let steps = checked.sheet.steps.iter().zip(&checked.types);
    for ((step, types), outcomes) in steps.zip(&mut checked.outcomes) {
        if let (Step::Load { .. }, Some(type_)) = (step, types[step.register()]) {
            outcomes.truncate(type_.elements());
        }
    }
    checked
}

/// Counts the divisions of an accepted sheet with a fault.
fn divisions_with(fault: Fault, checked: &Checked) -> u32 {
    let mut divisions = 0;
    for (addressing, outcomes) in checked.addressings() {
        for (element, &outcome) in outcomes.iter().enumerate() {
            if let Some(index) = index_with(fault, &addressing, element, outcome) {
                divisions += count_with(fault, &addressing.layout.dimensions, index, outcome);
            }
        }
    }
    divisions
}

/// The index by which an element is counted, none if it is not, with a fault.
fn index_with(
    fault: Fault,
    addressing: &Addressing,
    element: usize,
    outcome: Outcome,
) -> Option<u64> {
    match (fault, outcome) {
        (Fault::CountsSkippedElements, Outcome::Skipped) => unclipped_index(addressing, element),
        (_, Outcome::Skipped) => None,
        (Fault::OverlooksElementsOutside, Outcome::Filled(_) | Outcome::Discarded) => None,
        (Fault::CountsByTheElementsNumber, _) => Some(element as u64),
        _ => addressing.index(element).expect("accepted"),
    }
}

/// Counts the divisions of an index with a fault.
fn count_with(fault: Fault, dimensions: &[Dimension], index: u64, outcome: Outcome) -> u32 {
    let met: Vec<(&Dimension, u64)> = dimensions.iter().zip(indices(dimensions, index)).collect();
    let first = match (fault, outcome) {
        (Fault::EndsAtADimensionOutside, Outcome::Filled(_) | Outcome::Discarded) => {
            met.iter().rposition(|&(dimension, index)| is_outside(dimension, index))
        }
        _ => None,
    };
    let divides = |&&(dimension, index): &&(&Dimension, u64)| divides_with(fault, dimension, index);
    met[first.unwrap_or(0)..].iter().filter(divides).count() as u32
}

/// Whether a dimension at an index counts, with a fault.
fn divides_with(fault: Fault, dimension: &Dimension, index: u64) -> bool {
    match fault {
        Fault::CountsSpansOf1 => index != 0,
        Fault::CountsIndicesOf0 => dimension.span > 1,
        Fault::OverlooksQuotientsOf0 => {
            divides(dimension, index) && index >= u64::from(dimension.span)
        }
        _ => divides(dimension, index),
    }
}

/// The outcome of an element with a fault.
fn outcome_with(fault: Fault, checked: &Checked, step: usize, element: usize) -> OutcomeRow {
    let addressing = checked.addressing(step).expect("a load or a store");
    let outcome = match (fault, checked.outcomes[step][element]) {
        (Fault::FillsWithTheWholeValue, Outcome::Filled(_)) => {
            Outcome::Filled(addressing.layout.clamp_value)
        }
        (_, outcome) => outcome,
    };
    let outside = outside_with(fault, &addressing, element, outcome);
    outcome_row(Located { outcome, outside })
}

/// The dimension and the side that an element has with a fault.
fn outside_with(
    fault: Fault,
    addressing: &Addressing,
    element: usize,
    outcome: Outcome,
) -> Option<Outside> {
    let index = match (fault, outcome) {
        (Fault::NamesNoneOfDiscarded, Outcome::Discarded) => return None,
        (Fault::NamesNoneOfPlaced, Outcome::Placed(_)) => return None,
        (Fault::NamesOneOfSkipped, Outcome::Skipped) => unclipped_index(addressing, element)?,
        _ => addressing.index(element).expect("accepted")?,
    };
    let mut all = addressing.all_outside(index);
    let Outside { dimension, side } = match fault {
        Fault::NamesTheLastDimension => all.last()?,
        _ => all.next()?,
    };
    let coordinate = addressing.coordinates(index)[dimension];
    let side = side_with(fault, coordinate, addressing.layout.dimensions[dimension].size, side);
    match fault {
        Fault::CountsDimensionsFrom1 => Some(Outside { dimension: dimension + 1, side }),
        _ => Some(Outside { dimension, side }),
    }
}

/// The side on which a coordinate is with a fault.
fn side_with(fault: Fault, coordinate: i64, size: u16, side: Side) -> Side {
    let size = i64::from(size);
    match fault {
        Fault::TellsAboveNextBelow if coordinate == -1 => Side::Above,
        Fault::TellsBelowAtTheSize if coordinate == size => Side::Below,
        Fault::TellsTheSideAfterRepeating if coordinate.rem_euclid(size) < size / 2 => Side::Below,
        Fault::TellsTheSideAfterRepeating => Side::Above,
        _ => side,
    }
}

/// A sheet of one edition taken for a sheet of another; any other sheet as it is.
fn taken_for(sheet: &[u8], edition: u8, other: u8) -> Vec<u8> {
    let mut sheet = sheet.to_vec();
    if sheet.starts_with(&[1, 1, 0, edition]) {
        sheet[EDITION_AT] = other;
    }
    sheet
}

/// The number of matrix elements of a sheet's vector step.
fn matrix_elements(sheet: &[u8], step: usize) -> u32 {
    match &read_sheet(sheet).expect("read before").steps[step] {
        Step::Vector(vector) => vector.matrix_elements() as u32,
        other => unreachable!("{other:?} has no bias"),
    }
}

/// Carries out an accepted sheet, its vector steps or what its loads start from with a fault.
fn carry_out_with(fault: Fault, sheet: &[u8], memory: &mut [u8]) -> Registers {
    let mut checked = check(sheet, memory.len()).expect("accepted");
    if let Fault::Object(fault) = fault {
        checked = object_faults::carried_out(fault, checked);
    }
    let mut registers = Registers::default();
    for (number, step) in checked.sheet.steps.iter().enumerate() {
        if let Step::Vector(vector) = step {
            let input = registers[vector.input].as_ref().expect("accepted");
            registers[vector.result] = Some(perform_with(fault, vector, input, memory));
        } else {
            checked.do_step(number, &mut registers, memory);
        }
    }
    registers
}

/// Performs a vector step with a fault, wherever that does not lead out of memory.
fn perform_with(fault: Fault, vector: &VectorStep, input: &Matrix, memory: &[u8]) -> Matrix {
    let mut faulty = *vector;
    let mut input = input.clone();
    match (fault, vector.interpretation) {
        (Fault::ReadsColumnsAsRows, _) => faulty.layout = MemoryLayout::RowMajor,
        (Fault::AddsTheNextBias, _) => {
            faulty.bias = vector.bias.map(|offset| offset + BIAS_SIZE as u32)
        }
        (Fault::SaturatesToUnsigned, Interpretation::Plain(kind)) if kind.is_signed() => {
            faulty.interpretation = Interpretation::Plain(Kind(kind.0 - 1));
        }
        (Fault::UnpacksTheHighestFirst, Interpretation::Packed(_)) => {
            input.elements.iter_mut().for_each(|word| *word = word.swap_bytes());
        }
        (Fault::SaturatesSums, _) => return perform_saturating(vector, &input, memory),
        _ => {}
    }
    match faulty.check(Some(input.type_), memory.len()) {
        Ok(_) => faulty.perform(&input, memory),
        Err(_) => vector.perform(&input, memory),
    }
}

fn perform_saturating(vector: &VectorStep, input: &Matrix, memory: &[u8]) -> Matrix {
    let components: Vec<i64> = (0..vector.k).map(|i| vector.component(input, i)).collect();
    let (least, greatest) = vector.kind.range();
    let saturated = |row| {
        let sum = vector.sum(row, &components, memory);
        sum.clamp(i128::from(least), i128::from(greatest)) as u32
    };
    let elements = (0..vector.m).map(saturated).collect();
    Matrix { elements, ..vector.perform(input, memory) }
}

/// Whether some of an edition's first cases tell an implementation from the reference.
fn found_out(jobs: &dyn Jobs, edition: Edition) -> bool {
    said(jobs, edition, 0..CASES).next().is_some()
}

/// What is said of an implementation by each of an edition's cases that tells it from the reference.
fn said(jobs: &dyn Jobs, edition: Edition, cases: Range<u64>) -> impl Iterator<Item = String> + '_ {
    cases.filter_map(move |number| {
        let reference = Reference::default();
        let mut comparison = Comparison::new(jobs, &reference, edition);
        comparison.compare(&Case::of_seed(edition, 1, number)).err()
    })
}

#[test]
fn each_fault_is_found_out() {
    let faulty = |fault| Faulty { reference: Reference::default(), fault };
    for fault in FAULTS {
        assert!(found_out(&faulty(fault), Edition::One), "{fault:?}");
    }
    for fault in VECTOR_FAULTS {
        for edition in Edition::ALL.into_iter().filter(|edition| edition.has_vectors()) {
            assert!(found_out(&faulty(fault), edition), "{fault:?}");
        }
    }
    assert!(found_out(&faulty(Fault::TakesEdition4), Edition::Three));
    for fault in [&TRACE_FAULTS[..], &DIVISION_FAULTS, &OUTCOME_FAULTS].concat() {
        for edition in Edition::ALL {
            assert!(found_out(&faulty(fault), edition), "{fault:?}");
        }
    }
    for (fault, words) in STORE_FAULTS {
        for edition in Edition::ALL {
            assert!(is_told(fault, words, edition), "{fault:?}");
        }
    }
    for edition in Edition::ALL {
        assert!(!found_out(&faulty(Fault::Nothing), edition));
    }
}

/// Cases of some editions tell a fault in some words; those of the others do not tell it.
fn is_found_out_where_it_shows(fault: Fault, words: &str, editions: &[Edition], cases: Range<u64>) {
    let faulty = Faulty { reference: Reference::default(), fault };
    for edition in Edition::ALL {
        let said = said(&faulty, edition, cases.clone()).next();
        assert_eq!(said.is_some(), editions.contains(&edition), "{fault:?} in {edition:?}");
        let is_as_expected = said.is_none_or(|what| what.starts_with(words));
        assert!(is_as_expected, "{fault:?} in {edition:?}");
    }
}

#[test]
fn each_fault_in_what_a_load_starts_from_is_found_out_where_it_shows() {
    for (fault, words, editions) in OBJECT_FAULTS {
        is_found_out_where_it_shows(Fault::Object(fault), words, editions, CLIPPED);
    }
}

#[test]
fn each_fault_in_masks_is_found_out_where_it_shows() {
    for (fault, words, editions) in MASK_FAULTS {
        is_found_out_where_it_shows(Fault::Mask(fault), words, editions, 0..CASES);
    }
}

#[test]
fn no_cases_meet_nothing() {
    let missing = |edition| Coverage::new(edition).missing().len();
    assert!(missing(Edition::One) > 200);
    assert!(missing(Edition::Two) > missing(Edition::One) + 80);
    assert!(missing(Edition::Three) > missing(Edition::Two) + 15);
}

/// What some of an edition's cases met, with the reference on both sides.
fn met(edition: Edition, numbers: impl Iterator<Item = u64>) -> Coverage {
    let reference = Reference::default();
    let mut comparison = Comparison::new(&reference, &reference, edition);
    for number in numbers {
        comparison.compare(&Case::of_seed(edition, 1, number)).expect("it is the same");
    }
    comparison.coverage
}

#[test]
fn two_shares_of_the_cases_meet_what_all_meet() {
    for edition in Edition::ALL {
        let all = met(edition, 0..CASES);
        let mut both = met(edition, (0..CASES).step_by(2));
        both.add(met(edition, (1..CASES).step_by(2)));
        assert_eq!(both.table(), all.table());
        assert_eq!(both.missing(), all.missing());
    }
}
