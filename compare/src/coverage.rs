//! What an edition's cases met: a comparison that never saw a refusal or an outcome says nothing
//! of it.

use std::collections::{BTreeMap, BTreeSet};

use crate::case::Job;
use crate::damage::editions;
use crate::jobs::{names_a_dimension, Answer, OutcomeRow};
use crate::order_sights::Exchange;
use crate::orders::{Card, Order};
use crate::outcomes::Place;
use crate::reference::{
    check, read_sheet, Cause, Checked, Edition, Entry, Outcome, Refusal, Registers, Sheet, Step,
    RECORD_NUMBERS, WHOLE_STEP,
};
use crate::tapes::Tape;
use crate::{
    mask_sights, object_sights, order_sights, side_sights, span_sights, trace_sights, vector_sights,
};

/// How many different places a refusal is to be met at, where it has more than one.
const PLACES: usize = 3;
/// Places that are remembered of each refusal.
const PLACES_KEPT: usize = 1_000;
/// One in so many sheets is to have a vector step, where the edition has such steps.
const VECTORS_ONE_IN: u64 = 3;
/// Where a sheet's first field has the edition.
pub const EDITION_AT: usize = 3;
const JOBS: [Job; 10] = [
    Job::Read,
    Job::Rewrite,
    Job::Check,
    Job::CarryOut,
    Job::Translate,
    Job::Run,
    Job::Trace,
    Job::Replay,
    Job::Divisions,
    Job::Outcome,
];

/// Counts of answers, causes and outcomes of the sheets that were made for an edition.
#[derive(Default)]
pub struct Coverage {
    edition: Edition,
    sheets: u64,
    sheets_with_vectors: u64,
    outcomes_with_a_dimension: u64,
    places_asked: u64,
    places_touched: u64,
    answers: BTreeMap<(Job, u32), Answers>,
    causes: BTreeMap<Cause, u64>,
    sights: BTreeMap<String, u64>,
}

#[derive(Default)]
struct Answers {
    count: u64,
    places: BTreeSet<[u32; 2]>,
}

impl Answers {
    fn add_place(&mut self, place: [u32; 2]) {
        if self.places.len() < PLACES_KEPT {
            self.places.insert(place);
        }
    }
}

/// The numbers that a job can give, 0 for an accepted input included.
fn numbers(job: Job) -> Vec<u32> {
    match job {
        Job::Read => (0..=6).collect(),
        Job::Rewrite => (0..=6).chain([19]).collect(),
        Job::Check | Job::CarryOut | Job::Divisions | Job::Outcome => {
            (0..=15).chain([18]).collect()
        }
        Job::Translate => (0..=16).chain([18]).collect(),
        Job::Run => (0..=6).chain([17, 18]).collect(),
        Job::Trace => (0..=15).chain([18, 19]).collect(),
        Job::Replay => (0..=15).chain([18, 26]).collect(),
    }
}

/// Whether a number's place is always 0: an accepted input, the edition (the first field), and
/// what concerns a whole room or memory.
fn has_one_place(number: u32) -> bool {
    matches!(number, 0 | 6 | 16 | 18 | 19)
}

fn wrong_edition(number: u8) -> String {
    format!("edition {number} refused")
}

fn is_vector(step: &Step) -> bool {
    matches!(step, Step::Vector(_))
}

impl Coverage {
    /// Nothing met yet.
    pub fn new(edition: Edition) -> Coverage {
        Coverage { edition, ..Coverage::default() }
    }

    /// Adds what other sheets of the edition met.
    pub fn add(&mut self, other: Coverage) {
        self.sheets += other.sheets;
        self.sheets_with_vectors += other.sheets_with_vectors;
        self.outcomes_with_a_dimension += other.outcomes_with_a_dimension;
        self.places_asked += other.places_asked;
        self.places_touched += other.places_touched;
        for (key, met) in other.answers {
            let answers = self.answers.entry(key).or_default();
            answers.count += met.count;
            met.places.into_iter().for_each(|place| answers.add_place(place));
        }
        for (cause, count) in other.causes {
            *self.causes.entry(cause).or_default() += count;
        }
        for (sight, count) in other.sights {
            *self.sights.entry(sight).or_default() += count;
        }
    }

    /// Notes an answer of a job and the reference's cause for it.
    pub fn answer(&mut self, job: Job, answer: &Answer, cause: Option<Cause>) {
        let answers = self.answers.entry((job, answer[0])).or_default();
        answers.count += 1;
        answers.add_place([answer[1], answer[2]]);
        if let Some(cause) = cause {
            *self.causes.entry(cause).or_default() += 1;
        }
    }

    /// Notes what carrying out a sheet does, and where it is refused.
    pub fn sheet(&mut self, sheet: &[u8], memory: &[u8]) {
        let model = read_sheet(sheet).unwrap_or_default();
        self.sheets += 1;
        self.sheets_with_vectors += u64::from(model.steps.iter().any(is_vector));
        match check(sheet, memory.len()) {
            Ok(checked) => self.accepted(checked, memory.to_vec()),
            Err(Refusal { cause: Cause::WrongEdition, .. }) => {
                self.sight(wrong_edition(sheet[EDITION_AT]));
            }
            Err(refusal) => self.refused(&model, refusal, memory.len()),
        }
    }

    /// Whether a sheet is of the edition that it was made for: a damaged one may name another.
    fn is_own(&self, sheet: &Sheet) -> bool {
        sheet.edition == self.edition
    }

    fn accepted(&mut self, checked: Checked, mut memory: Vec<u8>) {
        let mut registers = Registers::default();
        for number in 0..checked.sheet.steps.len() {
            self.step(&checked, number, &registers);
            checked.do_step(number, &mut registers, &mut memory);
        }
    }

    fn refused(&mut self, sheet: &Sheet, refusal: Refusal, memory_len: usize) {
        let [step, element] = refusal.place.map(|number| number as usize);
        let Some(step) = sheet.steps.get(step) else { return };
        if let (14, Step::Vector(vector)) = (refusal.cause.number(), step) {
            if let Some(sight) = vector_sights::of_refused(vector, element, memory_len) {
                self.sight(sight);
            }
        }
        if self.is_own(sheet) {
            if let Some(sight) = object_sights::of_refused(step, refusal.cause) {
                self.sight(String::from(sight));
            }
        }
    }

    /// Notes what a step does with what the registers hold before it.
    fn step(&mut self, checked: &Checked, number: usize, registers: &Registers) {
        let Checked { sheet, memory_len, .. } = checked;
        let outcomes = &checked.outcomes[number];
        let kind = |register: usize| registers[register].as_ref().map_or(0, |m| m.type_.kind.0);
        match sheet.steps[number] {
            Step::Load { register, object, layout, view, .. } => {
                self.sight(format!("load of kind {}", kind(object.unwrap_or(register))));
                self.access("load", sheet, layout, view, outcomes);
                if self.is_own(sheet) {
                    for sight in object_sights::of_load(register, object, outcomes, registers) {
                        self.sight(sight);
                    }
                }
            }
            Step::Store { register, layout, view, .. } => {
                self.sight(format!("store of kind {}", kind(register)));
                self.access("store", sheet, layout, view, outcomes);
            }
            Step::Reduce { result, mode, combine, source, .. } => {
                self.onto("reduce", result, &[source]);
                self.sight(format!("reduce {mode:?} {combine:?}"));
                self.sight(format!("reduce {combine:?} of kind {}", kind(source)));
            }
            Step::MultiplyAdd { result, a, b, c } => {
                self.onto("multiply-add", result, &[a, b, c]);
                self.sight(format!("multiply-add of kinds {} and {}", kind(a), kind(b)));
                self.sight(format!("multiply-add to kind {}", kind(c)));
            }
            Step::Transpose { result, source } => {
                self.onto("transpose", result, &[source]);
                self.sight(format!("transpose of kind {}", kind(source)));
            }
            Step::Fill { kind, .. } => self.sight(format!("fill of kind {}", kind.0)),
            Step::Vector(ref vector) => {
                let input = registers[vector.input].as_ref().expect("accepted");
                for sight in vector_sights::of_accepted(vector, input, *memory_len) {
                    self.sight(sight);
                }
            }
        }
    }

    /// A result may name a source, whose old contents are read.
    fn onto(&mut self, step: &str, result: usize, sources: &[usize]) {
        if let Some(source) = sources.iter().position(|&source| source == result) {
            self.sight(format!("{step} onto source {source}"));
        }
    }

    fn access(
        &mut self,
        access: &str,
        sheet: &Sheet,
        layout: usize,
        view: Option<usize>,
        outcomes: &[Outcome],
    ) {
        let layout = &sheet.layouts[layout];
        let dimensions = layout.dimensions.len();
        self.sight(format!("{access} through {:?}, {dimensions}", layout.clamp_mode));
        if let Some(view) = view.map(|view| &sheet.views[view]) {
            let own = if view.dimensions.is_some() { "own" } else { "no" };
            self.sight(format!("{access} with {} view dimensions, {own}", view.permutation.len()));
        }
        let mut sort = |sort: &str, is_it: fn(&Outcome) -> bool| {
            if outcomes.iter().any(is_it) {
                self.sight(format!("{access} {sort}"));
            }
        };
        sort("skipped", |outcome| matches!(outcome, Outcome::Skipped));
        sort("filled", |outcome| matches!(outcome, Outcome::Filled(_)));
        sort("discarded", |outcome| matches!(outcome, Outcome::Discarded));
        sort("placed", |outcome| matches!(outcome, Outcome::Placed(_)));
    }

    /// Notes the records of an accepted sheet's tape, which was run.
    pub fn tape(&mut self, checked: &Checked, tape: &Tape) {
        let steps = &checked.sheet.steps;
        let records = || tape.numbers.chunks_exact(RECORD_NUMBERS);
        for op in 0..5 {
            if records().any(|record| record[0] == op) {
                self.sight(format!("record of op {op}"));
            }
        }
        let whole = |record: &[i32]| (record[0] == WHOLE_STEP).then(|| &steps[record[1] as usize]);
        if records().filter_map(whole).any(is_vector) {
            self.sight(String::from(vector_sights::RECORD));
        }
        for sight in object_sights::of_tape(checked) {
            self.sight(String::from(sight));
        }
    }

    /// Notes the room for the tape of an accepted sheet, in numbers.
    pub fn tape_room(&mut self, checked: &Checked, room: usize) {
        if let Some(sight) = object_sights::of_room(checked, room) {
            self.sight(String::from(sight));
        }
    }

    /// Notes the masks of an accepted sheet.
    pub fn masks(&mut self, checked: &Checked) {
        for sight in mask_sights::of_masks(checked) {
            self.sight(sight);
        }
    }

    /// Notes the room for the masks of a sheet, in bytes, and why its translation is refused.
    pub fn mask_room(&mut self, sheet: &[u8], refused: Option<Cause>, room: usize) {
        if let Some(sight) = mask_sights::of_room(sheet, refused, room) {
            self.sight(sight);
        }
    }

    /// Notes the places that masks are asked for.
    pub fn places(&mut self, masks: &[u8], places: &[Place]) {
        for sight in mask_sights::of_places(masks, places) {
            self.sight(sight);
        }
    }

    /// Notes whether a place was touched that masks were asked for.
    pub fn touched(&mut self, is_touched: bool) {
        self.places_asked += 1;
        self.places_touched += u64::from(is_touched);
    }

    /// Notes a tape beside an accepted sheet's own that is refused at a record.
    pub fn refused_record(&mut self, checked: &Checked, tape: &Tape, at: usize, cause: Cause) {
        if let Some(sight) = object_sights::of_refused_record(checked, tape, at, cause) {
            self.sight(sight);
        }
    }

    /// Notes the replay of a trace against a sheet, which has some accesses or is refused.
    pub fn replay(&mut self, sheet: &Result<Vec<Entry>, Refusal>, memory_len: usize, trace: &[u8]) {
        for sight in trace_sights::of_replay(sheet, memory_len, trace) {
            self.sight(sight);
        }
    }

    /// Notes the trace of an accepted sheet and the room for it, in bytes.
    pub fn trace_room(&mut self, length: usize, room: usize) {
        if let Some(sight) = trace_sights::of_room(length, room) {
            self.sight(String::from(sight));
        }
    }

    /// Notes what rule 3 does in an accepted sheet, whose divisions were counted.
    pub fn divisions(&mut self, checked: &Checked) {
        for sight in span_sights::of_accepted(checked) {
            self.sight(String::from(sight));
        }
    }

    /// Notes where the elements of an accepted sheet are, each of which is asked for its outcome.
    pub fn sides(&mut self, checked: &Checked) {
        for sight in side_sights::of_accepted(checked) {
            self.sight(sight);
        }
    }

    /// Notes whether the outcome of an element names a dimension.
    pub fn outcome(&mut self, row: &OutcomeRow) {
        self.outcomes_with_a_dimension += u64::from(names_a_dimension(row));
    }

    /// Notes the orders in which cards performed the stores of an accepted sheet.
    pub fn orders(&mut self, checked: &Checked, cards: &[Card]) {
        for sight in cards.iter().flat_map(|card| order_sights::of_card(checked, card)) {
            self.sight(sight);
        }
    }

    /// Notes an exchange of two neighbouring stores of an accepted sheet.
    pub fn exchange(&mut self, exchange: &Exchange) {
        for sight in order_sights::of_exchange(exchange) {
            self.sight(sight);
        }
    }

    /// Notes one in a refused sheet, by the answers before and after it.
    pub fn refused_exchange(&mut self, first: usize, before: &Answer, after: &Answer) {
        for sight in order_sights::of_refused(first, before, after) {
            self.sight(sight);
        }
    }

    fn sight(&mut self, sight: String) {
        *self.sights.entry(sight).or_default() += 1;
    }

    /// What was to be met and was not.
    pub fn missing(&self) -> Vec<String> {
        let mut missing = Vec::new();
        for job in JOBS {
            for number in numbers(job) {
                let places = self.answers.get(&(job, number)).map_or(0, |a| a.places.len());
                let wanted = if has_one_place(number) { 1 } else { PLACES };
                if places < wanted {
                    missing.push(format!("{job:?}: {number} at {places} places, not {wanted}"));
                }
            }
        }
        for cause in Cause::ALL {
            // The C interface writes only what it has read, so it hands no such model over.
            let reachable = *cause != Cause::UnreadableModel && cause.edition() <= self.edition;
            if reachable && !self.causes.contains_key(cause) {
                missing.push(format!("cause {cause:?} of refusal {}", cause.number()));
            }
        }
        for sight in sights(self.edition) {
            if !self.sights.contains_key(&sight) {
                missing.push(sight);
            }
        }
        if self.edition.has_vectors() && VECTORS_ONE_IN * self.sheets_with_vectors < self.sheets {
            missing.push(format!("a vector step in one of {VECTORS_ONE_IN} sheets"));
        }
        missing
    }

    /// How often each job gave each number, and how many sheets have vector steps.
    pub fn table(&self) -> String {
        let mut table = String::new();
        if self.edition.has_vectors() {
            let (some, all) = (self.sheets_with_vectors, self.sheets);
            table += &format!("{some} of {all} sheets have vector steps\n");
        }
        table += &self.replays();
        table += &self.touches();
        table += &self.outcomes();
        table += &self.stores();
        table += &format!("{:<8}", "number");
        for job in JOBS {
            table += &format!("{:>20}", format!("{job:?} (places)"));
        }
        let numbers: BTreeSet<u32> = JOBS.into_iter().flat_map(numbers).collect();
        for number in numbers {
            table += &format!("\n{number:<8}");
            for job in JOBS {
                let cell = match self.answers.get(&(job, number)) {
                    Some(answers) => format!("{} ({})", answers.count, answers.places.len()),
                    None => String::from("-"),
                };
                table += &format!("{cell:>20}");
            }
        }
        table
    }

    /// How many calls of a job were accepted, and how many there were.
    fn accepted_of(&self, job: Job) -> (u64, u64) {
        let calls = self.answers.iter().filter(|((of_job, _), _)| *of_job == job);
        let all = calls.map(|(_, answers)| answers.count).sum();
        (self.answers.get(&(job, 0)).map_or(0, |answers| answers.count), all)
    }

    /// How often something was seen.
    fn seen(&self, sight: &str) -> u64 {
        self.sights.get(sight).copied().unwrap_or(0)
    }

    /// What became of the replays.
    fn replays(&self) -> String {
        let (accepted, all) = self.accepted_of(Job::Replay);
        let agree = self.seen(trace_sights::AGREES);
        let (differ, refused) = (accepted - agree, all - accepted);
        format!("{all} replays: {agree} agree, {differ} differ, {refused} are refused\n")
    }

    /// What became of the questions to masks.
    fn touches(&self) -> String {
        let (all, touched) = (self.places_asked, self.places_touched);
        format!("{all} places asked of masks: {touched} were touched\n")
    }

    /// What became of the questions for an outcome.
    fn outcomes(&self) -> String {
        let (accepted, all) = self.accepted_of(Job::Outcome);
        let (named, refused) = (self.outcomes_with_a_dimension, all - accepted);
        format!("{all} outcomes asked: {named} name a dimension, {refused} are refused\n")
    }

    /// In how many orders stores were performed, and what became of exchanges.
    fn stores(&self) -> String {
        // Each store of several elements is reversed once.
        let stores = self.seen(&order_sights::of_several(Order::Reversed));
        let orders = stores + self.seen(&order_sights::of_several(Order::Shuffled));
        let refused = self.seen(order_sights::REFUSED);
        let (apart, sharing) = (self.seen(order_sights::APART), self.seen(order_sights::SHARING));
        let (all, other) = (refused + apart + sharing, self.seen(order_sights::OTHER_MEMORY));
        format!(
            "{stores} stores of several elements performed in {orders} other orders\n\
             {all} pairs of stores exchanged: {apart} are apart, {sharing} share a byte ({other} leave \
             another memory), {refused} are refused\n"
        )
    }
}

/// Everything that sheets of an edition are to be seen doing.
fn sights(edition: Edition) -> Vec<String> {
    let mut sights = trace_sights::every();
    sights.extend(span_sights::every());
    sights.extend(side_sights::every());
    sights.extend(order_sights::every());
    sights.extend(object_sights::every(edition));
    sights.extend(mask_sights::every(edition));
    let is_wrong = |number: &u8| Edition::of_number(*number).is_none();
    sights.extend(editions(edition).into_iter().filter(is_wrong).map(wrong_edition));
    if edition.has_vectors() {
        sights.extend(vector_sights::every());
    }
    for sort in ["load skipped", "load filled", "load placed"] {
        sights.push(String::from(sort));
    }
    for sort in ["store skipped", "store discarded", "store placed"] {
        sights.push(String::from(sort));
    }
    for access in ["load", "store"] {
        for mode in ["Undefined", "Constant", "ClampToEdge", "Repeat", "MirrorRepeat"] {
            sights.extend((1..=5).map(|count| format!("{access} through {mode}, {count}")));
        }
        for own in ["own", "no"] {
            let with = |count| format!("{access} with {count} view dimensions, {own}");
            sights.extend((1..=5).map(with));
        }
    }
    for combine in ["Add", "Min", "Max", "And", "Or", "Xor"] {
        for mode in ["Row", "Column", "Both", "TwoByTwo"] {
            sights.push(format!("reduce {mode} {combine}"));
        }
        sights.extend((0..6).map(|kind| format!("reduce {combine} of kind {kind}")));
    }
    for step in ["fill", "load", "store", "transpose"] {
        sights.extend((0..6).map(|kind| format!("{step} of kind {kind}")));
    }
    for a in 0..6 {
        sights.extend((0..6).map(|b| format!("multiply-add of kinds {a} and {b}")));
    }
    sights.extend([4, 5].map(|c| format!("multiply-add to kind {c}")));
    sights.extend(["reduce", "transpose"].map(|step| format!("{step} onto source 0")));
    sights.extend((0..3).map(|source| format!("multiply-add onto source {source}")));
    sights.extend((0..5).map(|op| format!("record of op {op}")));
    sights
}
