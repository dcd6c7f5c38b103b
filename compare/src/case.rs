//! One case: a sheet, a memory, rooms, tapes and traces; and the comparison of every job on it.

use std::hint::black_box;

use crate::clipped::clipped_loads;
use crate::coverage::Coverage;
use crate::damage::{damage, noise};
use crate::generate::{generate, many_records, partly_outside, Generated};
use crate::jobs::{Answer, Jobs, Reference, State, VerdictRow, AGREES};
use crate::masks::{any_masks, any_places, areas, check_counts, has_byte, mask_room, places};
use crate::neighbours::neighbouring_stores;
use crate::order_sights::Exchange;
use crate::orders::perform;
use crate::outcomes::{first_access, no_elements, random_place, Place, Told};
use crate::random::Random;
use crate::reference::{
    check, entries, read_sheet, read_trace, sheet_bytes, translate, Checked, Edition, Entry,
    ACCESS_LENGTH, MASKS_LENGTH, MASK_LENGTH, MEMORY_MAX, RECORDS_MAX, RECORD_NUMBERS,
};
use crate::stores::{exchangeable, Faultless, Stores, Written};
use crate::tapes::{damage_tape, random_tape, Tape};
use crate::traces::{accesses, traces};

/// The room that holds every tape, in numbers.
const TAPE_ROOM: usize = RECORDS_MAX * RECORD_NUMBERS;
/// A room for masks with bytes to spare, in which a step more would have its place.
const MASK_ROOM: usize = MASKS_LENGTH + MASK_LENGTH;
/// Bytes before and after a lent slice that must stay as they are.
const GUARD: usize = 32;
const GARBAGE: u8 = 0xA5;
pub const GARBAGE_WORD: u32 = 0xA5A5_A5A5;
/// Random cases that an edition has.
const CASES_AN_EDITION: u64 = 1 << 48;
/// From this one on they are partly outside.
pub const FIRST_PARTLY_OUTSIDE: u64 = CASES_AN_EDITION / 2;
/// From this one on they have neighbouring stores.
pub const FIRST_NEIGHBOURING: u64 = CASES_AN_EDITION / 4 * 3;
/// From this one on they have loads through clipped views.
pub const FIRST_CLIPPED: u64 = CASES_AN_EDITION / 8 * 7;

/// The inputs of every job.
#[derive(Clone)]
pub struct Case {
    pub sheet: Vec<u8>,
    pub memory: Vec<u8>,
    /// What the jobs that get no memory are told: the memory's length, or one that no memory has.
    pub told_len: usize,
    /// The room for a written sheet, in bytes.
    pub sheet_room: usize,
    /// The room for a tape, in numbers.
    pub tape_room: usize,
    /// The room for masks, in bytes.
    pub mask_room: usize,
    /// The room for a trace, in bytes.
    pub trace_room: usize,
    pub tapes: Vec<Tape>,
    pub traces: Vec<Vec<u8>>,
    /// Which outcomes are asked for, and which neighbouring stores are exchanged.
    pub asked: Asked,
    /// A place whose outcome is asked for too, whether there is an element or not.
    pub place: Place,
    /// Bytes that come as masks.
    pub masks: Vec<u8>,
    /// Places that these and the sheet's own masks are asked for.
    pub touches: Vec<Place>,
    /// The seed of the orders in which stores are performed.
    pub orders: u64,
}

/// Some of many: one, and each so many places after the last.
#[derive(Clone, Copy, PartialEq, Eq)]
pub struct Asked {
    pub first: usize,
    pub apart: usize,
}

impl Asked {
    pub const ALL: Asked = Asked { first: 0, apart: 1 };

    fn of<T>(self, many: impl IntoIterator<Item = T>) -> impl Iterator<Item = T> {
        many.into_iter().skip(self.first).step_by(self.apart)
    }
}

impl Case {
    /// The case of a number under a seed, its sheet made for an edition. A damaged sheet may name
    /// another one.
    pub fn of_seed(edition: Edition, seed: u64, number: u64) -> Case {
        let random = &mut Random::of_case(seed, first_case(edition) + number);
        let Generated { sheet, memory_len } = match number {
            ..FIRST_PARTLY_OUTSIDE => any_sheet(random, edition),
            FIRST_PARTLY_OUTSIDE..FIRST_NEIGHBOURING => partly_outside(random, edition),
            FIRST_NEIGHBOURING..FIRST_CLIPPED => neighbouring_stores(random, edition),
            FIRST_CLIPPED.. => clipped_loads(random, edition),
        };
        Case::of_sheet(random, edition, sheet, memory_len)
    }

    /// A case of a sheet that was made for an edition and a memory of some length.
    pub fn of_sheet(
        random: &mut Random,
        edition: Edition,
        sheet: Vec<u8>,
        memory_len: usize,
    ) -> Case {
        let mut memory = vec![0; memory_len];
        random.fill(&mut memory);
        let told_len = match random.below(100) {
            0 => random.pick(&[usize::MAX, 1 << 32, MEMORY_MAX + 1]),
            _ => memory_len,
        };
        let translated = translate(&sheet, told_len, TAPE_ROOM, MASK_ROOM);
        let tape = Tape::of(&translated.map_or(Vec::new(), |translated| translated.records));
        let own = accesses(&sheet, told_len);
        // Traces and masks take no numbers that sheets would get.
        let of_traces = &mut random.split();
        Case {
            sheet_room: byte_room(random, sheet.len()),
            tape_room: tape_room(random, tape.numbers.len()),
            trace_room: byte_room(of_traces, ACCESS_LENGTH * own.len()),
            tapes: tapes(random, &sheet, &tape, memory_len),
            traces: traces(of_traces, &own, told_len, edition),
            asked: Asked::ALL,
            place: random_place(of_traces),
            orders: of_traces.bits(),
            mask_room: mask_room(of_traces),
            masks: any_masks(of_traces),
            touches: any_places(of_traces),
            sheet,
            memory,
            told_len,
        }
    }
}

/// A sheet as it is made, one with a long tape, a damaged one, or noise.
fn any_sheet(random: &mut Random, edition: Edition) -> Generated {
    match random.below(100) {
        0..=57 => generate(random, edition),
        58..=59 => Generated { sheet: many_records(random, edition), memory_len: MEMORY_MAX },
        60..=94 => {
            let generated = generate(random, edition);
            Generated { sheet: damage(random, &generated.sheet, edition), ..generated }
        }
        _ => Generated { sheet: noise(random, edition), memory_len: random.below(100) },
    }
}

/// Each edition has cases of its own; those of edition 1 are the first.
fn first_case(edition: Edition) -> u64 {
    u64::from(edition.number() - 1) * CASES_AN_EDITION
}

/// The room for a sheet or a trace of some length.
fn byte_room(random: &mut Random, length: usize) -> usize {
    match random.below(5) {
        0 => length.saturating_sub(1),
        1 => random.below(length + 1),
        2 => length + random.below(9),
        _ => length,
    }
}

fn tape_room(random: &mut Random, needed: usize) -> usize {
    match random.below(8) {
        0 => needed.saturating_sub(1),
        1 => needed,
        2 => needed + random.below(2 * RECORD_NUMBERS),
        3 => random.below(needed + 1),
        4 => TAPE_ROOM + random.below(2 * RECORD_NUMBERS),
        _ => TAPE_ROOM,
    }
}

/// Tapes beside the translated one, which every accepted sheet is run with: that one damaged,
/// and a random one.
fn tapes(random: &mut Random, sheet: &[u8], translated: &Tape, memory_len: usize) -> Vec<Tape> {
    let model = read_sheet(sheet).unwrap_or_default();
    let random_tape = random_tape(random, &model, memory_len);
    vec![damage_tape(random, translated), random_tape]
}

/// The public jobs.
#[derive(Clone, Copy, PartialEq, Eq, PartialOrd, Ord, Debug)]
pub enum Job {
    Read,
    Rewrite,
    Check,
    CarryOut,
    Translate,
    Run,
    Trace,
    Replay,
    Divisions,
    Outcome,
}

/// Everything that a call was lent and may have changed, as it is afterwards, and its result.
#[derive(PartialEq)]
struct Exit {
    returned: u32,
    answer: Answer,
    counts: [u32; 3],
    records: [u32; 1],
    verdict: VerdictRow,
    state: State,
    /// A memory, or the room of a written sheet or trace or of masks, between guards.
    bytes: Vec<u8>,
    /// The room of a tape, between guards.
    tape: Vec<i32>,
}

impl Exit {
    /// What is lent before the call: garbage, but for a memory.
    fn lent(bytes: &[u8], tape_room: usize) -> Exit {
        let guard = [GARBAGE; GUARD];
        Exit {
            returned: GARBAGE_WORD,
            answer: [GARBAGE_WORD; 4],
            counts: [GARBAGE_WORD; 3],
            records: [GARBAGE_WORD],
            verdict: [GARBAGE_WORD; 2],
            state: State { types: [GARBAGE; 16], elements: [GARBAGE_WORD; 1024] },
            bytes: [&guard, bytes, &guard].concat(),
            tape: vec![GARBAGE_WORD as i32; tape_room + 2 * GUARD],
        }
    }

    fn bytes(&self) -> &[u8] {
        &self.bytes[GUARD..self.bytes.len() - GUARD]
    }

    fn tape(&self) -> &[i32] {
        &self.tape[GUARD..self.tape.len() - GUARD]
    }

    /// The first thing in which two exits differ.
    fn difference(&self, other: &Exit) -> Option<String> {
        let numbers = |exit: &Exit| {
            let row = [exit.returned, exit.records[0]];
            [&row[..], &exit.answer, &exit.counts, &exit.verdict].concat()
        };
        differing("returned, records, answer, counts, verdict", &numbers(self), &numbers(other))
            .or_else(|| differing("types", &self.state.types, &other.state.types))
            .or_else(|| differing("elements", &self.state.elements, &other.state.elements))
            .or_else(|| differing("lent bytes", &self.bytes, &other.bytes))
            .or_else(|| differing("lent tape", &self.tape, &other.tape))
    }
}

/// Says where two arrays differ; short ones are shown whole.
fn differing<T: PartialEq + std::fmt::Debug>(name: &str, one: &[T], other: &[T]) -> Option<String> {
    let at = one.iter().zip(other).position(|(one, other)| one != other)?;
    Some(if one.len() <= 16 {
        format!("{name}: {one:?} and {other:?}")
    } else {
        // Lent slices stand behind a guard, so the place may be below 0.
        let guard = if name.starts_with("lent") { GUARD as i64 } else { 0 };
        format!("{name} at {}: {:?} and {:?}", at as i64 - guard, one[at], other[at])
    })
}

fn read_exit(jobs: &dyn Jobs, case: &Case) -> Exit {
    let mut exit = Exit::lent(&[], 0);
    exit.returned = jobs.read(&case.sheet, &mut exit.counts, &mut exit.answer);
    exit
}

fn check_exit(jobs: &dyn Jobs, sheet: &[u8], memory_len: usize) -> Exit {
    let mut exit = Exit::lent(&[], 0);
    exit.returned = jobs.check(sheet, memory_len, &mut exit.answer);
    exit
}

fn carry_out_exit(jobs: &dyn Jobs, sheet: &[u8], memory: &[u8]) -> Exit {
    let mut exit = Exit::lent(memory, 0);
    let memory = &mut exit.bytes[GUARD..GUARD + memory.len()];
    exit.returned = jobs.carry_out(sheet, memory, &mut exit.state, &mut exit.answer);
    exit
}

fn run_exit(jobs: &dyn Jobs, case: &Case, tape: &Tape) -> Exit {
    let mut exit = Exit::lent(&case.memory, 0);
    let memory = &mut exit.bytes[GUARD..GUARD + case.memory.len()];
    let (numbers, records) = (&tape.numbers, tape.records);
    exit.returned =
        jobs.run(&case.sheet, numbers, records, memory, &mut exit.state, &mut exit.answer);
    exit
}

fn rewrite_exit(jobs: &dyn Jobs, sheet: &[u8], room: usize) -> Exit {
    let mut exit = Exit::lent(&vec![GARBAGE; room], 0);
    let out = &mut exit.bytes[GUARD..GUARD + room];
    exit.returned = jobs.rewrite(sheet, out, &mut exit.answer);
    exit
}

fn translate_exit(
    jobs: &dyn Jobs,
    sheet: &[u8],
    memory_len: usize,
    tape_room: usize,
    mask_room: usize,
) -> Exit {
    let mut exit = Exit::lent(&vec![GARBAGE; mask_room], tape_room);
    let Exit { tape, bytes, records, answer, .. } = &mut exit;
    let tape = &mut tape[GUARD..GUARD + tape_room];
    let masks = &mut bytes[GUARD..GUARD + mask_room];
    exit.returned = jobs.translate(sheet, memory_len, tape, masks, records, answer);
    exit
}

fn trace_exit(jobs: &dyn Jobs, case: &Case, room: usize) -> Exit {
    let mut exit = Exit::lent(&vec![GARBAGE; room], 0);
    let out = &mut exit.bytes[GUARD..GUARD + room];
    exit.returned = jobs.trace(&case.sheet, case.told_len, out, &mut exit.answer);
    exit
}

fn replay_exit(jobs: &dyn Jobs, case: &Case, trace: &[u8]) -> Exit {
    let mut exit = Exit::lent(&[], 0);
    let Exit { verdict, answer, .. } = &mut exit;
    exit.returned = jobs.replay(&case.sheet, case.told_len, trace, verdict, answer);
    exit
}

fn divisions_exit(jobs: &dyn Jobs, case: &Case) -> Exit {
    let mut exit = Exit::lent(&[], 0);
    exit.returned = jobs.divisions(&case.sheet, case.told_len, &mut exit.answer);
    exit
}

/// The two sides of a comparison and what it has met.
pub struct Comparison<'a> {
    pub archive: &'a dyn Jobs,
    pub reference: &'a Reference,
    pub stores: &'a dyn Stores,
    pub coverage: Coverage,
}

impl<'a> Comparison<'a> {
    /// A comparison of sheets of an edition, which has met nothing yet.
    pub fn new(
        archive: &'a dyn Jobs,
        reference: &'a Reference,
        edition: Edition,
    ) -> Comparison<'a> {
        Comparison { archive, reference, stores: &Faultless, coverage: Coverage::new(edition) }
    }

    /// Compares every job on a case, then the promises that tie the jobs together.
    pub fn compare(&mut self, case: &Case) -> Result<(), String> {
        let inputs =
            (case.sheet.clone(), case.tapes.clone(), case.traces.clone(), case.masks.clone());
        let Case { sheet, told_len, tape_room, mask_room, .. } = case;
        self.same(Job::Read, |jobs| read_exit(jobs, case))?;
        self.same(Job::Rewrite, |jobs| rewrite_exit(jobs, sheet, case.sheet_room))?;
        self.same(Job::Check, |jobs| check_exit(jobs, sheet, *told_len))?;
        self.same(Job::Translate, |jobs| {
            translate_exit(jobs, sheet, *told_len, *tape_room, *mask_room)
        })?;
        self.coverage.mask_room(sheet, self.reference.cause(), *mask_room);
        for tape in &case.tapes {
            self.tape_is_run_alike(case, tape)?;
        }
        for trace in &case.traces {
            self.same(Job::Replay, |jobs| replay_exit(jobs, case, trace))?;
        }
        let carried = self.same(Job::CarryOut, |jobs| carry_out_exit(jobs, sheet, &case.memory))?;
        self.round_trip(case)?;
        self.tape_agrees(case, &carried)?;
        self.touches_agree(&case.masks, &case.touches)?;
        let accesses = self.trace_agrees(case)?;
        self.divisions_agree(case)?;
        self.outcomes_agree(case, &accesses)?;
        self.orders_agree(case, &carried)?;
        self.exchanges_agree(case, &carried)?;
        // The compiler may think that what is lent to be read stays as it is; look again.
        let Case { sheet, tapes, traces, masks, .. } = black_box(case);
        if (sheet, tapes, traces, masks) != (&inputs.0, &inputs.1, &inputs.2, &inputs.3) {
            return Err(String::from("what was lent to be read was changed"));
        }
        self.coverage.sheet(&case.sheet, &case.memory);
        Ok(())
    }

    /// One job on both sides: the same result and the same lent arrays at exit.
    fn same(&mut self, job: Job, exit_of: impl Fn(&dyn Jobs) -> Exit) -> Result<Exit, String> {
        let archive = exit_of(self.archive);
        let reference = exit_of(self.reference);
        if let Some(difference) = archive.difference(&reference) {
            return Err(format!("{job:?}: archive and reference differ in {difference}"));
        }
        if archive.returned != archive.answer[0] {
            return Err(format!("{job:?}: returned and answered numbers differ"));
        }
        self.coverage.answer(job, &archive.answer, self.reference.cause());
        Ok(archive)
    }

    /// A tape beside the sheet's own leaves the same on both sides, or is refused alike.
    fn tape_is_run_alike(&mut self, case: &Case, tape: &Tape) -> Result<(), String> {
        let ran = self.same(Job::Run, |jobs| run_exit(jobs, case, tape))?;
        if let (17, Some(cause)) = (ran.returned, self.reference.cause()) {
            if let Ok(checked) = check(&case.sheet, case.memory.len()) {
                self.coverage.refused_record(&checked, tape, ran.answer[1] as usize, cause);
            }
        }
        Ok(())
    }

    /// What was read is written back as the same bytes.
    fn round_trip(&self, case: &Case) -> Result<(), String> {
        let exit = rewrite_exit(self.archive, &case.sheet, case.sheet.len());
        if exit.returned == 0 && exit.bytes() != case.sheet {
            return Err(String::from("round trip: the bytes written differ from those read"));
        }
        Ok(())
    }

    /// Translating and then running leaves the memory, the registers and the count that carrying
    /// out leaves, for every accepted sheet whose tape is short enough; and its masks are right.
    fn tape_agrees(&mut self, case: &Case, carried: &Exit) -> Result<(), String> {
        let length = case.memory.len();
        let translated = self.same(Job::Translate, |jobs| {
            translate_exit(jobs, &case.sheet, length, TAPE_ROOM, MASK_ROOM)
        })?;
        let Ok(checked) = check(&case.sheet, length) else { return Ok(()) };
        // Told another length, it was refused before its room was looked at.
        if case.told_len == length {
            self.coverage.tape_room(&checked, case.tape_room);
        }
        if translated.returned != 0 {
            return Ok(());
        }
        let records = translated.records[0] as usize;
        let numbers = translated.tape()[..records * RECORD_NUMBERS].to_vec();
        let tape = Tape { numbers, records };
        let mut ran = self.same(Job::Run, |jobs| run_exit(jobs, case, &tape))?;
        ran.counts = carried.counts;
        if let Some(difference) = ran.difference(carried) {
            return Err(format!("the tape's run differs from carrying out in {difference}"));
        }
        self.coverage.tape(&checked, &tape);
        self.masks_agree(case, &checked, &translated)
    }

    /// The masks of an accepted sheet count their bits, and have them where an element has a byte
    /// and nowhere else.
    fn masks_agree(
        &mut self,
        case: &Case,
        checked: &Checked,
        translated: &Exit,
    ) -> Result<(), String> {
        let masks = translated.bytes();
        check_counts(masks, translated.answer[3])?;
        for place in places() {
            if self.same_touch(masks, place)? != has_byte(checked, place) {
                return Err(format!("the masks differ from the outcomes at {place:?}"));
            }
        }
        self.coverage.masks(checked);
        self.touches_agree(masks, &case.touches)
    }

    /// Both sides give the same answers from masks, and from those that end early.
    fn touches_agree(&mut self, masks: &[u8], places: &[Place]) -> Result<(), String> {
        for &place in places {
            for masks in areas(masks, place) {
                self.same_touch(masks, place)?;
            }
        }
        self.coverage.places(masks, places);
        Ok(())
    }

    /// Whether masks say on both sides that a place was touched.
    fn same_touch(&mut self, masks: &[u8], place: Place) -> Result<bool, String> {
        let [step, element] = place;
        let archive = self.archive.touched(masks, step, element);
        let reference = self.reference.touched(masks, step, element);
        if archive != reference {
            return Err(format!(
                "Touched: archive and reference differ in {archive} and {reference}, asked for step \
                 {step}, element {element} of {} bytes",
                masks.len()
            ));
        }
        self.coverage.touched(archive == 1);
        Ok(archive == 1)
    }

    /// The trace that is written for an accepted sheet agrees with it in a replay. Gives its
    /// accesses, none of a refused sheet.
    fn trace_agrees(&mut self, case: &Case) -> Result<Vec<Entry>, String> {
        self.same(Job::Trace, |jobs| trace_exit(jobs, case, case.trace_room))?;
        let own = check(&case.sheet, case.told_len).map(|checked| entries(&checked));
        for trace in &case.traces {
            self.coverage.replay(&own, case.told_len, trace);
        }
        let Ok(accesses) = &own else { return Ok(Vec::new()) };
        let length = ACCESS_LENGTH * accesses.len();
        self.coverage.trace_room(length, case.trace_room);
        let traced = self.same(Job::Trace, |jobs| trace_exit(jobs, case, length))?;
        let replayed = self.same(Job::Replay, |jobs| replay_exit(jobs, case, traced.bytes()))?;
        if replayed.verdict != AGREES {
            return Err(format!("a sheet's own trace differs: {:?}", replayed.verdict));
        }
        self.coverage.replay(&own, case.told_len, traced.bytes());
        Ok(read_trace(traced.bytes()).expect("it agrees"))
    }

    /// Both sides count the same divisions, or refuse alike.
    fn divisions_agree(&mut self, case: &Case) -> Result<(), String> {
        self.same(Job::Divisions, |jobs| divisions_exit(jobs, case))?;
        if let Ok(checked) = check(&case.sheet, case.told_len) {
            self.coverage.divisions(&checked);
        }
        Ok(())
    }

    /// Both sides give the same outcome of each element that is asked for, with the sort and the
    /// byte of the trace, and refuse alike where there is no element.
    fn outcomes_agree(&mut self, case: &Case, accesses: &[Entry]) -> Result<(), String> {
        for access in case.asked.of(accesses) {
            let place = [access.step, access.element].map(u32::from);
            let told = self.same_outcome(case, place)?;
            if !told.agrees(access) {
                return Err(format!("the trace has {access:?}, the outcome is {told:?}"));
            }
        }
        let refused = if let Ok(checked) = check(&case.sheet, case.told_len) {
            self.coverage.sides(&checked);
            no_elements(&checked)
        } else {
            vec![first_access(&read_sheet(&case.sheet).unwrap_or_default().steps)]
        };
        for place in case.asked.of(refused).chain([case.place]) {
            self.same_outcome(case, place)?;
        }
        Ok(())
    }

    /// The outcome at a place on both sides.
    fn same_outcome(&mut self, case: &Case, place: Place) -> Result<Told, String> {
        let told = |jobs| Told::by(jobs, &case.sheet, case.told_len, place);
        let (archive, reference) = (told(self.archive), told(self.reference));
        if archive != reference {
            let [step, element] = place;
            return Err(format!(
                "Outcome of step {step}, element {element}: archive and reference differ in \
                 {archive:?} and {reference:?}"
            ));
        }
        self.coverage.outcome(&archive.outcome);
        self.coverage.answer(Job::Outcome, &archive.answer, self.reference.cause());
        Ok(archive)
    }

    /// Each card that performs the stores of an accepted sheet in orders of its own leaves the
    /// memory, the registers and the count that carrying out leaves.
    fn orders_agree(&mut self, case: &Case, carried: &Exit) -> Result<(), String> {
        let Case { sheet, memory, orders, .. } = case;
        let Ok(checked) = self.stores.check(sheet, memory.len()) else { return Ok(()) };
        let cards = perform(self.stores, &checked, memory, *orders)?;
        for card in &cards {
            let left = Exit {
                returned: 0,
                answer: [0, 0, 0, card.byte_elements],
                state: State::of(&card.registers),
                ..Exit::lent(&card.memory, 0)
            };
            if let Some(difference) = left.difference(carried) {
                let order = card.order;
                return Err(format!("{order:?} order differs from carrying out in {difference}"));
            }
        }
        self.coverage.orders(&checked, &cards);
        Ok(())
    }

    /// Neighbouring stores are exchanged, two at a time.
    fn exchanges_agree(&mut self, case: &Case, carried: &Exit) -> Result<(), String> {
        let Ok(sheet) = read_sheet(&case.sheet) else { return Ok(()) };
        let firsts: Vec<usize> = case.asked.of(exchangeable(&sheet.steps)).collect();
        if firsts.is_empty() {
            return Ok(());
        }
        let length = case.memory.len();
        let before = self.same(Job::Check, |jobs| check_exit(jobs, &case.sheet, length))?.answer;
        let checked = check(&case.sheet, length);
        for first in firsts {
            let exchanged = sheet_bytes(&self.stores.exchanged(&sheet, first));
            self.exchange_is_judged_alike(&before, first, &exchanged, length)?;
            if let Ok(checked) = &checked {
                self.exchange_leaves_the_same(case, carried, checked, first, &exchanged)?;
            }
        }
        Ok(())
    }

    /// A sheet with two stores exchanged is accepted with the same count, or refused as well.
    fn exchange_is_judged_alike(
        &mut self,
        before: &Answer,
        first: usize,
        exchanged: &[u8],
        memory_len: usize,
    ) -> Result<(), String> {
        let after = self.same(Job::Check, |jobs| check_exit(jobs, exchanged, memory_len))?.answer;
        let is_alike = if before[0] == 0 { after == *before } else { after[0] != 0 };
        if !is_alike {
            return Err(format!("exchange of step {first}: {before:?} becomes {after:?}"));
        }
        if before[0] != 0 {
            self.coverage.refused_exchange(first, before, &after);
        }
        Ok(())
    }

    /// An accepted sheet with two stores exchanged that share no byte leaves the memory, the
    /// registers and the count that the sheet leaves.
    fn exchange_leaves_the_same(
        &mut self,
        case: &Case,
        carried: &Exit,
        checked: &Checked,
        first: usize,
        exchanged: &[u8],
    ) -> Result<(), String> {
        let left =
            self.same(Job::CarryOut, |jobs| carry_out_exit(jobs, exchanged, &case.memory))?;
        let written = [first, first + 1].map(|step| Written::by(checked, step));
        if !self.stores.share(&written) {
            if let Some(difference) = left.difference(carried) {
                return Err(format!("exchange of step {first}: the two differ in {difference}"));
            }
        }
        let leaves_another_memory = left.bytes() != carried.bytes();
        self.coverage.exchange(&Exchange { checked, first, written, leaves_another_memory });
        Ok(())
    }
}

#[cfg(test)]
mod tests {
    use super::*;

    /// The FNV-1a hash of some bytes.
    fn hash(bytes: impl Iterator<Item = u8>) -> u64 {
        bytes.fold(0xCBF2_9CE4_8422_2325, |hash, byte| {
            (hash ^ u64::from(byte)).wrapping_mul(0x0100_0000_01B3)
        })
    }

    #[test]
    fn a_seed_gives_an_edition_the_same_sheets_still() {
        let sheets = |edition| (0..1_000).flat_map(move |k| Case::of_seed(edition, 1, k).sheet);
        assert_eq!(hash(sheets(Edition::One)), 0xC95C_BF9F_4656_CA79);
        assert_eq!(hash(sheets(Edition::Two)), 0x075D_D235_26F5_0940);
        assert_eq!(hash(sheets(Edition::Three)), 0x9120_7847_CBC0_24A1);
    }
}
