//! Timings of the archive beside the reference: the same inputs, in turn, in one run.

use std::hint::black_box;
use std::time::{Duration, Instant};

use crate::generate::UNCLIPPED;
use crate::jobs::{Jobs, State, AGREES};
use crate::reference::{
    read_sheet, sheet_bytes, trace, ClampMode, Clip, Combine, Dimension, Edition, Interpretation,
    Kind, Layout, MemoryLayout, ReduceMode, Sheet, Step, VectorStep, View, ViewDimension,
    COMPONENTS_A_WORD, MASKS_LENGTH, MEMORY_MAX, RECORDS_MAX, RECORD_NUMBERS, SIDE_MAX,
};

/// A sample lasts at least so long, so that the clock's grain does not matter.
const SAMPLE: Duration = Duration::from_micros(500);
const STEPS: usize = 32;
/// The elements of a sheet's steps after its fill, each of a whole register.
const ELEMENTS: usize = (STEPS - 1) * SIDE_MAX * SIDE_MAX;
/// Spans for the elements of a 16 by 16 matrix: none to four leading ones of 1, three between.
const SPANS: [[u16; 5]; 6] = [
    [2, 2, 4, 4, 4],
    [1, 4, 4, 4, 4],
    [1, 1, 4, 8, 8],
    [1, 1, 1, 16, 16],
    [1, 1, 1, 1, 256],
    [16, 1, 1, 1, 16],
];

/// Prints the medians and their ratios.
pub fn bench(archive: &dyn Jobs, reference: &dyn Jobs, samples: usize) {
    println!(
        "medians of {samples} samples in turn; memory and rooms are not cleared between calls"
    );
    println!(
        "{:<24}{:<12}{:>12}{:>14}{:>8}",
        "sheet", "job", "archive us", "reference us", "ratio"
    );
    for (name, sheet) in named_sheets() {
        bench_sheet(name, &sheet, archive, reference, samples);
    }
    println!("\ncarry_out of {STEPS} steps, a fill and loads, by the side of the matrix");
    println!(
        "{:<8}{:>10}{:>16}{:>18}{:>8}",
        "side", "elements", "archive ns/el", "reference ns/el", "ratio"
    );
    for side in [1, 2, 4, 8, 12, 16] {
        bench_side(side, archive, reference, samples);
    }
    println!("\ncarry_out of {STEPS} steps, a fill and 16 by 16 loads, by the spans of the layout");
    println!(
        "{:<14}{:>14}{:>16}{:>18}{:>8}",
        "spans", "divisions/el", "archive ns/el", "reference ns/el", "ratio"
    );
    for spans in SPANS {
        bench_spans(spans, archive, reference, samples);
    }
    println!();
    bench_sides(archive, reference, samples);
}

/// Prints the table of what lies outside.
pub fn bench_sides(archive: &dyn Jobs, reference: &dyn Jobs, samples: usize) {
    println!(
        "carry_out of {STEPS} steps, a fill and 16 by 16 loads or stores, by what lies outside"
    );
    println!("{:<40}{:>14}{:>18}{:>8}", "sheet", "archive ns/el", "reference ns/el", "ratio");
    for (name, sheet) in sheets_by_sides() {
        let mut bench = Bench::new(&sheet, reference);
        let [one, other] = bench.carry_out_an_element([archive, reference], ELEMENTS, samples);
        println!("{name:<40}{one:>14.2}{other:>18.2}{:>8.2}", one / other);
    }
}

fn bench_sheet(name: &str, sheet: &[u8], archive: &dyn Jobs, reference: &dyn Jobs, samples: usize) {
    let mut bench = Bench::new(sheet, reference);
    for (job, call) in [
        ("read", Bench::read as fn(&mut Bench, &dyn Jobs)),
        ("carry_out", Bench::carry_out),
        ("translate", Bench::translate),
        ("run_tape", Bench::run),
        ("trace", Bench::trace),
        ("replay", Bench::replay),
        ("divisions", Bench::divisions),
    ] {
        let [one, other] = bench.medians([archive, reference], call, samples);
        let ratio = one / other;
        println!("{name:<24}{job:<12}{:>12.2}{:>14.2}{ratio:>8.2}", one * 1e6, other * 1e6);
    }
}

fn bench_side(side: usize, archive: &dyn Jobs, reference: &dyn Jobs, samples: usize) {
    let sheet = sheet_bytes(&plain_loads(side));
    let elements = (STEPS - 1) * side * side;
    let mut bench = Bench::new(&sheet, reference);
    let [one, other] = bench.carry_out_an_element([archive, reference], elements, samples);
    println!("{side:<8}{elements:>10}{one:>16.2}{other:>18.2}{:>8.2}", one / other);
}

fn bench_spans(spans: [u16; 5], archive: &dyn Jobs, reference: &dyn Jobs, samples: usize) {
    let sheet = sheet_bytes(&loads_by_spans(spans));
    let mut bench = Bench::new(&sheet, reference);
    let [counted, expected] = [archive, reference].map(|jobs| {
        bench.divisions(jobs);
        bench.answer
    });
    assert_eq!(counted, expected, "divisions of spans {spans:?}");
    let divisions = f64::from(counted[3]) / ELEMENTS as f64;
    let [one, other] = bench.carry_out_an_element([archive, reference], ELEMENTS, samples);
    let (spans, ratio) = (spaced(spans), one / other);
    println!("{spans:<14}{divisions:>14.2}{one:>16.2}{other:>18.2}{ratio:>8.2}");
}

/// The lent arrays of one sheet's calls.
struct Bench {
    sheet: Vec<u8>,
    memory: Vec<u8>,
    room: Vec<i32>,
    masks: Vec<u8>,
    tape: Vec<i32>,
    /// A room that the trace fits.
    trace_room: Vec<u8>,
    trace: Vec<u8>,
    state: State,
    answer: [u32; 4],
}

impl Bench {
    fn new(sheet: &[u8], reference: &dyn Jobs) -> Bench {
        let (mut room, mut masks) = (vec![0; RECORDS_MAX * RECORD_NUMBERS], vec![0; MASKS_LENGTH]);
        let (mut records, mut answer) = ([0], [0; 4]);
        reference.translate(sheet, MEMORY_MAX, &mut room, &mut masks, &mut records, &mut answer);
        assert_eq!(answer[0], 0, "a sheet of the timings is refused");
        let tape = room[..records[0] as usize * RECORD_NUMBERS].to_vec();
        let memory = (0..MEMORY_MAX).map(|i| (i * 7 + i / 251) as u8).collect();
        let trace = trace(sheet, MEMORY_MAX, usize::MAX).expect("accepted");
        Bench {
            sheet: sheet.to_vec(),
            memory,
            room,
            masks,
            tape,
            trace_room: trace.clone(),
            trace,
            state: State::EMPTY,
            answer,
        }
    }

    fn read(&mut self, jobs: &dyn Jobs) {
        let mut counts = [0; 3];
        jobs.read(&self.sheet, &mut counts, &mut self.answer);
    }

    fn carry_out(&mut self, jobs: &dyn Jobs) {
        jobs.carry_out(&self.sheet, &mut self.memory, &mut self.state, &mut self.answer);
    }

    fn translate(&mut self, jobs: &dyn Jobs) {
        let Bench { sheet, room, masks, answer, .. } = self;
        jobs.translate(sheet, MEMORY_MAX, room, masks, &mut [0], answer);
    }

    fn run(&mut self, jobs: &dyn Jobs) {
        let records = self.tape.len() / RECORD_NUMBERS;
        let memory = &mut self.memory;
        jobs.run(&self.sheet, &self.tape, records, memory, &mut self.state, &mut self.answer);
    }

    fn trace(&mut self, jobs: &dyn Jobs) {
        jobs.trace(&self.sheet, MEMORY_MAX, &mut self.trace_room, &mut self.answer);
    }

    fn replay(&mut self, jobs: &dyn Jobs) {
        let mut verdict = [0; 2];
        jobs.replay(&self.sheet, MEMORY_MAX, &self.trace, &mut verdict, &mut self.answer);
        assert_eq!(verdict, AGREES, "a trace of the timings differs");
    }

    fn divisions(&mut self, jobs: &dyn Jobs) {
        jobs.divisions(&self.sheet, MEMORY_MAX, &mut self.answer);
    }

    /// The median time of carrying out on each side, in nanoseconds an element.
    fn carry_out_an_element(
        &mut self,
        sides: [&dyn Jobs; 2],
        elements: usize,
        samples: usize,
    ) -> [f64; 2] {
        let medians = self.medians(sides, Bench::carry_out, samples);
        medians.map(|seconds| seconds * 1e9 / elements as f64)
    }

    /// The median time of a call of each side, in seconds; the sides take turns.
    fn medians(
        &mut self,
        sides: [&dyn Jobs; 2],
        call: fn(&mut Bench, &dyn Jobs),
        samples: usize,
    ) -> [f64; 2] {
        let calls = sides.map(|jobs| self.calls_a_sample(jobs, call));
        let mut times = [Vec::new(), Vec::new()];
        for _ in 0..samples {
            for side in 0..2 {
                let start = Instant::now();
                for _ in 0..calls[side] {
                    call(black_box(self), sides[side]);
                }
                times[side].push(start.elapsed().as_secs_f64() / f64::from(calls[side]));
            }
        }
        assert_eq!(self.answer[0], 0, "a sheet of the timings is refused");
        times.map(median)
    }

    fn calls_a_sample(&mut self, jobs: &dyn Jobs, call: fn(&mut Bench, &dyn Jobs)) -> u32 {
        let mut calls = 1;
        loop {
            let start = Instant::now();
            for _ in 0..calls {
                call(black_box(self), jobs);
            }
            if start.elapsed() >= SAMPLE {
                return calls;
            }
            calls *= 2;
        }
    }
}

fn median(mut times: Vec<f64>) -> f64 {
    times.sort_by(f64::total_cmp);
    times[times.len() / 2]
}

/// The sheets of the timings of an edition, those of smaller matrices aside.
pub fn timed_sheets(edition: Edition) -> Vec<(String, Vec<u8>)> {
    let is_own =
        |(_, sheet): &(String, Vec<u8>)| read_sheet(sheet).expect("accepted").edition == edition;
    all_timed_sheets().into_iter().filter(is_own).collect()
}

fn all_timed_sheets() -> Vec<(String, Vec<u8>)> {
    let by_spans = SPANS
        .map(|spans| (format!("spans {}", spaced(spans)), sheet_bytes(&loads_by_spans(spans))));
    let named = named_sheets().into_iter().map(|(name, sheet)| (String::from(name), sheet));
    named.chain(by_spans).chain(sheets_by_sides()).collect()
}

fn spaced(spans: [u16; 5]) -> String {
    spans.map(|span| span.to_string()).join(" ")
}

/// The sheets whose jobs are all timed, each of 32 steps.
fn named_sheets() -> Vec<(&'static str, Vec<u8>)> {
    [
        ("plain 16 by 16 loads", plain_loads(16)),
        ("padded loads", padded_loads()),
        ("5-dimensional views", five_dimensional_views()),
        ("stores", stores()),
        ("multiply-adds", multiply_adds()),
        ("mixed", mixed()),
        ("16 by 16 vectors", vectors(16, Interpretation::Plain(Kind::S8))),
        ("16 by 16 packed vectors", vectors(16, Interpretation::Packed(Kind::S8))),
        ("4 by 4 vectors", vectors(4, Interpretation::Plain(Kind::S8))),
        ("clipped loads", clipped_loads(Edition::Two)),
        ("clipped loads on zeros", clipped_loads(Edition::Three)),
    ]
    .map(|(name, sheet)| {
        assert_eq!(sheet.steps.len(), STEPS);
        (name, sheet_bytes(&sheet))
    })
    .into()
}

fn dimension(size: u16, stride: u16) -> Dimension {
    Dimension { block_size: 1, size, stride, offset: 0, span: size }
}

fn layout(clamp_mode: ClampMode, dimensions: Vec<Dimension>) -> Layout {
    Layout { clamp_mode, clamp_value: 0, dimensions }
}

/// Rows and columns one after the other.
fn square_layout(side: usize) -> Layout {
    let side = side as u16;
    layout(ClampMode::Undefined, vec![dimension(side, side), dimension(side, 1)])
}

fn fill(register: usize, side: usize, kind: u8) -> Step {
    Step::Fill { register, rows: side, columns: side, kind: Kind(kind), value: 3 }
}

fn load(register: usize, view: Option<usize>, base: u32) -> Step {
    Step::Load { register, object: None, layout: 0, view, base }
}

fn store(register: usize, base: u32) -> Step {
    Step::Store { register, layout: 0, view: None, base }
}

/// The base of a step: another kilobyte for each.
fn base(step: usize) -> u32 {
    1_024 * step as u32
}

/// A fill of a register and loads of it.
fn fill_and_loads(side: usize, kind: u8, view: Option<usize>) -> Vec<Step> {
    let mut steps = vec![fill(0, side, kind)];
    steps.extend((1..STEPS).map(|step| load(0, view, base(step))));
    steps
}

fn plain_loads(side: usize) -> Sheet {
    let steps = fill_and_loads(side, 0, None);
    Sheet { layouts: vec![square_layout(side)], steps, ..Sheet::default() }
}

/// Loads of whole registers through a layout.
fn loads_through(layout: Layout) -> Sheet {
    Sheet { layouts: vec![layout], ..plain_loads(SIDE_MAX) }
}

/// Dimensions as long as their spans, one after the other.
fn row_major(spans: &[u16]) -> Vec<Dimension> {
    let mut dimensions: Vec<Dimension> = spans.iter().map(|&span| dimension(span, 1)).collect();
    for i in (1..spans.len()).rev() {
        dimensions[i - 1].stride = dimensions[i].stride * spans[i];
    }
    dimensions
}

fn loads_by_spans(spans: [u16; 5]) -> Sheet {
    loads_through(layout(ClampMode::Undefined, row_major(&spans)))
}

/// Loads whose elements are all inside, in part or all outside in one dimension, or mirrored in
/// every one; and stores that are outside in part. Their runs are long enough for a tape.
fn sheets_by_sides() -> Vec<(String, Vec<u8>)> {
    let square: &[u16] = &[16, 16];
    let mut sheets = Vec::new();
    for spans in [square, &SPANS[0]] {
        let (middle, last) = (spans.len() / 2, spans.len() - 1);
        for (name, layout) in [
            ("inside", moved(spans, last, 0)),
            ("a quarter filled", moved(spans, middle, -1)),
            ("all filled", moved(spans, last, 4)),
            ("all mirrored", mirrored(spans)),
        ] {
            let name = format!("loads, {} dimensions, {name}", spans.len());
            sheets.push((name, sheet_bytes(&loads_through(layout))));
        }
    }
    let discarding = Sheet { layouts: vec![moved(square, 1, 2)], ..stores() };
    sheets.push((String::from("stores, 2 dimensions, half discarded"), sheet_bytes(&discarding)));
    sheets
}

/// A layout in which the coordinates of one dimension are moved by so many quarters of its size.
fn moved(spans: &[u16], moved: usize, quarters: i16) -> Layout {
    let mut dimensions = row_major(spans);
    dimensions[moved].offset = quarters * spans[moved] as i16 / 4;
    layout(ClampMode::Constant, dimensions)
}

/// A layout in which every coordinate is outside, and mirrored onto the spans in reverse.
fn mirrored(spans: &[u16]) -> Layout {
    let mut dimensions = row_major(spans);
    for dimension in &mut dimensions {
        dimension.size += 1;
        dimension.offset = dimension.size as i16;
    }
    layout(ClampMode::MirrorRepeat, dimensions)
}

/// A quarter of the rows lies outside and is mirrored.
fn padded_loads() -> Sheet {
    let rows = Dimension { offset: -2, span: 16, ..dimension(12, 16) };
    loads_through(layout(ClampMode::MirrorRepeat, vec![rows, dimension(16, 1)]))
}

fn five_dimensional_views() -> Sheet {
    let sizes = [2, 2, 2, 4, 8];
    let strides = [128, 64, 32, 8, 1];
    let dimensions = sizes.iter().zip(strides).map(|(&size, stride)| dimension(size, stride));
    let view = View {
        permutation: vec![2, 0, 1, 3, 4],
        dimensions: Some(
            sizes
                .iter()
                .zip(strides)
                .map(|(&size, stride)| ViewDimension { size, stride })
                .collect(),
        ),
        clip: UNCLIPPED,
    };
    let steps = fill_and_loads(16, 2, Some(0));
    let layouts = vec![layout(ClampMode::Undefined, dimensions.collect())];
    Sheet { layouts, views: vec![view], steps, ..Sheet::default() }
}

/// Loads without an object that skip the left half, which the edition keeps or makes 0.
fn clipped_loads(edition: Edition) -> Sheet {
    let clip = Clip { column_offset: SIDE_MAX as u16 / 2, ..UNCLIPPED };
    let view = View { permutation: vec![0, 1], dimensions: None, clip };
    let steps = fill_and_loads(SIDE_MAX, 0, Some(0));
    Sheet { edition, layouts: vec![square_layout(SIDE_MAX)], views: vec![view], steps }
}

fn stores() -> Sheet {
    let mut steps = vec![fill(0, 16, 4)];
    steps.extend((1..STEPS).map(|step| store(0, base(step))));
    Sheet { layouts: vec![square_layout(16)], steps, ..Sheet::default() }
}

fn multiply_adds() -> Sheet {
    let mut steps = vec![fill(0, 16, 1), fill(1, 16, 0), fill(2, 16, 5)];
    steps.resize(STEPS, Step::MultiplyAdd { result: 2, a: 0, b: 1, c: 2 });
    Sheet { steps, ..Sheet::default() }
}

/// Loads of both operands, a multiply-add, a reduction, a transposition and a store, in turn.
fn mixed() -> Sheet {
    let mut steps = vec![fill(0, 16, 1), fill(1, 16, 0), fill(2, 16, 5)];
    for step in 0.. {
        if steps.len() >= STEPS {
            break;
        }
        steps.extend([
            load(0, None, base(2 * step)),
            load(1, None, base(2 * step + 1)),
            Step::MultiplyAdd { result: 2, a: 0, b: 1, c: 2 },
            Step::Reduce {
                result: 3,
                source: 2,
                rows: 16,
                columns: 16,
                mode: ReduceMode::Row,
                combine: Combine::Add,
            },
            Step::Transpose { result: 3, source: 3 },
            store(3, base(32 + step)),
        ]);
    }
    steps.truncate(STEPS);
    Sheet { layouts: vec![square_layout(16)], steps, ..Sheet::default() }
}

/// Vector steps by matrices of u8 and of s8 in turn, each with a bias behind its matrix.
fn vectors(side: usize, interpretation: Interpretation) -> Sheet {
    let (kind, rows) = match interpretation {
        Interpretation::Plain(_) => (Kind::S32, side),
        Interpretation::Packed(_) => (Kind::U32, side.div_ceil(COMPONENTS_A_WORD)),
    };
    let fill = Step::Fill { register: 0, rows, columns: 1, kind, value: 0x80FF_0403 };
    let vector = |step: usize| VectorStep {
        result: 1,
        kind: Kind::S32,
        input: 0,
        interpretation,
        matrix: if step.is_multiple_of(2) { Kind::U8 } else { Kind::S8 },
        m: side,
        k: side,
        layout: MemoryLayout::RowMajor,
        stride: side as u16,
        offset: base(step),
        bias: Some(base(step) + (side * side) as u32),
    };
    let mut steps = vec![fill];
    steps.extend((1..STEPS).map(|step| Step::Vector(vector(step))));
    Sheet { edition: Edition::Two, steps, ..Sheet::default() }
}

#[cfg(test)]
mod tests {
    use super::*;
    use crate::jobs::Reference;
    use crate::reference::{check, Outcome};

    #[test]
    fn the_sheets_of_the_timings_are_accepted() {
        for (name, sheet) in all_timed_sheets() {
            let mut bench = Bench::new(&sheet, &Reference::default());
            for call in [Bench::run, Bench::trace, Bench::replay, Bench::divisions] {
                call(&mut bench, &Reference::default());
                assert_eq!(bench.answer[0], 0, "{name}");
            }
        }
    }

    /// How many elements are filled and discarded, each outside in one dimension, and how many
    /// are placed from outside in every dimension.
    fn outside(sheet: &[u8]) -> [usize; 3] {
        let checked = check(sheet, MEMORY_MAX).expect("accepted");
        let mut counts = [0; 3];
        for (addressing, outcomes) in checked.addressings() {
            let dimensions = addressing.layout.dimensions.len();
            for (element, outcome) in outcomes.iter().enumerate() {
                let index = addressing.index(element).expect("accepted").expect("no view");
                match (outcome, addressing.all_outside(index).count()) {
                    (Outcome::Filled(_), 1) => counts[0] += 1,
                    (Outcome::Discarded, 1) => counts[1] += 1,
                    (Outcome::Placed(_), count) if count == dimensions => counts[2] += 1,
                    (Outcome::Placed(_), 0) => {}
                    other => panic!("{other:?}"),
                }
            }
        }
        counts
    }

    #[test]
    fn clipped_loads_skip_half_of_their_elements() {
        for edition in [Edition::Two, Edition::Three] {
            let checked = check(&sheet_bytes(&clipped_loads(edition)), MEMORY_MAX);
            let checked = checked.expect("accepted");
            let outcomes = checked.outcomes.iter().flatten();
            assert_eq!(outcomes.filter(|o| **o == Outcome::Skipped).count(), ELEMENTS / 2);
            assert_eq!(checked.byte_elements() as usize, ELEMENTS / 2);
        }
    }

    #[test]
    fn what_lies_outside_is_as_named() {
        for (name, sheet) in sheets_by_sides() {
            let expected = match name.rsplit(", ").next().expect("a name") {
                "inside" => [0, 0, 0],
                "a quarter filled" => [ELEMENTS / 4, 0, 0],
                "all filled" => [ELEMENTS, 0, 0],
                "all mirrored" => [0, 0, ELEMENTS],
                "half discarded" => [0, ELEMENTS / 2, 0],
                other => panic!("{other}"),
            };
            assert_eq!(outside(&sheet), expected, "{name}");
        }
    }
}
