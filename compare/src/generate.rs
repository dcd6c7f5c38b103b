//! Random sheets, most of which are accepted for their memory length.

use crate::random::Random;
use crate::reference::{
    check, check_step, sheet_bytes, whole_type, Cause, Checked, ClampMode, Clip, Combine,
    Dimension, Edition, Interpretation, Kind, Layout, MemoryLayout, Outcome, ReduceMode, Sheet,
    Start, Step, Type, Types, VectorStep, View, ViewDimension, BIAS_SIZE, COMPONENTS_A_WORD,
    MEMORY_MAX, REGISTERS, SIDE_MAX, STEPS_MAX,
};

/// The most words of a packed input.
const WORDS_MAX: usize = SIDE_MAX.div_ceil(COMPONENTS_A_WORD);
/// Clip numbers that clip nothing.
pub const UNCLIPPED: Clip =
    Clip { row_offset: 0, row_span: 65_535, column_offset: 0, column_span: 65_535 };

/// A sheet and the length of the memory that it is for.
pub struct Generated {
    pub sheet: Vec<u8>,
    pub memory_len: usize,
}

/// A random sheet of an edition. About one in four is made to keep a step that gets a refusal of
/// its choice.
pub fn generate(random: &mut Random, edition: Edition) -> Generated {
    let memory_len = memory_length(random);
    let wanted = wanted_refusal(random, edition);
    let mut sheet = Sheet { edition, ..Sheet::default() };
    if let Some(number) = wanted {
        prepare(random, &mut sheet, number);
    }
    for _ in 0..random.pick(&[1, 1, 1, 1, 2, 2, 3, 0]) {
        sheet.layouts.push(layout(random));
    }
    for _ in 0..random.pick(&[0, 0, 1, 1, 2, 3]) {
        let view = view(random, &sheet.layouts);
        sheet.views.push(view);
    }
    let count = step_count(random);
    StepMaker { random, types: Types::default(), memory_len: memory_len.min(MEMORY_MAX) }
        .add_steps(&mut sheet, count, wanted);
    let sheet = sheet_bytes(&sheet);
    let memory_len = if random.percent(20) { tight(random, &sheet) } else { memory_len };
    Generated { sheet, memory_len }
}

/// A random sheet of accepted steps through one layout. Some of its leading dimensions are inside,
/// so that elements are outside in a later one first; now and then the first has a span of 1.
pub fn partly_outside(random: &mut Random, edition: Edition) -> Generated {
    let count = random.pick(&[1, 2, 3, 4, 5, 5, 5]);
    let mut dimensions = padded_dimensions(random, count);
    for dimension in &mut dimensions[..random.below(count)] {
        dimension.offset = 0;
        dimension.span = dimension.size;
    }
    if random.percent(20) {
        dimensions[0].span = 1;
    }
    let clamp_mode = random.pick(&[
        ClampMode::Constant,
        ClampMode::ClampToEdge,
        ClampMode::Repeat,
        ClampMode::MirrorRepeat,
    ]);
    let layouts = vec![Layout { clamp_mode, clamp_value: random.bits() as u32, dimensions }];
    let mut sheet = Sheet { edition, layouts, ..Sheet::default() };
    let count = step_count(random);
    StepMaker { random, types: Types::default(), memory_len: MEMORY_MAX }
        .add_steps(&mut sheet, count, None);
    Generated { sheet: sheet_bytes(&sheet), memory_len: MEMORY_MAX }
}

/// The refusal that a step is to get, if any. Where there are vector steps, those that they can
/// get come more often, for them and for the others.
fn wanted_refusal(random: &mut Random, edition: Edition) -> Option<u32> {
    if edition.has_vectors() {
        let numbers = [7, 7, 8, 8, 8, 9, 10, 11, 12, 13, 14, 14, 15];
        return random.percent(30).then(|| random.pick(&numbers));
    }
    random.percent(25).then(|| random.between(7, 15) as u32)
}

/// A layout or a view that a refusal of steps needs and that is rare otherwise.
pub fn prepare(random: &mut Random, sheet: &mut Sheet, number: u32) {
    match number {
        10 => {
            let count = random.between(1, 5);
            sheet.views.push(view_of_spans(random, count));
        }
        11 => sheet.layouts.push(layout_with_blocks(random)),
        12 => {
            let (layout, view) = wide_pair(random);
            sheet.layouts.push(layout);
            sheet.views.push(view);
        }
        13 => {
            let count = random.between(1, 4);
            sheet.layouts.push(Layout {
                clamp_mode: ClampMode::Undefined,
                clamp_value: 0,
                dimensions: padded_dimensions(random, count),
            });
        }
        15 => sheet.layouts.push(layout_with_shared_bytes(random)),
        _ => {}
    }
}

fn view_of_spans(random: &mut Random, count: usize) -> View {
    View { permutation: permutation(random, count), dimensions: None, clip: clip(random) }
}

fn layout_with_blocks(random: &mut Random) -> Layout {
    let mut dimensions = plain_dimensions(random, 2);
    dimensions[random.below(2)].block_size = random.pick(&[2, 4_096]);
    Layout { clamp_mode: ClampMode::Constant, clamp_value: 0, dimensions }
}

fn layout_with_shared_bytes(random: &mut Random) -> Layout {
    let clamp_mode = random.pick(&[ClampMode::Undefined, ClampMode::Repeat]);
    let count = random.between(1, 3);
    let mut dimensions = plain_dimensions(random, count);
    dimensions[0].stride = random.below(3) as u16;
    Layout { clamp_mode, clamp_value: 0, dimensions }
}

/// Spans of which all but the first make 2^32 - 16, and a permutation in which the first
/// dimension runs fastest and the last next: element 31 has index 2^32 - 1, element 33 has 2^32.
const EDGE_SPANS: [u16; 5] = [2, 2_032, 3_277, 1, 645];
const EDGE_PERMUTATION: [usize; 5] = [1, 2, 3, 4, 0];

/// A layout and a view that make indices near 2^32: an outermost dimension runs fastest.
fn wide_pair(random: &mut Random) -> (Layout, View) {
    let clamp_mode = random.pick(&[ClampMode::Undefined, ClampMode::ClampToEdge]);
    let mut dimensions = wide_dimensions(random);
    let mut view = view_of_spans(random, 5);
    if random.percent(40) {
        for (dimension, span) in dimensions.iter_mut().zip(EDGE_SPANS) {
            dimension.span = span;
        }
        view.permutation = EDGE_PERMUTATION.to_vec();
        view.clip = UNCLIPPED;
    } else {
        let outer = view.permutation.iter().position(|&i| i < 2).expect("there are two");
        view.permutation.swap(outer, 4);
    }
    (Layout { clamp_mode, clamp_value: 0, dimensions }, view)
}

/// A sheet whose tape has as many records as a tape may have, or nearly: loads of bytes 0 1 0 1 ..,
/// each two elements a run.
pub fn many_records(random: &mut Random, edition: Edition) -> Vec<u8> {
    let other = random.between(900, 1_100);
    let mut missing = random.pick(&[1_023, 1_024, 1_024, 1_025, other]);
    let zigzag = Dimension { block_size: 1, size: 2, stride: 1, offset: 0, span: 256 };
    let layout =
        Layout { clamp_mode: ClampMode::MirrorRepeat, clamp_value: 0, dimensions: vec![zigzag] };
    let mut sheet = Sheet { edition, layouts: vec![layout], ..Sheet::default() };
    // The records before a load's runs, that of its register's fill aside.
    let zeros = usize::from(edition.start(None) == Start::Zeros);
    while missing > 0 {
        let register = random.below(REGISTERS);
        let kind = Kind(random.below(6) as u8);
        let runs = missing.saturating_sub(1 + zeros).min(128);
        let (rows, columns) = if runs < 8 { (1, (2 * runs).max(1)) } else { (runs / 8, 16) };
        sheet.steps.push(Step::Fill { register, rows, columns, kind, value: 0 });
        if runs > 0 {
            let base = 16 * random.below(4_096) as u32;
            sheet.steps.push(Step::Load { register, object: None, layout: 0, view: None, base });
            missing -= zeros;
        }
        missing -= 1 + if runs < 8 { runs } else { runs / 8 * 8 };
    }
    sheet_bytes(&sheet)
}

fn memory_length(random: &mut Random) -> usize {
    match random.below(100) {
        0..=29 => MEMORY_MAX,
        30..=59 => random.between(256, 4_096),
        60..=79 => random.between(4_096, MEMORY_MAX),
        80..=92 => random.between(1, 255),
        93..=95 => 0,
        96..=97 => MEMORY_MAX + 1,
        _ => random.between(MEMORY_MAX - 2, MEMORY_MAX + 4_096),
    }
}

fn step_count(random: &mut Random) -> usize {
    match random.below(100) {
        0..=2 => 0,
        3..=69 => random.between(1, 8),
        70..=94 => random.between(6, 20),
        _ => 32,
    }
}

/// The shortest memory that holds every element's bytes, or a byte less or more.
fn tight(random: &mut Random, sheet: &[u8]) -> usize {
    let Ok(checked) = check(sheet, MEMORY_MAX) else {
        return MEMORY_MAX;
    };
    let fits = |length: &usize| check(sheet, *length).is_ok();
    let enough = ends(&checked).max().unwrap_or(0).min(MEMORY_MAX);
    let shortest = (enough.saturating_sub(4)..=enough).find(fits).unwrap_or(enough);
    match random.below(4) {
        0 => shortest.saturating_sub(1),
        1 => (shortest + 1).min(MEMORY_MAX),
        _ => shortest,
    }
}

/// Where the elements of an accepted sheet end at the latest.
fn ends(checked: &Checked) -> impl Iterator<Item = usize> + '_ {
    let placed = checked.outcomes.iter().flatten().filter_map(|outcome| match outcome {
        Outcome::Placed(byte) => Some(byte + 4),
        _ => None,
    });
    let read = checked.sheet.steps.iter().filter_map(|step| match step {
        Step::Vector(vector) => Some(end(vector)),
        _ => None,
    });
    placed.chain(read)
}

/// Where the last of the bytes that a vector step reads ends.
fn end(vector: &VectorStep) -> usize {
    vector.places().map(|place| place.end as usize).max().expect("a matrix has elements")
}

pub fn layout(random: &mut Random) -> Layout {
    let count = random.pick(&[1, 1, 1, 2, 2, 2, 3, 3, 4, 5]);
    let clamp_mode = random.pick(&[
        ClampMode::Undefined,
        ClampMode::Constant,
        ClampMode::Constant,
        ClampMode::ClampToEdge,
        ClampMode::Repeat,
        ClampMode::MirrorRepeat,
        ClampMode::MirrorRepeat,
    ]);
    let clamp_value = random.bits() as u32 >> random.pick(&[0, 0, 16, 24, 31]);
    let dimensions = match random.below(100) {
        0..=39 => plain_dimensions(random, count),
        40..=79 => padded_dimensions(random, count),
        80..=87 => wide_dimensions(random),
        _ => (0..count).map(|_| extreme_dimension(random)).collect(),
    };
    Layout { clamp_mode, clamp_value, dimensions }
}

/// Sizes whose product is at most about a matrix, spans equal to them, row-major strides.
fn plain_dimensions(random: &mut Random, count: usize) -> Vec<Dimension> {
    let largest = [256, 16, 8, 5, 4][count - 1];
    let mut dimensions = Vec::new();
    let mut stride: usize = if random.percent(15) { 2 } else { 1 };
    for _ in 0..count {
        let size = random.between(1, largest);
        dimensions.push(Dimension {
            block_size: 1,
            size: size as u16,
            stride: stride.min(65_535) as u16,
            offset: 0,
            span: size as u16,
        });
        stride *= size;
    }
    dimensions.reverse();
    dimensions
}

/// Plain dimensions with offsets, longer spans and now and then blocks or other strides.
fn padded_dimensions(random: &mut Random, count: usize) -> Vec<Dimension> {
    let blocks = random.percent(15);
    let small = random.percent(30);
    let mut dimensions = plain_dimensions(random, count);
    for dimension in &mut dimensions {
        if small {
            dimension.size = random.between(1, 3) as u16;
        }
        dimension.offset = random.between(0, 8) as i16 - 4;
        dimension.span = (usize::from(dimension.size) + random.below(6)) as u16;
        if blocks {
            dimension.block_size = random.between(1, 4) as u16;
        }
        if random.percent(5) {
            dimension.stride = random.below(20) as u16;
        }
    }
    dimensions
}

/// Long spans and hardly any stride: through a permuted view without dimensions the index comes
/// close to 2^32 or goes past it.
fn wide_dimensions(random: &mut Random) -> Vec<Dimension> {
    let mut dimension = || Dimension {
        block_size: 1,
        size: random.pick(&[4_095, 4_096]),
        stride: random.pick(&[0, 0, 1, 2]),
        offset: random.pick(&[-1, 0, 0, 0, 0, 0, 0, 0]),
        span: random.pick(&[2, 16, 64, 128, 256, 2_048, 4_095, 4_096, 4_096]),
    };
    (0..5).map(|_| dimension()).collect()
}

fn extreme_dimension(random: &mut Random) -> Dimension {
    let extents = [1, 1, 2, 3, 7, 64, 4_095, 4_096];
    Dimension {
        block_size: random.pick(&[1, 1, 1, 1, 2, 4_096]),
        size: random.pick(&extents),
        stride: random.pick(&[0, 1, 1, 2, 3, 16, 255, 65_535]),
        offset: random.pick(&[-4_096, -4_095, -100, -1, 0, 0, 0, 0, 1, 100, 4_095]),
        span: random.pick(&extents),
    }
}

pub fn view(random: &mut Random, layouts: &[Layout]) -> View {
    let has_dimensions = random.percent(50);
    let count = if has_dimensions || layouts.is_empty() || random.percent(10) {
        random.between(1, 5)
    } else {
        layouts[random.below(layouts.len())].dimensions.len()
    };
    View {
        permutation: permutation(random, count),
        dimensions: has_dimensions.then(|| view_dimensions(random, count)),
        clip: clip(random),
    }
}

fn permutation(random: &mut Random, count: usize) -> Vec<usize> {
    let mut entries: Vec<usize> = (0..count).collect();
    if random.percent(70) {
        random.shuffle(&mut entries);
    }
    entries
}

fn view_dimensions(random: &mut Random, count: usize) -> Vec<ViewDimension> {
    let largest = [256, 16, 8, 5, 4][count - 1];
    let mut dimensions = Vec::new();
    let mut stride = 1;
    for _ in 0..count {
        let size = random.between(1, largest);
        let other = random.pick(&[0, 1, 2, 5, 17, 4_096, 65_535]);
        let stride_here = if random.percent(10) { other } else { stride.min(65_535) as u16 };
        let size_here = if random.percent(3) { 4_096 } else { size as u16 };
        dimensions.push(ViewDimension { size: size_here, stride: stride_here });
        stride *= size;
    }
    dimensions.reverse();
    dimensions
}

fn clip(random: &mut Random) -> Clip {
    if random.percent(40) {
        return UNCLIPPED;
    }
    let mut offset = || random.pick(&[0, 0, 0, 1, 2, 3, 7, 15, 16, 65_535]);
    let (row_offset, column_offset) = (offset(), offset());
    let mut span = || random.pick(&[0, 1, 2, 3, 4, 8, 15, 16, 17, 65_535, 65_535]);
    Clip { row_offset, row_span: span(), column_offset, column_span: span() }
}

/// Makes steps, knowing the types that the steps so far leave.
pub struct StepMaker<'a> {
    pub random: &'a mut Random,
    pub types: Types,
    pub memory_len: usize,
}

impl StepMaker<'_> {
    /// Adds accepted steps until there are enough of them; where a refusal is wanted, somewhere
    /// among them the first proposed step that gets it.
    pub fn add_steps(&mut self, sheet: &mut Sheet, count: usize, wanted: Option<u32>) {
        let accepted = if wanted.is_some() { self.random.below(count + 1) } else { count };
        self.add_until(sheet, accepted, None);
        if wanted.is_some() {
            self.add_until(sheet, accepted + 1, wanted);
            self.add_until(sheet, count, None);
        }
    }

    /// Adds steps with some number, or accepted ones, until the sheet has so many.
    fn add_until(&mut self, sheet: &mut Sheet, count: usize, wanted: Option<u32>) {
        let vectors = self.vectors(sheet.edition, wanted);
        for _ in 0..8 * count {
            for step in self.propose(sheet, vectors) {
                if sheet.steps.len() >= count.min(STEPS_MAX) {
                    return;
                }
                self.add(sheet, step, wanted);
            }
        }
    }

    /// Adds a step if it has some number, or if it is accepted; says whether it did.
    pub fn add(&mut self, sheet: &mut Sheet, step: Step, wanted: Option<u32>) -> bool {
        let mut types = self.types;
        let checked = check_step(sheet, &step, &mut types, self.memory_len);
        let number = checked.err().map(|(cause, _)| cause.number());
        if number == wanted {
            self.types = types;
            sheet.steps.push(step);
        }
        number == wanted
    }

    /// How many proposals in a hundred are vector steps. A wanted refusal that they can get is
    /// theirs or one of the other steps'.
    fn vectors(&mut self, edition: Edition, wanted: Option<u32>) -> usize {
        match wanted {
            _ if !edition.has_vectors() => 0,
            None => 35,
            Some(7 | 8 | 14) => self.random.pick(&[0, 100]),
            Some(_) => 0,
        }
    }

    /// Some steps that belong together.
    fn propose(&mut self, sheet: &Sheet, vectors: usize) -> Vec<Step> {
        if vectors > 0 && self.random.percent(vectors) {
            return self.vector(sheet);
        }
        let has_layouts = !sheet.layouts.is_empty();
        match self.random.below(100) {
            0..=17 => vec![self.fill()],
            18..=47 if has_layouts => vec![self.load(sheet)],
            48..=69 if has_layouts => vec![self.store(sheet)],
            70..=81 => vec![self.reduce()],
            82..=87 => vec![self.transpose()],
            88..=91 => vec![self.multiply_add(sheet.edition)],
            _ => self.product(sheet),
        }
    }

    /// A register, most often one that is not empty.
    pub fn register(&mut self) -> usize {
        let held: Vec<usize> = (0..REGISTERS).filter(|&r| self.types[r].is_some()).collect();
        if held.is_empty() || self.random.percent(3) {
            self.random.below(REGISTERS)
        } else {
            self.random.pick(&held)
        }
    }

    pub fn any_register(&mut self) -> usize {
        self.random.below(REGISTERS)
    }

    pub fn side(&mut self) -> usize {
        match self.random.below(10) {
            0..=5 => self.random.between(1, 4),
            6..=8 => self.random.between(1, SIDE_MAX),
            _ => SIDE_MAX,
        }
    }

    fn fill(&mut self) -> Step {
        let register = self.any_register();
        let type_ = Type {
            kind: Kind(self.random.below(6) as u8),
            rows: self.side(),
            columns: self.side(),
        };
        self.fill_of(register, type_)
    }

    pub fn fill_of(&mut self, register: usize, type_: Type) -> Step {
        let Type { kind, rows, columns } = type_;
        let value = match self.random.below(4) {
            0 => 0,
            1 => kind.low_bits(u32::MAX),
            _ => kind.low_bits(self.random.bits() as u32),
        };
        Step::Fill { register, rows, columns, kind, value }
    }

    fn base(&mut self) -> u32 {
        let paragraphs = self.memory_len / 16;
        let base = match self.random.below(10) {
            0..=3 => 0,
            4..=7 => 16 * self.random.below(paragraphs / 2 + 1),
            8 => 16 * self.random.below(paragraphs + 2),
            _ => self.random.pick(&[8, 15, 65_520, 0xFFFF_FFF0, 0xFFFF_FFFF]),
        };
        base as u32
    }

    pub fn view(&mut self, sheet: &Sheet) -> Option<usize> {
        if sheet.views.is_empty() || self.random.percent(35) {
            return None;
        }
        Some(self.random.below(sheet.views.len()))
    }

    fn load(&mut self, sheet: &Sheet) -> Step {
        if self.random.percent(50) {
            let register = self.register();
            return self.load_of(register, None, sheet);
        }
        let register = self.any_register();
        let object = self.register();
        self.load_of(register, Some(object), sheet)
    }

    pub fn load_of(&mut self, register: usize, object: Option<usize>, sheet: &Sheet) -> Step {
        let layout = self.random.below(sheet.layouts.len());
        Step::Load { register, object, layout, view: self.view(sheet), base: self.base() }
    }

    pub fn store(&mut self, sheet: &Sheet) -> Step {
        let register = self.register();
        let layout = self.random.below(sheet.layouts.len());
        Step::Store { register, layout, view: self.view(sheet), base: self.base() }
    }

    fn reduce(&mut self) -> Step {
        let result = self.any_register();
        let source = self.register();
        let mode = self.random.pick(&[
            ReduceMode::Row,
            ReduceMode::Column,
            ReduceMode::Both,
            ReduceMode::TwoByTwo,
        ]);
        let combine = self.random.pick(&[
            Combine::Add,
            Combine::Min,
            Combine::Max,
            Combine::And,
            Combine::Or,
            Combine::Xor,
        ]);
        let (mut rows, mut columns) = (self.side(), self.side());
        if let (Some(type_), false) = (self.types[source], self.random.percent(10)) {
            match mode {
                ReduceMode::Row => rows = type_.rows,
                ReduceMode::Column => columns = type_.columns,
                ReduceMode::Both => {}
                // Halves that are not whole go up or down.
                ReduceMode::TwoByTwo => {
                    rows = ((type_.rows + self.random.below(2)) / 2).max(1);
                    columns = ((type_.columns + self.random.below(2)) / 2).max(1);
                }
            }
        }
        Step::Reduce { result, source, rows, columns, mode, combine }
    }

    fn transpose(&mut self) -> Step {
        Step::Transpose { result: self.any_register(), source: self.register() }
    }

    /// A multiply-add; after edition 1 one whose shapes agree, if some tries find it.
    fn multiply_add(&mut self, edition: Edition) -> Step {
        let tries = if edition == Edition::One { 0 } else { 8 };
        let mut step = self.any_multiply_add();
        for _ in 0..tries {
            let type_ = whole_type(&step, &self.types, self.memory_len);
            if type_ != Some(Err((Cause::MultiplyShapes, 0))) {
                break;
            }
            step = self.any_multiply_add();
        }
        step
    }

    fn any_multiply_add(&mut self) -> Step {
        let (a, b, c) = (self.register(), self.register(), self.register());
        Step::MultiplyAdd { result: self.any_register(), a, b, c }
    }

    /// A multiply-add with operands that fit, most often loaded.
    fn product(&mut self, sheet: &Sheet) -> Vec<Step> {
        let order = permutation(self.random, REGISTERS);
        let (a, b, c) = (order[0], order[1], order[2]);
        let (m, k, n) = (self.side(), self.side(), self.side());
        let kind_of_c = Kind(self.random.pick(&[4, 4, 4, 5, 5, 5, 3]));
        let mut steps = Vec::new();
        for (register, rows, columns) in [(a, m, k), (b, k, n), (c, m, n)] {
            let kind = Kind(self.random.below(6) as u8);
            let kind = if register == c { kind_of_c } else { kind };
            steps.push(self.fill_of(register, Type { kind, rows, columns }));
            if !sheet.layouts.is_empty() {
                steps.push(self.load_of(register, None, sheet));
            }
        }
        steps.push(Step::MultiplyAdd { result: self.any_register(), a, b, c });
        steps
    }

    /// A vector step, most often with an input that fits; where none is held, or else now and
    /// then, the input is made first.
    fn vector(&mut self, sheet: &Sheet) -> Vec<Step> {
        let columns: Vec<(usize, Type)> = (0..REGISTERS)
            .filter_map(|register| Some((register, self.types[register]?)))
            .filter(|(_, type_)| type_.columns == 1)
            .collect();
        let mut steps = Vec::new();
        let (input, type_) = if columns.is_empty() || self.random.percent(30) {
            let input = self.any_register();
            let type_ = self.column_type();
            steps.push(self.fill_of(input, type_));
            if !sheet.layouts.is_empty() {
                steps.push(self.load_of(input, None, sheet));
            }
            (input, type_)
        } else {
            self.random.pick(&columns)
        };
        steps.push(Step::Vector(self.vector_of(input, type_)));
        steps
    }

    /// The type of a plain or of a packed input.
    fn column_type(&mut self) -> Type {
        if self.random.percent(35) {
            return Type { kind: Kind::U32, rows: self.random.between(1, WORDS_MAX), columns: 1 };
        }
        Type { kind: Kind(self.random.below(6) as u8), rows: self.side(), columns: 1 }
    }

    /// A vector step with an input of some type.
    fn vector_of(&mut self, input: usize, type_: Type) -> VectorStep {
        let (interpretation, k) = self.interpretation(type_);
        let mut vector = VectorStep {
            result: if self.random.percent(30) { input } else { self.any_register() },
            kind: self.random.pick(&[Kind::U32, Kind::S32]),
            input,
            interpretation,
            matrix: Kind(self.random.below(6) as u8),
            m: self.side(),
            k,
            layout: self.random.pick(&[MemoryLayout::RowMajor, MemoryLayout::ColumnMajor]),
            stride: 0,
            offset: 0,
            bias: None,
        };
        let (_, line) = vector.lines();
        vector.stride = self.stride(line);
        vector.offset = self.offset(end(&vector));
        vector.bias = self.random.percent(50).then(|| self.offset(BIAS_SIZE * vector.m));
        vector
    }

    /// An interpretation of an input and the number of components that it gives; now and then
    /// one that does not fit, or a component more or less.
    fn interpretation(&mut self, type_: Type) -> (Interpretation, usize) {
        let packed = match type_.kind {
            _ if type_.rows > WORDS_MAX => 0,
            Kind::U32 => 60,
            _ => 3,
        };
        let (interpretation, k) = if self.random.percent(packed) {
            let kind = self.random.pick(&[Kind::S8, Kind::U8]);
            let unused = self.random.below(COMPONENTS_A_WORD);
            (Interpretation::Packed(kind), COMPONENTS_A_WORD * type_.rows - unused)
        } else {
            (Interpretation::Plain(Kind(self.random.below(6) as u8)), type_.rows)
        };
        let k = match self.random.below(20) {
            0 => k + 1,
            1 => k - 1,
            _ => k,
        };
        (interpretation, k.clamp(1, SIDE_MAX))
    }

    /// A stride for rows or columns of so many bytes: one after the other, apart, overlapping or
    /// on the same bytes.
    fn stride(&mut self, line: usize) -> u16 {
        let stride = match self.random.below(10) {
            0..=4 => line,
            5 | 6 => line + self.random.below(64),
            7 | 8 => self.random.below(line),
            _ => self.random.pick(&[0, 1, 255, 4_096, 65_535]),
        };
        stride as u16
    }

    /// Where so many bytes begin: mostly within memory, often at its end or a byte past it.
    fn offset(&mut self, length: usize) -> u32 {
        let last = self.memory_len.saturating_sub(length);
        let offset = match self.random.below(20) {
            0..=13 => self.random.below(last + 1),
            14 | 15 => last,
            16 | 17 => last + 1,
            18 => 0,
            _ => self.random.pick(&[65_535, 65_536, 0xFFFF_FFFC, 0xFFFF_FFFF]),
        };
        offset as u32
    }
}
