//! The sheet: its model, reading and writing.

use super::edition::Edition;
use super::kind::Kind;
use super::refusal::{Cause, Refusal};
use super::vector::{Interpretation, MemoryLayout, VectorStep};
use super::{REGISTERS, SIDE_MAX, STEPS_MAX};

const EDITION: u8 = 0x01;
const LAYOUT: u8 = 0x10;
const VIEW: u8 = 0x11;
const FILL: u8 = 0x20;
const LOAD: u8 = 0x21;
const STORE: u8 = 0x22;
const REDUCE: u8 = 0x23;
const TRANSPOSE: u8 = 0x24;
const MULTIPLY_ADD: u8 = 0x25;
const VECTOR: u8 = 0x26;

const LAYOUTS_MAX: usize = 4;
const VIEWS_MAX: usize = 4;
const DIMENSIONS_MAX: usize = 5;
/// In an object's or a view's place: none.
const NONE: u8 = 255;
/// Input interpretations beside the kinds.
const PACKED_SIGNED: u8 = 8;
const PACKED_UNSIGNED: u8 = 9;

/// What was read from a sheet.
#[derive(Clone, PartialEq, Eq, Debug, Default)]
pub struct Sheet {
    pub edition: Edition,
    pub layouts: Vec<Layout>,
    pub views: Vec<View>,
    pub steps: Vec<Step>,
}

#[derive(Clone, PartialEq, Eq, Debug)]
pub struct Layout {
    pub clamp_mode: ClampMode,
    pub clamp_value: u32,
    pub dimensions: Vec<Dimension>,
}

#[derive(Clone, Copy, PartialEq, Eq, Debug)]
pub struct Dimension {
    pub block_size: u16,
    pub size: u16,
    pub stride: u16,
    pub offset: i16,
    pub span: u16,
}

#[derive(Clone, Copy, PartialEq, Eq, Debug)]
pub enum ClampMode {
    Undefined,
    Constant,
    ClampToEdge,
    Repeat,
    MirrorRepeat,
}

#[derive(Clone, PartialEq, Eq, Debug)]
pub struct View {
    pub permutation: Vec<usize>,
    /// None where the view has no dimensions of its own.
    pub dimensions: Option<Vec<ViewDimension>>,
    pub clip: Clip,
}

#[derive(Clone, Copy, PartialEq, Eq, Debug)]
pub struct ViewDimension {
    pub size: u16,
    pub stride: u16,
}

#[derive(Clone, Copy, PartialEq, Eq, Debug)]
pub struct Clip {
    pub row_offset: u16,
    pub row_span: u16,
    pub column_offset: u16,
    pub column_span: u16,
}

#[derive(Clone, PartialEq, Eq, Debug)]
pub enum Step {
    Fill {
        register: usize,
        rows: usize,
        columns: usize,
        kind: Kind,
        value: u32,
    },
    Load {
        register: usize,
        object: Option<usize>,
        layout: usize,
        view: Option<usize>,
        base: u32,
    },
    Store {
        register: usize,
        layout: usize,
        view: Option<usize>,
        base: u32,
    },
    Reduce {
        result: usize,
        source: usize,
        rows: usize,
        columns: usize,
        mode: ReduceMode,
        combine: Combine,
    },
    Transpose {
        result: usize,
        source: usize,
    },
    MultiplyAdd {
        result: usize,
        a: usize,
        b: usize,
        c: usize,
    },
    Vector(VectorStep),
}

impl Step {
    /// The register that the step's field names first: its result, or what a store reads.
    pub fn register(&self) -> usize {
        match *self {
            Step::Fill { register, .. }
            | Step::Load { register, .. }
            | Step::Store { register, .. } => register,
            Step::Reduce { result, .. }
            | Step::Transpose { result, .. }
            | Step::MultiplyAdd { result, .. }
            | Step::Vector(VectorStep { result, .. }) => result,
        }
    }
}

#[derive(Clone, Copy, PartialEq, Eq, Debug)]
pub enum ReduceMode {
    Row,
    Column,
    Both,
    TwoByTwo,
}

#[derive(Clone, Copy, PartialEq, Eq, Debug)]
pub enum Combine {
    Add,
    Min,
    Max,
    And,
    Or,
    Xor,
}

/// Reads a sheet, field by field; a refusal's place is the byte of the field's head.
pub fn read_sheet(bytes: &[u8]) -> Result<Sheet, Refusal> {
    let mut reader = Reader::default();
    let mut at = 0;
    while at < bytes.len() {
        let length = reader.field(&bytes[at..]).map_err(|cause| Refusal::at(cause, at))?;
        at += length;
    }
    if reader.last.is_none() {
        return Err(Refusal::at(Cause::NoEdition, bytes.len()));
    }
    Ok(reader.sheet)
}

/// The parts of a sheet, in their order.
#[derive(Clone, Copy, PartialEq, Eq, PartialOrd, Ord)]
enum Part {
    Edition,
    Layouts,
    Views,
    Steps,
}

impl Part {
    fn of_tag(tag: u8) -> Option<Part> {
        match tag {
            EDITION => Some(Part::Edition),
            LAYOUT => Some(Part::Layouts),
            VIEW => Some(Part::Views),
            FILL..=VECTOR => Some(Part::Steps),
            _ => None,
        }
    }
}

/// The edition that brought a known tag.
fn edition_of_tag(tag: u8) -> Edition {
    match tag {
        VECTOR => Edition::Two,
        _ => Edition::One,
    }
}

/// The lengths that a known tag's content may have.
fn lengths(tag: u8) -> &'static [usize] {
    match tag {
        EDITION => &[1],
        LAYOUT => &[16, 26, 36, 46, 56],
        VIEW => &[11, 12, 13, 14, 15, 20, 25, 30, 35],
        FILL | LOAD => &[8],
        STORE => &[7],
        REDUCE => &[6],
        TRANSPOSE => &[2],
        MULTIPLY_ADD => &[4],
        _ => &[19],
    }
}

/// What was read so far, and the part that the last field belongs to.
#[derive(Default)]
struct Reader {
    sheet: Sheet,
    last: Option<Part>,
}

impl Reader {
    /// Reads the field at the front of what is left and gives its length, head included.
    /// The tests stand in the order in which they refuse: 1, 2, 3, 4, 6, 5.
    fn field(&mut self, rest: &[u8]) -> Result<usize, Cause> {
        if rest.len() < 3 {
            return Err(Cause::HeadCut);
        }
        let tag = rest[0];
        let length = usize::from(u16::from_le_bytes([rest[1], rest[2]]));
        let content = rest.get(3..3 + length).ok_or(Cause::ContentCut)?;
        let part = Part::of_tag(tag).ok_or(Cause::UnknownTag)?;
        self.in_edition(tag)?;
        self.in_order(part)?;
        if !lengths(tag).contains(&length) {
            return Err(Cause::WrongLength);
        }
        self.content(tag, content)?;
        self.last = Some(part);
        Ok(3 + length)
    }

    /// A later edition's tag is out of order before the edition, and unknown in an earlier one.
    fn in_edition(&self, tag: u8) -> Result<(), Cause> {
        match self.last {
            None if edition_of_tag(tag) > Edition::One => Err(Cause::LaterTagFirst),
            Some(_) if edition_of_tag(tag) > self.sheet.edition => Err(Cause::LaterTag),
            _ => Ok(()),
        }
    }

    /// Refusal 3: the edition first and once, no part before an earlier one, none too many.
    fn in_order(&self, part: Part) -> Result<(), Cause> {
        match self.last {
            None if part != Part::Edition => return Err(Cause::OutOfOrder),
            Some(_) if part == Part::Edition => return Err(Cause::RepeatedEdition),
            Some(last) if part < last => return Err(Cause::OutOfOrder),
            _ => {}
        }
        let full = match part {
            Part::Edition => false,
            Part::Layouts => self.sheet.layouts.len() == LAYOUTS_MAX,
            Part::Views => self.sheet.views.len() == VIEWS_MAX,
            Part::Steps => self.sheet.steps.len() == STEPS_MAX,
        };
        if full {
            return Err(Cause::TooMany);
        }
        Ok(())
    }

    fn content(&mut self, tag: u8, content: &[u8]) -> Result<(), Cause> {
        match tag {
            EDITION => {
                self.sheet.edition = Edition::of_number(content[0]).ok_or(Cause::WrongEdition)?;
            }
            LAYOUT => self.sheet.layouts.push(read_layout(content)?),
            VIEW => self.sheet.views.push(read_view(content)?),
            _ => {
                let step = self.step(tag, &mut Numbers { rest: content })?;
                self.sheet.steps.push(step);
            }
        }
        Ok(())
    }

    fn step(&self, tag: u8, n: &mut Numbers) -> Result<Step, Cause> {
        match tag {
            FILL => read_fill(n),
            LOAD => Ok(Step::Load {
                register: register(n.one())?,
                object: object(n.one())?,
                layout: self.layout(n.one())?,
                view: self.view(n.one())?,
                base: n.four(),
            }),
            STORE => Ok(Step::Store {
                register: register(n.one())?,
                layout: self.layout(n.one())?,
                view: self.view(n.one())?,
                base: n.four(),
            }),
            REDUCE => Ok(Step::Reduce {
                result: register(n.one())?,
                source: register(n.one())?,
                rows: side(n.one())?,
                columns: side(n.one())?,
                mode: reduce_mode(n.one())?,
                combine: combine(n.one())?,
            }),
            TRANSPOSE => {
                Ok(Step::Transpose { result: register(n.one())?, source: register(n.one())? })
            }
            MULTIPLY_ADD => Ok(Step::MultiplyAdd {
                result: register(n.one())?,
                a: register(n.one())?,
                b: register(n.one())?,
                c: register(n.one())?,
            }),
            _ => read_vector(n).map(Step::Vector),
        }
    }

    /// A layout among those given.
    fn layout(&self, number: u8) -> Result<usize, Cause> {
        below(usize::from(number), self.sheet.layouts.len(), Cause::NoSuchLayout)
    }

    /// A view among those given, or none.
    fn view(&self, number: u8) -> Result<Option<usize>, Cause> {
        if number == NONE {
            return Ok(None);
        }
        below(usize::from(number), self.sheet.views.len(), Cause::NoSuchView).map(Some)
    }
}

/// The numbers of a content, one after the other; its length is known to suffice.
pub struct Numbers<'a> {
    pub rest: &'a [u8],
}

impl Numbers<'_> {
    pub fn one(&mut self) -> u8 {
        let number = self.rest[0];
        self.rest = &self.rest[1..];
        number
    }

    pub fn two(&mut self) -> u16 {
        u16::from_le_bytes([self.one(), self.one()])
    }

    pub fn four(&mut self) -> u32 {
        u32::from_le_bytes([self.one(), self.one(), self.one(), self.one()])
    }
}

fn read_layout(content: &[u8]) -> Result<Layout, Cause> {
    let mut n = Numbers { rest: content };
    let count = dimension_count(n.one())?;
    if content.len() != 6 + 10 * count {
        return Err(Cause::LengthDisagrees);
    }
    let clamp_mode = clamp_mode(n.one())?;
    let clamp_value = n.four();
    let dimensions = (0..count).map(|_| read_dimension(&mut n)).collect::<Result<_, _>>()?;
    Ok(Layout { clamp_mode, clamp_value, dimensions })
}

fn read_dimension(n: &mut Numbers) -> Result<Dimension, Cause> {
    let block_size = extent(n.two(), Cause::BlockSize)?;
    let size = extent(n.two(), Cause::DimensionSize)?;
    let stride = n.two();
    let offset = n.two() as i16;
    if !(-4_096..=4_095).contains(&offset) {
        return Err(Cause::Offset);
    }
    let span = extent(n.two(), Cause::Span)?;
    Ok(Dimension { block_size, size, stride, offset, span })
}

fn read_view(content: &[u8]) -> Result<View, Cause> {
    let mut n = Numbers { rest: content };
    let count = dimension_count(n.one())?;
    let has_dimensions = match n.one() {
        0 => false,
        1 => true,
        _ => return Err(Cause::HasDimensions),
    };
    let expected = 2 + count + if has_dimensions { 4 * count } else { 0 } + 8;
    if content.len() != expected {
        return Err(Cause::LengthDisagrees);
    }
    let permutation: Vec<usize> = (0..count).map(|_| usize::from(n.one())).collect();
    if !(0..count).all(|i| permutation.contains(&i)) {
        return Err(Cause::NotAPermutation);
    }
    let dimensions = if has_dimensions {
        Some((0..count).map(|_| read_view_dimension(&mut n)).collect::<Result<_, _>>()?)
    } else {
        None
    };
    let clip = Clip {
        row_offset: n.two(),
        row_span: n.two(),
        column_offset: n.two(),
        column_span: n.two(),
    };
    Ok(View { permutation, dimensions, clip })
}

fn read_view_dimension(n: &mut Numbers) -> Result<ViewDimension, Cause> {
    Ok(ViewDimension { size: extent(n.two(), Cause::ViewDimensionSize)?, stride: n.two() })
}

fn read_fill(n: &mut Numbers) -> Result<Step, Cause> {
    let register = register(n.one())?;
    let rows = side(n.one())?;
    let columns = side(n.one())?;
    let kind = kind(n.one())?;
    let value = n.four();
    if !kind.holds(value) {
        return Err(Cause::FillValue);
    }
    Ok(Step::Fill { register, rows, columns, kind, value })
}

fn read_vector(n: &mut Numbers) -> Result<VectorStep, Cause> {
    Ok(VectorStep {
        result: register(n.one())?,
        kind: result_kind(n.one())?,
        input: register(n.one())?,
        interpretation: interpretation(n.one())?,
        matrix: kind(n.one()).map_err(|_| Cause::MatrixInterpretation)?,
        m: side(n.one()).map_err(|_| Cause::VectorSide)?,
        k: side(n.one()).map_err(|_| Cause::VectorSide)?,
        layout: memory_layout(n.one())?,
        stride: n.two(),
        offset: n.four(),
        bias: bias(n.one(), n.four())?,
    })
}

fn below(number: usize, count: usize, cause: Cause) -> Result<usize, Cause> {
    if number < count {
        Ok(number)
    } else {
        Err(cause)
    }
}

fn dimension_count(number: u8) -> Result<usize, Cause> {
    match usize::from(number) {
        count @ 1..=DIMENSIONS_MAX => Ok(count),
        _ => Err(Cause::DimensionCount),
    }
}

/// Block size, dimension, span and view dimension: 1 to 4,096.
fn extent(number: u16, cause: Cause) -> Result<u16, Cause> {
    match number {
        1..=4_096 => Ok(number),
        _ => Err(cause),
    }
}

fn register(number: u8) -> Result<usize, Cause> {
    below(usize::from(number), REGISTERS, Cause::RegisterRange)
}

fn object(number: u8) -> Result<Option<usize>, Cause> {
    if number == NONE {
        return Ok(None);
    }
    register(number).map(Some)
}

fn side(number: u8) -> Result<usize, Cause> {
    match usize::from(number) {
        side @ 1..=SIDE_MAX => Ok(side),
        _ => Err(Cause::Side),
    }
}

fn kind(number: u8) -> Result<Kind, Cause> {
    match number {
        0..=5 => Ok(Kind(number)),
        _ => Err(Cause::KindRange),
    }
}

fn clamp_mode(number: u8) -> Result<ClampMode, Cause> {
    match number {
        0 => Ok(ClampMode::Undefined),
        1 => Ok(ClampMode::Constant),
        2 => Ok(ClampMode::ClampToEdge),
        3 => Ok(ClampMode::Repeat),
        4 => Ok(ClampMode::MirrorRepeat),
        _ => Err(Cause::ClampModeRange),
    }
}

fn reduce_mode(number: u8) -> Result<ReduceMode, Cause> {
    match number {
        1 => Ok(ReduceMode::Row),
        2 => Ok(ReduceMode::Column),
        3 => Ok(ReduceMode::Both),
        4 => Ok(ReduceMode::TwoByTwo),
        _ => Err(Cause::ReduceModeRange),
    }
}

fn combine(number: u8) -> Result<Combine, Cause> {
    match number {
        0 => Ok(Combine::Add),
        1 => Ok(Combine::Min),
        2 => Ok(Combine::Max),
        3 => Ok(Combine::And),
        4 => Ok(Combine::Or),
        5 => Ok(Combine::Xor),
        _ => Err(Cause::CombineRange),
    }
}

/// A vector's sums have 32 bits.
fn result_kind(number: u8) -> Result<Kind, Cause> {
    match kind(number) {
        Ok(kind @ (Kind::U32 | Kind::S32)) => Ok(kind),
        _ => Err(Cause::ResultKind),
    }
}

fn interpretation(number: u8) -> Result<Interpretation, Cause> {
    match number {
        PACKED_SIGNED => Ok(Interpretation::Packed(Kind::S8)),
        PACKED_UNSIGNED => Ok(Interpretation::Packed(Kind::U8)),
        _ => kind(number).map(Interpretation::Plain).map_err(|_| Cause::InputInterpretation),
    }
}

fn memory_layout(number: u8) -> Result<MemoryLayout, Cause> {
    match number {
        0 => Ok(MemoryLayout::RowMajor),
        1 => Ok(MemoryLayout::ColumnMajor),
        _ => Err(Cause::MemoryLayoutRange),
    }
}

/// The offset of a bias; without one it is 0.
fn bias(number: u8, offset: u32) -> Result<Option<u32>, Cause> {
    match (number, offset) {
        (0, 0) => Ok(None),
        (0, _) => Err(Cause::BiasOffset),
        (1, _) => Ok(Some(offset)),
        _ => Err(Cause::BiasRange),
    }
}

/// Writes a model into a room of some length. A model is written exactly when a sheet reads as
/// it (otherwise 5), and the room must hold it (otherwise 19).
pub fn write_sheet(sheet: &Sheet, room: usize) -> Result<Vec<u8>, Refusal> {
    let bytes = sheet_bytes(sheet);
    if read_sheet(&bytes).as_ref() != Ok(sheet) {
        return Err(Refusal::nowhere(Cause::UnreadableModel));
    }
    if bytes.len() > room {
        return Err(Refusal::nowhere(Cause::SheetRoom));
    }
    Ok(bytes)
}

/// The bytes of a sheet: the edition, then layouts, views and steps.
pub fn sheet_bytes(sheet: &Sheet) -> Vec<u8> {
    let mut bytes = Vec::new();
    put_field(&mut bytes, EDITION, &[sheet.edition.number()]);
    for layout in &sheet.layouts {
        put_field(&mut bytes, LAYOUT, &layout_content(layout));
    }
    for view in &sheet.views {
        put_field(&mut bytes, VIEW, &view_content(view));
    }
    for step in &sheet.steps {
        put_step(&mut bytes, step);
    }
    bytes
}

fn put_field(bytes: &mut Vec<u8>, tag: u8, content: &[u8]) {
    bytes.push(tag);
    bytes.extend((content.len() as u16).to_le_bytes());
    bytes.extend(content);
}

fn layout_content(layout: &Layout) -> Vec<u8> {
    let mut content = vec![layout.dimensions.len() as u8, layout.clamp_mode as u8];
    content.extend(layout.clamp_value.to_le_bytes());
    for d in &layout.dimensions {
        for number in [d.block_size, d.size, d.stride, d.offset as u16, d.span] {
            content.extend(number.to_le_bytes());
        }
    }
    content
}

fn view_content(view: &View) -> Vec<u8> {
    let mut content = vec![view.permutation.len() as u8, u8::from(view.dimensions.is_some())];
    content.extend(view.permutation.iter().map(|&entry| entry as u8));
    for d in view.dimensions.iter().flatten() {
        content.extend(d.size.to_le_bytes());
        content.extend(d.stride.to_le_bytes());
    }
    let clip = view.clip;
    for number in [clip.row_offset, clip.row_span, clip.column_offset, clip.column_span] {
        content.extend(number.to_le_bytes());
    }
    content
}

fn put_step(bytes: &mut Vec<u8>, step: &Step) {
    match *step {
        Step::Fill { register, rows, columns, kind, value } => {
            let head = [register as u8, rows as u8, columns as u8, kind.0];
            put_field(bytes, FILL, &[head, value.to_le_bytes()].concat());
        }
        Step::Load { register, object, layout, view, base } => {
            let head = [register as u8, number_or_none(object), layout as u8, number_or_none(view)];
            put_field(bytes, LOAD, &[head, base.to_le_bytes()].concat());
        }
        Step::Store { register, layout, view, base } => {
            let mut content = vec![register as u8, layout as u8, number_or_none(view)];
            content.extend(base.to_le_bytes());
            put_field(bytes, STORE, &content);
        }
        Step::Reduce { result, source, rows, columns, mode, combine } => {
            // The modes are numbered from 1.
            let mode = mode as u8 + 1;
            let numbers = [result as u8, source as u8, rows as u8, columns as u8, mode];
            put_field(bytes, REDUCE, &[&numbers[..], &[combine as u8]].concat());
        }
        Step::Transpose { result, source } => {
            put_field(bytes, TRANSPOSE, &[result as u8, source as u8]);
        }
        Step::MultiplyAdd { result, a, b, c } => {
            put_field(bytes, MULTIPLY_ADD, &[result as u8, a as u8, b as u8, c as u8]);
        }
        Step::Vector(ref vector) => put_field(bytes, VECTOR, &vector_content(vector)),
    }
}

fn vector_content(vector: &VectorStep) -> Vec<u8> {
    let mut content = vec![
        vector.result as u8,
        vector.kind.0,
        vector.input as u8,
        interpretation_number(vector.interpretation),
        vector.matrix.0,
        vector.m as u8,
        vector.k as u8,
        vector.layout as u8,
    ];
    content.extend(vector.stride.to_le_bytes());
    content.extend(vector.offset.to_le_bytes());
    content.push(u8::from(vector.bias.is_some()));
    content.extend(vector.bias.unwrap_or(0).to_le_bytes());
    content
}

fn interpretation_number(interpretation: Interpretation) -> u8 {
    match interpretation {
        Interpretation::Plain(kind) => kind.0,
        Interpretation::Packed(kind) if kind.is_signed() => PACKED_SIGNED,
        Interpretation::Packed(_) => PACKED_UNSIGNED,
    }
}

fn number_or_none(number: Option<usize>) -> u8 {
    number.map_or(NONE, |number| number as u8)
}

#[cfg(test)]
mod tests {
    use super::*;

    const EDITION_FIELD: [u8; 4] = [1, 1, 0, 1];
    const EDITION_2_FIELD: [u8; 4] = [1, 1, 0, 2];
    const EDITION_3_FIELD: [u8; 4] = [1, 1, 0, 3];
    /// Register 1, s32, from register 2 packed unsigned, by a 5 by 6 matrix of s16 in columns of
    /// stride 0x0807 at 0x0C0B0A09, with a bias at 0x100F0E0D.
    const VECTOR_FIELD: [u8; 22] =
        [0x26, 19, 0, 1, 5, 2, 9, 3, 5, 6, 1, 7, 8, 9, 10, 11, 12, 1, 13, 14, 15, 16];

    fn refused(bytes: &[u8]) -> (u32, [u32; 2]) {
        let refusal = read_sheet(bytes).expect_err("refused");
        (refusal.cause.number(), refusal.place)
    }

    #[test]
    fn a_field_is_refused_in_the_tables_order() {
        assert_eq!(refused(&[]), (3, [0, 0]));
        assert_eq!(refused(&[1]), (1, [0, 0]));
        assert_eq!(refused(&[1, 1]), (1, [0, 0]));
        assert_eq!(refused(&[1, 1, 0]), (1, [0, 0]));
        assert_eq!(refused(&[9, 1, 0, 1]), (2, [0, 0]));
        assert_eq!(refused(&[0x24, 1, 0, 0]), (3, [0, 0]));
        assert_eq!(refused(&[1, 2, 0, 1, 1]), (4, [0, 0]));
        assert_eq!(refused(&[1, 1, 0, 0]), (6, [0, 0]));
        assert_eq!(refused(&[1, 1, 0, 4]), (6, [0, 0]));
        assert_eq!(refused(&[1, 1, 0, 255]), (6, [0, 0]));
        assert_eq!(refused(&[&EDITION_FIELD[..], &[1]].concat()), (1, [4, 0]));
        assert_eq!(refused(&[&EDITION_FIELD[..], &EDITION_FIELD].concat()), (3, [4, 0]));
        assert_eq!(refused(&[&EDITION_FIELD[..], &[0x24, 2, 0, 4, 0]].concat()), (5, [4, 0]));
        for edition in Edition::ALL {
            let sheet = read_sheet(&[1, 1, 0, edition.number()]).expect("accepted");
            assert_eq!(sheet.edition, edition);
        }
    }

    #[test]
    fn a_vector_step_is_read_number_by_number() {
        let bytes = [&EDITION_2_FIELD[..], &VECTOR_FIELD].concat();
        let sheet = read_sheet(&bytes).expect("accepted");
        let vector = VectorStep {
            result: 1,
            kind: Kind::S32,
            input: 2,
            interpretation: Interpretation::Packed(Kind::U8),
            matrix: Kind(3),
            m: 5,
            k: 6,
            layout: MemoryLayout::ColumnMajor,
            stride: 0x0807,
            offset: 0x0C0B_0A09,
            bias: Some(0x100F_0E0D),
        };
        assert_eq!((sheet.edition, &sheet.steps[..]), (Edition::Two, &[Step::Vector(vector)][..]));
        assert_eq!(sheet_bytes(&sheet), bytes);
        let in_edition_1 = Sheet { edition: Edition::One, ..sheet };
        let refusal = Refusal::nowhere(Cause::UnreadableModel);
        assert_eq!(write_sheet(&in_edition_1, bytes.len()), Err(refusal));
    }

    #[test]
    fn a_vector_step_has_ranges_of_its_own() {
        // Of each number of one byte: values that are taken, and values that are not.
        let ranges: [(usize, &[u8], &[u8]); 9] = [
            (0, &[0, 3], &[4, 255]),
            (1, &[4, 5], &[0, 3, 6]),
            (2, &[0, 3], &[4]),
            (3, &[0, 5, 8, 9], &[6, 7, 10]),
            (4, &[0, 5], &[6, 8, 9]),
            (5, &[1, 16], &[0, 17]),
            (6, &[1, 16], &[0, 17]),
            (7, &[0, 1], &[2]),
            (14, &[1], &[0, 2]),
        ];
        let read = |number: usize, value| {
            let mut bytes = [&EDITION_2_FIELD[..], &VECTOR_FIELD].concat();
            bytes[7 + number] = value;
            read_sheet(&bytes).map_err(|refusal| (refusal.cause.number(), refusal.place))
        };
        for (number, taken, refused) in ranges {
            assert!(taken.iter().all(|&value| read(number, value).is_ok()), "{number}");
            assert!(refused.iter().all(|&value| read(number, value) == Err((5, [4, 0]))));
        }
        let without_bias = [&EDITION_2_FIELD[..], &VECTOR_FIELD[..17], &[0, 0, 0, 0, 0]].concat();
        assert!(read_sheet(&without_bias).is_ok());
    }

    #[test]
    fn a_vector_tag_is_unknown_in_edition_1_and_out_of_order_before_any() {
        let short = [0x26, 1, 0, 0];
        let cut = [0x26, 19, 0, 0];
        let after = |start: &[u8], field: &[u8]| refused(&[start, field].concat());
        assert_eq!(after(&[], &VECTOR_FIELD), (3, [0, 0]));
        assert_eq!(after(&[], &short), (3, [0, 0]));
        assert_eq!(after(&[], &cut), (1, [0, 0]));
        assert_eq!(after(&EDITION_FIELD, &VECTOR_FIELD), (2, [4, 0]));
        assert_eq!(after(&EDITION_FIELD, &short), (2, [4, 0]));
        assert_eq!(after(&EDITION_FIELD, &cut), (1, [4, 0]));
        assert_eq!(after(&EDITION_2_FIELD, &short), (4, [4, 0]));
        assert_eq!(after(&EDITION_2_FIELD, &[0x27, 0, 0]), (2, [4, 0]));
        // Past 32 steps it is one too many in edition 2, and unknown still in edition 1.
        let steps = [0x24, 2, 0, 0, 0].repeat(STEPS_MAX);
        let place = [4 + steps.len() as u32, 0];
        assert_eq!(after(&[&EDITION_2_FIELD[..], &steps].concat(), &short), (3, place));
        assert_eq!(after(&[&EDITION_FIELD[..], &steps].concat(), &short), (2, place));
        // A later edition takes it still.
        assert_eq!(after(&EDITION_3_FIELD, &short), (4, [4, 0]));
        assert!(read_sheet(&[&EDITION_3_FIELD[..], &VECTOR_FIELD].concat()).is_ok());
        // It is a step: no layout comes after it.
        let stepped = [&EDITION_2_FIELD[..], &VECTOR_FIELD].concat();
        assert_eq!(after(&stepped, &[0x10, 0, 0]), (3, [26, 0]));
    }

    #[test]
    fn a_content_of_fifteen_bytes_is_two_sorts_of_view() {
        let head = [&EDITION_FIELD[..], &[0x11, 15, 0]].concat();
        let plain = [&head[..], &[5, 0, 4, 3, 2, 1, 0, 1, 0, 2, 0, 3, 0, 4, 0]].concat();
        let sized = [&head[..], &[1, 1, 0, 7, 0, 9, 0, 1, 0, 2, 0, 3, 0, 4, 0]].concat();
        let plain = read_sheet(&plain).expect("five dimensions, none of its own");
        let sized = read_sheet(&sized).expect("one dimension of its own");
        assert_eq!(plain.views[0].permutation, [4, 3, 2, 1, 0]);
        assert_eq!(sized.views[0].dimensions, Some(vec![ViewDimension { size: 7, stride: 9 }]));
        assert_eq!(plain.views[0].clip, sized.views[0].clip);
    }

    #[test]
    fn a_model_that_no_sheet_reads_as_is_not_written() {
        let fill = |value| Step::Fill { register: 0, rows: 1, columns: 1, kind: Kind(0), value };
        let with = |step| Sheet { steps: vec![step], ..Sheet::default() };
        assert_eq!(write_sheet(&with(fill(255)), 15).map(|bytes| bytes.len()), Ok(15));
        let refused = |sheet, room| write_sheet(&sheet, room).expect_err("refused");
        assert_eq!(refused(with(fill(256)), 15), Refusal::nowhere(Cause::UnreadableModel));
        assert_eq!(refused(with(fill(255)), 14), Refusal::nowhere(Cause::SheetRoom));
    }
}
