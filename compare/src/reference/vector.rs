//! The vector step: a matrix in memory times a vector in a register, plus a bias in memory if
//! there is one.

use std::ops::Range;

use super::carry::bits_at;
use super::kind::Kind;
use super::refusal::Cause;
use super::registers::{Matrix, Type};

/// Components in a word of a packed input.
pub const COMPONENTS_A_WORD: usize = 4;
/// The bytes of a bias element.
pub const BIAS_SIZE: usize = 4;

/// A vector step: M by K elements times K components give M elements.
#[derive(Clone, Copy, PartialEq, Eq, Debug)]
pub struct VectorStep {
    pub result: usize,
    pub kind: Kind,
    pub input: usize,
    pub interpretation: Interpretation,
    /// How the matrix is read.
    pub matrix: Kind,
    pub m: usize,
    pub k: usize,
    pub layout: MemoryLayout,
    pub stride: u16,
    pub offset: u32,
    /// The bias's offset, if there is a bias.
    pub bias: Option<u32>,
}

/// How the input register gives components.
#[derive(Clone, Copy, PartialEq, Eq, Debug)]
pub enum Interpretation {
    /// Each element is a component, saturated to the kind.
    Plain(Kind),
    /// Each byte of a u32 element is a component of the kind, the lowest byte first.
    Packed(Kind),
}

/// Which elements of the matrix lie side by side; the stride leads from row to row or from
/// column to column.
#[derive(Clone, Copy, PartialEq, Eq, Debug)]
pub enum MemoryLayout {
    RowMajor,
    ColumnMajor,
}

impl VectorStep {
    /// The type of the result, or 7, 8 or 14, the last of which names an element.
    pub fn check(&self, input: Option<Type>, memory_len: usize) -> Result<Type, (Cause, usize)> {
        self.check_input(input).map_err(|cause| (cause, 0))?;
        match self.places().position(|place| place.end > memory_len as u64) {
            Some(element) if element < self.matrix_elements() => {
                Err((Cause::MatrixPastMemory, element))
            }
            Some(element) => Err((Cause::BiasPastMemory, element)),
            None => Ok(self.result_type()),
        }
    }

    /// Refusals 7 and 8.
    fn check_input(&self, input: Option<Type>) -> Result<(), Cause> {
        let Type { kind, rows, columns } = input.ok_or(Cause::EmptyInput)?;
        let fits = (rows, columns) == (self.input_rows(), 1);
        match self.interpretation {
            Interpretation::Plain(_) if !fits => Err(Cause::InputShape),
            Interpretation::Packed(_) if kind != Kind::U32 => Err(Cause::PackedKind),
            Interpretation::Packed(_) if !fits => Err(Cause::PackedShape),
            _ => Ok(()),
        }
    }

    /// The rows that hold K components.
    pub fn input_rows(&self) -> usize {
        match self.interpretation {
            Interpretation::Plain(_) => self.k,
            Interpretation::Packed(_) => self.k.div_ceil(COMPONENTS_A_WORD),
        }
    }

    fn result_type(&self) -> Type {
        Type { kind: self.kind, rows: self.m, columns: 1 }
    }

    /// The number of matrix elements, which is also the number of the first bias element.
    pub fn matrix_elements(&self) -> usize {
        self.m * self.k
    }

    /// The bytes of each element that is read, in the order of the elements' numbers: the matrix
    /// by row, whatever its layout, then the bias.
    pub fn places(&self) -> impl Iterator<Item = Range<u64>> + '_ {
        let matrix = (0..self.matrix_elements())
            .map(|element| self.matrix_place(element / self.k, element % self.k));
        matrix.chain((0..self.m).filter_map(|row| self.bias_place(row)))
    }

    /// The matrix's rows, or its columns where they lie side by side, and the bytes of one.
    pub fn lines(&self) -> (usize, usize) {
        let (lines, along) = match self.layout {
            MemoryLayout::RowMajor => (self.m, self.k),
            MemoryLayout::ColumnMajor => (self.k, self.m),
        };
        (lines, along * self.matrix.size())
    }

    fn matrix_place(&self, row: usize, column: usize) -> Range<u64> {
        let (line, along) = match self.layout {
            MemoryLayout::RowMajor => (row as u64, column as u64),
            MemoryLayout::ColumnMajor => (column as u64, row as u64),
        };
        let size = self.matrix.size() as u64;
        let byte = u64::from(self.offset) + line * u64::from(self.stride) + along * size;
        byte..byte + size
    }

    fn bias_place(&self, row: usize) -> Option<Range<u64>> {
        let byte = u64::from(self.bias?) + (row * BIAS_SIZE) as u64;
        Some(byte..byte + BIAS_SIZE as u64)
    }

    /// The result of a step that is known to be accepted.
    pub fn perform(&self, input: &Matrix, memory: &[u8]) -> Matrix {
        let components: Vec<i64> = (0..self.k).map(|i| self.component(input, i)).collect();
        let wrapped = |row| self.sum(row, &components, memory).rem_euclid(1 << 32) as u32;
        Matrix { type_: self.result_type(), elements: (0..self.m).map(wrapped).collect() }
    }

    /// Component i of an input that fits.
    pub fn component(&self, input: &Matrix, i: usize) -> i64 {
        match self.interpretation {
            Interpretation::Plain(kind) => {
                kind.saturated(input.type_.kind.value(input.elements[i]))
            }
            Interpretation::Packed(kind) => {
                let word = input.elements[i / COMPONENTS_A_WORD];
                kind.value(u32::from(word.to_le_bytes()[i % COMPONENTS_A_WORD]))
            }
        }
    }

    /// A row's exact sum. It is at most 16 products of 32 bits each and one addend, so it is
    /// taken in 128 bits.
    pub fn sum(&self, row: usize, components: &[i64], memory: &[u8]) -> i128 {
        let products = components.iter().enumerate().map(|(column, &component)| {
            let element = number_at(memory, self.matrix_place(row, column), self.matrix);
            i128::from(element) * i128::from(component)
        });
        let bias = self.bias_place(row).map_or(0, |place| number_at(memory, place, self.kind));
        products.sum::<i128>() + i128::from(bias)
    }
}

/// The number at a place that lies in memory.
fn number_at(memory: &[u8], place: Range<u64>, kind: Kind) -> i64 {
    kind.value(bits_at(memory, place.start as usize, kind.size()))
}

#[cfg(test)]
mod tests {
    use super::*;

    /// A row-major matrix of u8 at byte 0, its rows side by side, times components as they are.
    fn step(m: usize, k: usize) -> VectorStep {
        VectorStep {
            result: 1,
            kind: Kind::U32,
            input: 0,
            interpretation: Interpretation::Plain(Kind::S32),
            matrix: Kind::U8,
            m,
            k,
            layout: MemoryLayout::RowMajor,
            stride: k as u16,
            offset: 0,
            bias: None,
        }
    }

    fn column(kind: Kind, elements: &[u32]) -> Matrix {
        let type_ = Type { kind, rows: elements.len(), columns: 1 };
        Matrix { type_, elements: elements.to_vec() }
    }

    /// The result's elements for an input of s32.
    fn product(step: VectorStep, components: &[i32], memory: &[u8]) -> Vec<u32> {
        let bits: Vec<u32> = components.iter().map(|&component| component as u32).collect();
        let input = column(Kind::S32, &bits);
        let type_ = step.check(Some(input.type_), memory.len()).expect("accepted");
        let result = step.perform(&input, memory);
        assert_eq!((result.type_, type_.rows, type_.columns), (type_, step.m, 1));
        result.elements
    }

    /// Where a step with an input that fits is refused for its memory.
    fn past_memory(step: VectorStep, memory_len: usize) -> Option<(Cause, usize)> {
        let input = Type { kind: Kind::S32, rows: step.k, columns: 1 };
        step.check(Some(input), memory_len).err()
    }

    #[test]
    fn the_layout_says_what_lies_side_by_side() {
        let memory = [99, 1, 2, 3, 4, 5, 6];
        let by_row = VectorStep { offset: 1, ..step(2, 3) };
        assert_eq!(product(by_row, &[1, 10, 100], &memory), [321, 654]);
        let by_column = VectorStep { layout: MemoryLayout::ColumnMajor, stride: 2, ..by_row };
        assert_eq!(product(by_column, &[1, 10, 100], &memory), [531, 642]);
    }

    #[test]
    fn rows_may_lie_apart_overlap_or_be_the_same() {
        let memory = [1, 2, 3, 4, 5, 6, 7, 8];
        let with = |stride, step| product(VectorStep { stride, ..step }, &[1, 10], &memory);
        assert_eq!(with(5, step(2, 2)), [21, 76]);
        assert_eq!(with(1, step(3, 2)), [21, 32, 43]);
        assert_eq!(with(0, step(3, 2)), [21, 21, 21]);
        let by_column = VectorStep { layout: MemoryLayout::ColumnMajor, ..step(3, 2) };
        assert_eq!(with(1, by_column), [21, 32, 43]);
        assert_eq!(with(0, by_column), [11, 22, 33]);
    }

    #[test]
    fn the_matrix_is_read_by_its_kind_at_any_byte() {
        let memory = [0, 0xFF, 0xFE, 0xFF, 0xFF];
        let read = |kind| {
            let one = VectorStep { matrix: Kind(kind), offset: 1, ..step(1, 1) };
            product(one, &[2], &memory)[0] as i32
        };
        assert_eq!([read(0), read(1), read(2), read(3)], [510, -2, 130_558, -514]);
        assert_eq!([read(4), read(5)], [-514, -514]);
    }

    #[test]
    fn plain_components_saturate() {
        let component = |own: u8, bits: u32, kind: u8| {
            let step =
                VectorStep { interpretation: Interpretation::Plain(Kind(kind)), ..step(1, 1) };
            step.component(&column(Kind(own), &[bits]), 0)
        };
        let minus = |number: i32| -number as u32;
        // Wider to narrower, at both ends.
        assert_eq!([component(2, 300, 0), component(4, 1 << 31, 0)], [255, 255]);
        assert_eq!([component(3, 0xFFFF, 0), component(5, minus(1), 2)], [0, 0]);
        assert_eq!([component(3, 0xFF7F, 1), component(5, minus(128), 1)], [-128, -128]);
        assert_eq!([component(2, 128, 1), component(5, 127, 1)], [127, 127]);
        assert_eq!([component(5, 70_000, 2), component(5, 70_000, 3)], [65_535, 32_767]);
        assert_eq!([component(5, minus(70_000), 3), component(5, minus(7), 3)], [-32_768, -7]);
        // Between equal widths, and from a narrower signed one to a wider unsigned one.
        assert_eq!([component(0, 200, 1), component(1, 0xFF, 0)], [127, 0]);
        assert_eq!([component(2, 0xFFFF, 3), component(3, 0x8000, 2)], [32_767, 0]);
        assert_eq!([component(4, 1 << 31, 5), component(5, minus(1), 4)], [i64::from(i32::MAX), 0]);
        assert_eq!([component(1, 0x80, 2), component(1, 0x80, 4)], [0, 0]);
        // What fits stays.
        assert_eq!([component(1, 0x80, 5), component(0, 255, 3)], [-128, 255]);
        assert_eq!(component(4, u32::MAX, 4), i64::from(u32::MAX));
        assert_eq!(component(5, 1 << 31, 5), i64::from(i32::MIN));
    }

    #[test]
    fn packed_components_are_bytes_lowest_first() {
        let words = column(Kind::U32, &[0x807F_0201, 0xAABB_FF80]);
        let components = |kind| {
            let packed = VectorStep { interpretation: Interpretation::Packed(kind), ..step(1, 6) };
            assert_eq!(packed.check(Some(words.type_), 6), Ok(packed.result_type()));
            let components: Vec<i64> = (0..6).map(|i| packed.component(&words, i)).collect();
            // Ones add the components up; the unused bytes AA and BB stay out.
            let sum: i64 = components.iter().sum();
            assert_eq!(packed.perform(&words, &[1; 6]).elements, [sum as u32]);
            components
        };
        assert_eq!(components(Kind::S8), [1, 2, 127, -128, -128, -1]);
        assert_eq!(components(Kind::U8), [1, 2, 127, 128, 128, 255]);
    }

    #[test]
    fn the_bias_is_32_bits_a_row() {
        let memory = [3, 0, 1, 0, 0, 0, 0xFE, 0xFF, 0xFF, 0xFF];
        let with_bias = VectorStep { bias: Some(2), ..step(2, 1) };
        assert_eq!(product(with_bias, &[5], &memory), [16, 0xFFFF_FFFE]);
        let signed = VectorStep { kind: Kind::S32, ..with_bias };
        assert_eq!(product(signed, &[5], &memory), [16, 0xFFFF_FFFE]);
    }

    #[test]
    fn sums_wrap() {
        let ones = [0xFF; 12];
        let wide = VectorStep { matrix: Kind::U32, stride: 8, bias: Some(8), ..step(1, 2) };
        // Twice (2^32 - 1)^2 is 2, and the bias takes 1 away.
        let as_u32 = VectorStep { interpretation: Interpretation::Plain(Kind::U32), ..wide };
        let input = column(Kind::U32, &[u32::MAX; 2]);
        assert_eq!(as_u32.perform(&input, &ones).elements, [1]);
        assert_eq!(product(wide, &[i32::MIN, 1], &ones), [0x7FFF_FFFE]);
    }

    #[test]
    fn memory_ends_after_the_last_byte_read() {
        let matrix = VectorStep { matrix: Kind(2), stride: 7, offset: 3, ..step(2, 3) };
        assert_eq!(past_memory(matrix, 16), None);
        assert_eq!(past_memory(matrix, 15), Some((Cause::MatrixPastMemory, 5)));
        assert_eq!(past_memory(matrix, 9), Some((Cause::MatrixPastMemory, 3)));
        let with_bias = VectorStep { bias: Some(9), ..matrix };
        assert_eq!(past_memory(with_bias, 17), None);
        assert_eq!(past_memory(with_bias, 16), Some((Cause::BiasPastMemory, 7)));
        // The matrix comes before the bias, wherever it lies.
        assert_eq!(past_memory(with_bias, 12), Some((Cause::MatrixPastMemory, 4)));
        let far = VectorStep { offset: u32::MAX, stride: u16::MAX, ..step(16, 16) };
        assert_eq!(past_memory(far, 65_536), Some((Cause::MatrixPastMemory, 0)));
    }

    #[test]
    fn elements_are_numbered_by_row_in_both_layouts() {
        let by_column = VectorStep { layout: MemoryLayout::ColumnMajor, stride: 10, ..step(2, 2) };
        assert_eq!(past_memory(by_column, 12), None);
        assert_eq!(past_memory(by_column, 11), Some((Cause::MatrixPastMemory, 3)));
        assert_eq!(past_memory(by_column, 10), Some((Cause::MatrixPastMemory, 1)));
        // Rows on the same bytes: the first row is the first to leave memory.
        let same = VectorStep { stride: 0, ..step(2, 3) };
        assert_eq!(past_memory(same, 2), Some((Cause::MatrixPastMemory, 2)));
    }

    #[test]
    fn an_input_is_empty_then_misshapen_then_read() {
        let far = VectorStep { offset: 100, ..step(1, 5) };
        let refused = |step: VectorStep, kind, rows, columns| {
            step.check(Some(Type { kind, rows, columns }), 0).expect_err("refused")
        };
        assert_eq!(far.check(None, 0), Err((Cause::EmptyInput, 0)));
        assert_eq!(refused(far, Kind::U8, 4, 1), (Cause::InputShape, 0));
        assert_eq!(refused(far, Kind::U8, 1, 5), (Cause::InputShape, 0));
        assert_eq!(refused(far, Kind::U8, 5, 1), (Cause::MatrixPastMemory, 0));
        let packed = VectorStep { interpretation: Interpretation::Packed(Kind::U8), ..far };
        assert_eq!(refused(packed, Kind::S32, 2, 1), (Cause::PackedKind, 0));
        assert_eq!(refused(packed, Kind::U32, 1, 1), (Cause::PackedShape, 0));
        assert_eq!(refused(packed, Kind::U32, 3, 1), (Cause::PackedShape, 0));
        assert_eq!(refused(packed, Kind::U32, 2, 2), (Cause::PackedShape, 0));
        assert_eq!(refused(packed, Kind::U32, 2, 1), (Cause::MatrixPastMemory, 0));
    }
}
