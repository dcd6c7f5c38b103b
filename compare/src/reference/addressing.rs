//! Where an element goes: rules 1 to 5 for one element of a load or a store.

use super::refusal::Cause;
use super::registers::Type;
use super::sheet::{ClampMode, Dimension, Layout, View};

/// The most dimensions of a layout or a view.
pub const DIMENSIONS_MAX: usize = 5;

/// Which way the elements go.
#[derive(Clone, Copy, PartialEq, Eq, Debug)]
pub enum Access {
    Load,
    Store,
}

/// What becomes of an element.
#[derive(Clone, Copy, PartialEq, Eq, Debug)]
pub enum Outcome {
    Skipped,
    Filled(u32),
    Discarded,
    /// The element's first byte.
    Placed(usize),
}

impl Outcome {
    /// The first byte of a placed element.
    pub fn byte(self) -> Option<usize> {
        match self {
            Outcome::Placed(byte) => Some(byte),
            Outcome::Skipped | Outcome::Filled(_) | Outcome::Discarded => None,
        }
    }
}

/// On which side of its dimension a coordinate lies that is not inside.
#[derive(Clone, Copy, PartialEq, Eq, Debug)]
pub enum Side {
    Below,
    Above,
}

/// A dimension in which an element is not inside.
#[derive(Clone, Copy, PartialEq, Eq, Debug)]
pub struct Outside {
    pub dimension: usize,
    pub side: Side,
}

/// What a load or a store addresses with.
pub struct Addressing<'a> {
    pub access: Access,
    pub layout: &'a Layout,
    pub view: Option<&'a View>,
    pub base: u32,
    pub type_: Type,
    pub memory_len: usize,
}

impl Addressing<'_> {
    /// The outcome of an element, or 12, 13 or 14.
    pub fn locate(&self, element: usize) -> Result<Outcome, Cause> {
        let Some(index) = self.index(element)? else {
            return Ok(Outcome::Skipped);
        };
        let span_coordinates = span_coordinates(&self.layout.dimensions, index);
        match self.tensor_coordinates(&span_coordinates)? {
            Clamped::Inside(coordinates) => self.byte(&coordinates),
            Clamped::Filled => {
                Ok(Outcome::Filled(self.type_.kind.low_bits(self.layout.clamp_value)))
            }
            Clamped::Discarded => Ok(Outcome::Discarded),
        }
    }

    /// The first dimension, from 0 up, in which an element is not inside, if any; none for a
    /// skipped element; or 12.
    pub fn outside(&self, element: usize) -> Result<Option<Outside>, Cause> {
        let Some(index) = self.index(element)? else {
            return Ok(None);
        };
        Ok(self.all_outside(index).next())
    }

    /// The dimensions, from 0 up, in which an index is not inside.
    pub fn all_outside(&self, index: u64) -> impl Iterator<Item = Outside> + '_ {
        let coordinates = self.coordinates(index);
        self.layout.dimensions.iter().enumerate().filter_map(move |(i, dimension)| {
            side(coordinates[i], dimension).map(|side| Outside { dimension: i, side })
        })
    }

    /// Rules 1 and 2: an element's index, none if it is skipped; or 12.
    pub fn index(&self, element: usize) -> Result<Option<u64>, Cause> {
        let row = element / self.type_.columns;
        let column = element % self.type_.columns;
        let Some(index) = self.matrix_index(row, column) else {
            return Ok(None);
        };
        let index = self.view_index(index);
        if index >= 1 << 32 {
            return Err(Cause::IndexTooLarge);
        }
        Ok(Some(index))
    }

    /// Rule 1: the element's number, with a view within its clip; none outside the clip.
    fn matrix_index(&self, row: usize, column: usize) -> Option<u64> {
        let (row, column, columns) = (row as u64, column as u64, self.type_.columns as u64);
        let Some(view) = self.view else {
            return Some(row * columns + column);
        };
        let row = within(row, view.clip.row_offset, view.clip.row_span)?;
        let column = within(column, view.clip.column_offset, view.clip.column_span)?;
        let width = columns.min(u64::from(view.clip.column_span));
        Some(row * width + column)
    }

    /// Rule 2: the index through the view's dimensions and permutation.
    fn view_index(&self, index: u64) -> u64 {
        let Some(view) = self.view else {
            return index;
        };
        let (sizes, strides) = match &view.dimensions {
            Some(dimensions) => (
                five(dimensions.iter().map(|d| u64::from(d.size))),
                five(dimensions.iter().map(|d| u64::from(d.stride))),
            ),
            None => {
                let spans = five(self.layout.dimensions.iter().map(|d| u64::from(d.span)));
                (spans, row_major(&spans, self.layout.dimensions.len()))
            }
        };
        let mut rest = index;
        let mut sum = 0;
        for &i in view.permutation.iter().rev() {
            sum += rest % sizes[i] * strides[i];
            rest /= sizes[i];
        }
        sum
    }

    /// Rule 3 and the beginning of rule 4: the coordinates of an index, which may be outside.
    pub fn coordinates(&self, index: u64) -> Vec<i64> {
        let dimensions = &self.layout.dimensions;
        let span_coordinates = span_coordinates(dimensions, index);
        dimensions.iter().zip(span_coordinates).map(|(d, c)| with_offset(d, c)).collect()
    }

    /// Rule 4: each coordinate with its offset, clamped by its side.
    fn tensor_coordinates(&self, span_coordinates: &[u64; 5]) -> Result<Clamped, Cause> {
        let mut coordinates = [0; DIMENSIONS_MAX];
        for (i, dimension) in self.layout.dimensions.iter().enumerate() {
            let c = with_offset(dimension, span_coordinates[i]);
            let n = i64::from(dimension.size);
            coordinates[i] = match (side(c, dimension), self.layout.clamp_mode, self.access) {
                (None, _, _) => c,
                (Some(_), ClampMode::Undefined, _) => return Err(Cause::Undefined),
                (Some(_), _, Access::Store) => return Ok(Clamped::Discarded),
                (Some(_), ClampMode::Constant, Access::Load) => return Ok(Clamped::Filled),
                (Some(Side::Below), ClampMode::ClampToEdge, Access::Load) => 0,
                (Some(Side::Above), ClampMode::ClampToEdge, Access::Load) => n - 1,
                (Some(_), ClampMode::Repeat, Access::Load) => c.rem_euclid(n),
                (Some(_), ClampMode::MirrorRepeat, Access::Load) => mirrored(c, n),
            };
        }
        Ok(Clamped::Inside(coordinates))
    }

    /// Rule 5: the tensor index and the byte; 14 where the bytes do not all lie in memory.
    fn byte(&self, coordinates: &[i64; 5]) -> Result<Outcome, Cause> {
        let tensor_index: u64 = self
            .layout
            .dimensions
            .iter()
            .zip(coordinates)
            .map(|(d, &c)| c as u64 / u64::from(d.block_size) * u64::from(d.stride))
            .sum();
        let size = self.type_.kind.size() as u64;
        let byte = u64::from(self.base) + tensor_index * size;
        if byte + size > self.memory_len as u64 {
            return Err(Cause::PastMemory);
        }
        Ok(Outcome::Placed(byte as usize))
    }
}

/// What rule 4 gives.
enum Clamped {
    Inside([i64; DIMENSIONS_MAX]),
    Filled,
    Discarded,
}

/// A row or a column relative to its clip, if it is in it.
fn within(position: u64, offset: u16, span: u16) -> Option<u64> {
    let relative = position.checked_sub(u64::from(offset))?;
    (relative < u64::from(span)).then_some(relative)
}

/// Rule 3: from the last dimension to the first, remainder and quotient by the span.
fn span_coordinates(dimensions: &[Dimension], index: u64) -> [u64; 5] {
    let mut coordinates = [0; DIMENSIONS_MAX];
    let mut rest = index;
    for (i, dimension) in dimensions.iter().enumerate().rev() {
        coordinates[i] = rest % u64::from(dimension.span);
        rest /= u64::from(dimension.span);
    }
    coordinates
}

/// The index that rule 3 has at each dimension: what the divisions by the later spans leave.
pub fn indices(dimensions: &[Dimension], index: u64) -> [u64; 5] {
    let mut indices = [0; DIMENSIONS_MAX];
    let mut rest = index;
    for (i, dimension) in dimensions.iter().enumerate().rev() {
        indices[i] = rest;
        rest /= u64::from(dimension.span);
    }
    indices
}

/// Whether rule 3 counts a division in a dimension: its span is above 1 while the index isn't 0.
pub fn divides(dimension: &Dimension, index: u64) -> bool {
    dimension.span > 1 && index != 0
}

/// The divisions that rule 3 counts for an index.
pub fn divisions(dimensions: &[Dimension], index: u64) -> u32 {
    let met = dimensions.iter().zip(indices(dimensions, index));
    met.filter(|&(dimension, index)| divides(dimension, index)).count() as u32
}

/// A coordinate of a dimension, which may be outside.
fn with_offset(dimension: &Dimension, span_coordinate: u64) -> i64 {
    span_coordinate as i64 + i64::from(dimension.offset)
}

/// The side on which a coordinate lies, unless it is inside its dimension.
pub fn side(c: i64, dimension: &Dimension) -> Option<Side> {
    if c < 0 {
        Some(Side::Below)
    } else if c >= i64::from(dimension.size) {
        Some(Side::Above)
    } else {
        None
    }
}

/// MirrorRepeat; for a dimension of 1, where the source divides by zero, 0.
fn mirrored(c: i64, n: i64) -> i64 {
    if n == 1 {
        return 0;
    }
    let m = 2 * n - 2;
    let c = c.rem_euclid(m);
    if c >= n {
        m - c
    } else {
        c
    }
}

/// The row-major strides over the first `count` spans.
fn row_major(spans: &[u64; 5], count: usize) -> [u64; 5] {
    let mut strides = [0; DIMENSIONS_MAX];
    let mut stride = 1;
    for i in (0..count).rev() {
        strides[i] = stride;
        stride *= spans[i];
    }
    strides
}

/// Up to five numbers in five places.
fn five(numbers: impl Iterator<Item = u64>) -> [u64; 5] {
    let mut places = [0; DIMENSIONS_MAX];
    for (place, number) in places.iter_mut().zip(numbers) {
        *place = number;
    }
    places
}

#[cfg(test)]
mod tests {
    use super::*;

    #[test]
    fn mirrors_at_both_ends() {
        let around: Vec<i64> = (-7..9).map(|c| mirrored(c, 4)).collect();
        assert_eq!(around, [1, 0, 1, 2, 3, 2, 1, 0, 1, 2, 3, 2, 1, 0, 1, 2]);
        assert!((-5..6).all(|c| mirrored(c, 1) == 0));
        assert_eq!((-3..4).map(|c| mirrored(c, 2)).collect::<Vec<_>>(), [1, 0, 1, 0, 1, 0, 1]);
    }

    /// Dimensions of which the spans alone matter.
    fn with_spans(spans: &[u16]) -> Vec<Dimension> {
        let of_span = |&span| Dimension { block_size: 1, size: 1, stride: 1, offset: 0, span };
        spans.iter().map(of_span).collect()
    }

    #[test]
    fn a_division_takes_a_span_above_1_and_an_index_above_0() {
        let spans = with_spans(&[1, 1, 4, 1, 8]);
        assert_eq!(indices(&spans, 37), [1, 1, 4, 4, 37]);
        assert_eq!(divisions(&spans, 37), 2);
        assert_eq!(indices(&spans, 5), [0, 0, 0, 0, 5]);
        assert_eq!(divisions(&spans, 5), 1);
        // 8 leaves 1, which 4 divides; what is left is 0 or, from the spans' product on, more.
        assert_eq!([7, 8, 31, 32, 4_000_000_000].map(|i| divisions(&spans, i)), [1, 2, 2, 2, 2]);
        assert_eq!(divisions(&spans, 0), 0);
        assert_eq!(divisions(&with_spans(&[1, 1, 1, 1, 1]), u64::from(u32::MAX)), 0);
    }

    #[test]
    fn a_dimension_counts_by_the_index_that_the_later_ones_leave() {
        let twos = with_spans(&[2, 2, 2, 2, 2]);
        let counts = [0, 1, 2, 3, 4, 8, 15, 16, 31, 32, 33].map(|index| divisions(&twos, index));
        assert_eq!(counts, [0, 1, 2, 2, 3, 4, 4, 5, 5, 5, 5]);
        let past = with_spans(&[3, 1, 2]);
        assert_eq!(indices(&past, 13)[..3], [6, 6, 13]);
        assert_eq!(divisions(&past, 13), 2);
        assert_eq!(divisions(&with_spans(&[1, 3]), 1), 1);
        assert_eq!(divisions(&with_spans(&[3, 1]), 1), 1);
    }

    #[test]
    fn a_dimension_is_inside_from_0_to_below_its_size() {
        let of_size = |size| Dimension { block_size: 1, size, stride: 1, offset: 0, span: 1 };
        let sides = |size| [-4_096, -1, 0, 2, 3, 8_190].map(|c| side(c, &of_size(size)));
        let (below, above) = (Some(Side::Below), Some(Side::Above));
        assert_eq!(sides(3), [below, below, None, None, above, above]);
        assert_eq!(sides(1), [below, below, None, above, above, above]);
    }

    #[test]
    fn a_clip_ends_at_its_offset_plus_its_span() {
        assert_eq!(within(1, 2, 3), None);
        assert_eq!(within(2, 2, 3), Some(0));
        assert_eq!(within(4, 2, 3), Some(2));
        assert_eq!(within(5, 2, 3), None);
        assert_eq!(within(0, 0, 0), None);
        assert_eq!(within(15, 15, 65_535), Some(0));
    }
}
