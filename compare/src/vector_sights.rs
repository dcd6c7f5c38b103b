//! What vector steps are to be seen doing, and what one of them does.

use crate::reference::{Interpretation, Kind, Matrix, MemoryLayout, VectorStep, COMPONENTS_A_WORD};

/// A vector step was run from its sheet's tape.
pub const RECORD: &str = "record of a vector step";
const RESULT_IN_INPUT: &str = "vector result in its input";
/// Of the matrix and of the bias.
const LAST_BYTE: [&str; 2] = ["matrix to memory's last byte", "bias to memory's last byte"];
const ONE_BEYOND: [&str; 2] = ["matrix one byte beyond memory", "bias one byte beyond memory"];

/// What an accepted vector step does with its input and a memory of some length.
pub fn of_accepted(vector: &VectorStep, input: &Matrix, memory_len: usize) -> Vec<String> {
    let mut sights = match vector.interpretation {
        Interpretation::Plain(kind) => plain_sights(kind, input),
        Interpretation::Packed(kind) => {
            vec![packed(kind, vector.k.next_multiple_of(COMPONENTS_A_WORD) - vector.k)]
        }
    };
    sights.push(to_kind(vector.kind, vector.bias.is_some()));
    sights.push(by_matrix(vector.layout, vector.matrix));
    let (lines, line) = vector.lines();
    let stride = usize::from(vector.stride);
    if lines > 1 && stride < line {
        sights.push(short_stride(vector.layout, stride == 0));
    }
    if vector.input == vector.result {
        sights.push(String::from(RESULT_IN_INPUT));
    }
    for (element, place) in vector.places().enumerate() {
        if place.end == memory_len as u64 {
            sights.push(of_element(LAST_BYTE, vector, element));
        }
    }
    sights
}

/// What a vector step does that gets 14 at an element.
pub fn of_refused(vector: &VectorStep, element: usize, memory_len: usize) -> Option<String> {
    let place = vector.places().nth(element)?;
    (place.end == memory_len as u64 + 1).then(|| of_element(ONE_BEYOND, vector, element))
}

fn of_element([matrix, bias]: [&str; 2], vector: &VectorStep, element: usize) -> String {
    String::from(if element < vector.matrix_elements() { matrix } else { bias })
}

fn plain_sights(kind: Kind, input: &Matrix) -> Vec<String> {
    let own = input.type_.kind;
    let mut sights = vec![plain(own, kind)];
    for &bits in &input.elements {
        let number = own.value(bits);
        if kind.saturated(number) != number {
            sights.push(saturated(kind, number > 0));
        }
    }
    sights
}

/// Everything that vector steps are to be seen doing.
pub fn every() -> Vec<String> {
    let mut sights = [RECORD, RESULT_IN_INPUT].map(String::from).to_vec();
    sights.extend([LAST_BYTE, ONE_BEYOND].concat().into_iter().map(String::from));
    let kinds = || (0..6).map(Kind);
    for kind in kinds() {
        sights.extend(kinds().map(|own| plain(own, kind)));
    }
    // No number of a kind is below s32, and none is above u32.
    sights.extend(kinds().filter(|&kind| kind != Kind::S32).map(|kind| saturated(kind, false)));
    sights.extend(kinds().filter(|&kind| kind != Kind::U32).map(|kind| saturated(kind, true)));
    for kind in [Kind::S8, Kind::U8] {
        sights.extend((0..COMPONENTS_A_WORD).map(|unused| packed(kind, unused)));
    }
    for layout in [MemoryLayout::RowMajor, MemoryLayout::ColumnMajor] {
        sights.extend(kinds().map(|kind| by_matrix(layout, kind)));
        sights.extend([false, true].map(|is_zero| short_stride(layout, is_zero)));
    }
    for kind in [Kind::U32, Kind::S32] {
        sights.extend([false, true].map(|has_bias| to_kind(kind, has_bias)));
    }
    sights
}

fn plain(own: Kind, kind: Kind) -> String {
    format!("vector of kind {} as kind {}", own.0, kind.0)
}

fn saturated(kind: Kind, above: bool) -> String {
    format!("component {} kind {}", if above { "above" } else { "below" }, kind.0)
}

fn packed(kind: Kind, unused: usize) -> String {
    format!("vector packed as kind {}, {unused} unused", kind.0)
}

fn by_matrix(layout: MemoryLayout, kind: Kind) -> String {
    format!("vector by {layout:?} matrix of kind {}", kind.0)
}

fn short_stride(layout: MemoryLayout, is_zero: bool) -> String {
    let stride = if is_zero { "no stride" } else { "overlapping lines" };
    format!("vector by {layout:?} matrix, {stride}")
}

fn to_kind(kind: Kind, has_bias: bool) -> String {
    format!("vector to kind {} {} bias", kind.0, if has_bias { "with" } else { "without" })
}
