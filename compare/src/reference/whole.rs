//! The whole steps: fill, reduce, transpose, multiply-add and vector. They go through no layout,
//! and the tape has each as one record.

use super::carry::Types;
use super::kind::Kind;
use super::refusal::Cause;
use super::registers::{Matrix, Registers, Type};
use super::sheet::{Combine, ReduceMode, Step};

/// The type of the result of a whole step, or 7, 8 or 14 and the element that it names, or 0;
/// None for a load or a store.
pub fn whole_type(
    step: &Step,
    types: &Types,
    memory_len: usize,
) -> Option<Result<Type, (Cause, usize)>> {
    let type_ = match *step {
        Step::Fill { rows, columns, kind, .. } => Ok(Type { kind, rows, columns }),
        Step::Reduce { source, rows, columns, mode, .. } => {
            reduced_type(types[source], rows, columns, mode)
        }
        Step::Transpose { source, .. } => transposed_type(types[source]),
        Step::MultiplyAdd { a, b, c, .. } => product_type(types[a], types[b], types[c]),
        Step::Vector(vector) => return Some(vector.check(types[vector.input], memory_len)),
        Step::Load { .. } | Step::Store { .. } => return None,
    };
    Some(type_.map_err(|cause| (cause, 0)))
}

/// A register that is read must not be empty.
pub fn read(register: Option<Type>) -> Result<Type, Cause> {
    register.ok_or(Cause::EmptyRegister)
}

fn reduced_type(
    source: Option<Type>,
    rows: usize,
    columns: usize,
    mode: ReduceMode,
) -> Result<Type, Cause> {
    let source = read(source)?;
    match mode {
        ReduceMode::Row if rows != source.rows => Err(Cause::ReduceRows),
        ReduceMode::Column if columns != source.columns => Err(Cause::ReduceColumns),
        ReduceMode::TwoByTwo if (2 * rows, 2 * columns) != (source.rows, source.columns) => {
            Err(Cause::ReduceHalves)
        }
        _ => Ok(Type { kind: source.kind, rows, columns }),
    }
}

fn transposed_type(source: Option<Type>) -> Result<Type, Cause> {
    let source = read(source)?;
    Ok(Type { kind: source.kind, rows: source.columns, columns: source.rows })
}

fn product_type(a: Option<Type>, b: Option<Type>, c: Option<Type>) -> Result<Type, Cause> {
    let (a, b, c) = (read(a)?, read(b)?, read(c)?);
    if a.rows != c.rows || a.columns != b.rows || b.columns != c.columns {
        return Err(Cause::MultiplyShapes);
    }
    if c.kind.size() != 4 {
        return Err(Cause::AccumulatorKind);
    }
    Ok(c)
}

/// Does a whole step that is known to be accepted.
pub fn do_whole(step: &Step, registers: &mut Registers, memory: &[u8]) {
    let of = |register: usize| registers[register].as_ref().expect("accepted");
    let (register, matrix) = match *step {
        Step::Fill { register, rows, columns, kind, value } => {
            (register, Matrix::filled(Type { kind, rows, columns }, value))
        }
        Step::Reduce { result, source, rows, columns, mode, combine } => {
            (result, reduced(of(source), rows, columns, mode, combine))
        }
        Step::Transpose { result, source } => (result, transposed(of(source))),
        Step::MultiplyAdd { result, a, b, c } => (result, product(of(a), of(b), of(c))),
        Step::Vector(vector) => (vector.result, vector.perform(of(vector.input), memory)),
        Step::Load { .. } | Step::Store { .. } => unreachable!("not a whole step"),
    };
    registers[register] = Some(matrix);
}

/// The matrix of a type whose element at a row and a column is given.
fn matrix_of(type_: Type, element: impl Fn(usize, usize) -> u32) -> Matrix {
    let mut elements = Vec::with_capacity(type_.elements());
    for row in 0..type_.rows {
        for column in 0..type_.columns {
            elements.push(element(row, column));
        }
    }
    Matrix { type_, elements }
}

fn reduced(
    source: &Matrix,
    rows: usize,
    columns: usize,
    mode: ReduceMode,
    combine: Combine,
) -> Matrix {
    let Type { kind, rows: source_rows, columns: source_columns } = source.type_;
    let over = |rows: std::ops::Range<usize>, columns: std::ops::Range<usize>| {
        rows.flat_map(|row| columns.clone().map(move |column| source.at(row, column)))
            .reduce(|left, right| combined(kind, combine, left, right))
            .expect("a matrix has elements")
    };
    let type_ = Type { kind, rows, columns };
    match mode {
        ReduceMode::Row => {
            let totals: Vec<u32> =
                (0..rows).map(|row| over(row..row + 1, 0..source_columns)).collect();
            matrix_of(type_, |row, _| totals[row])
        }
        ReduceMode::Column => {
            let totals: Vec<u32> =
                (0..columns).map(|column| over(0..source_rows, column..column + 1)).collect();
            matrix_of(type_, |_, column| totals[column])
        }
        ReduceMode::Both => {
            let total = over(0..source_rows, 0..source_columns);
            matrix_of(type_, |_, _| total)
        }
        ReduceMode::TwoByTwo => {
            matrix_of(type_, |row, column| over(2 * row..2 * row + 2, 2 * column..2 * column + 2))
        }
    }
}

/// Two elements combined: sums wrap at the kind's width, the smaller and the larger go by sign.
fn combined(kind: Kind, combine: Combine, left: u32, right: u32) -> u32 {
    match combine {
        Combine::Add => kind.low_bits(left.wrapping_add(right)),
        Combine::Min if kind.value(right) < kind.value(left) => right,
        Combine::Min => left,
        Combine::Max if kind.value(right) > kind.value(left) => right,
        Combine::Max => left,
        Combine::And => left & right,
        Combine::Or => left | right,
        Combine::Xor => left ^ right,
    }
}

fn transposed(source: &Matrix) -> Matrix {
    let Type { kind, rows, columns } = source.type_;
    matrix_of(Type { kind, rows: columns, columns: rows }, |row, column| source.at(column, row))
}

/// A times B plus C. The exact sum is at most 16 products of 32 bits each and one addend, so
/// it is taken in 128 bits and then modulo 2^32.
fn product(a: &Matrix, b: &Matrix, c: &Matrix) -> Matrix {
    matrix_of(c.type_, |row, column| {
        let addend = i128::from(c.type_.kind.value(c.at(row, column)));
        let products = (0..a.type_.columns).map(|k| {
            let left = a.type_.kind.value(a.at(row, k));
            let right = b.type_.kind.value(b.at(k, column));
            i128::from(left) * i128::from(right)
        });
        (addend + products.sum::<i128>()).rem_euclid(1 << 32) as u32
    })
}

#[cfg(test)]
mod tests {
    use super::*;

    fn matrix(kind: u8, rows: usize, columns: usize, elements: &[u32]) -> Matrix {
        let type_ = Type { kind: Kind(kind), rows, columns };
        Matrix { type_, elements: elements.to_vec() }
    }

    #[test]
    fn reductions_go_over_rows_columns_and_squares() {
        let source = matrix(0, 2, 4, &[1, 2, 3, 4, 10, 20, 30, 40]);
        let sum = |rows, columns, mode| reduced(&source, rows, columns, mode, Combine::Add);
        assert_eq!(sum(2, 1, ReduceMode::Row).elements, [10, 100]);
        assert_eq!(sum(2, 2, ReduceMode::Row).elements, [10, 10, 100, 100]);
        assert_eq!(sum(1, 4, ReduceMode::Column).elements, [11, 22, 33, 44]);
        assert_eq!(sum(1, 2, ReduceMode::Both).elements, [110, 110]);
        assert_eq!(sum(1, 2, ReduceMode::TwoByTwo).elements, [33, 77]);
    }

    #[test]
    fn the_smaller_and_the_larger_go_by_sign() {
        let of = |kind, combine| combined(Kind(kind), combine, 0x80, 0x7F);
        assert_eq!((of(0, Combine::Min), of(1, Combine::Min)), (0x7F, 0x80));
        assert_eq!((of(0, Combine::Max), of(1, Combine::Max)), (0x80, 0x7F));
        assert_eq!(combined(Kind(3), Combine::Add, 0xFFFF, 2), 1);
        assert_eq!(combined(Kind(4), Combine::Add, 0xFFFF_FFFF, 2), 1);
    }

    #[test]
    fn a_product_takes_each_kind_by_its_sign() {
        let minus_one = matrix(1, 1, 1, &[0xFF]);
        let many = matrix(0, 1, 1, &[0xFF]);
        let five = matrix(5, 1, 1, &[5]);
        assert_eq!(product(&minus_one, &many, &five).elements, [5u32.wrapping_sub(255)]);
        assert_eq!(product(&many, &many, &five).elements, [255 * 255 + 5]);
        assert_eq!(product(&minus_one, &minus_one, &five).elements, [6]);
    }
}
