//! The four registers.

use super::kind::Kind;
use super::REGISTERS;

/// The type of a matrix: its kind and its sides.
#[derive(Clone, Copy, PartialEq, Eq, Debug)]
pub struct Type {
    pub kind: Kind,
    pub rows: usize,
    pub columns: usize,
}

impl Type {
    /// The number of elements.
    pub fn elements(self) -> usize {
        self.rows * self.columns
    }
}

/// A matrix, its elements as raw bits, row by row.
#[derive(Clone, PartialEq, Eq, Debug)]
pub struct Matrix {
    pub type_: Type,
    pub elements: Vec<u32>,
}

impl Matrix {
    /// The matrix of a type whose elements are all alike.
    pub fn filled(type_: Type, value: u32) -> Matrix {
        Matrix { type_, elements: vec![value; type_.elements()] }
    }

    /// The element at a row and a column.
    pub fn at(&self, row: usize, column: usize) -> u32 {
        self.elements[row * self.type_.columns + column]
    }
}

/// The register file: each register is empty or holds a matrix.
pub type Registers = [Option<Matrix>; REGISTERS];
