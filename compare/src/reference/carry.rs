//! Carrying out a sheet: first every refusal, which depends on types and lengths alone, then
//! the steps, which can no longer fail.

use super::addressing::{divisions, Access, Addressing, Outcome};
use super::edition::Start;
use super::refusal::{Cause, Refusal};
use super::registers::{Matrix, Registers, Type};
use super::sheet::{read_sheet, Sheet, Step};
use super::whole::{do_whole, read, whole_type};
use super::{check_memory, REGISTERS};

/// The types of the registers.
pub type Types = [Option<Type>; REGISTERS];

/// A sheet that is accepted for a memory length: for each step the types that it finds, and what
/// becomes of its elements, none for a whole step.
#[derive(Clone)]
pub struct Checked {
    pub sheet: Sheet,
    pub memory_len: usize,
    pub types: Vec<Types>,
    pub outcomes: Vec<Vec<Outcome>>,
}

impl Checked {
    /// What each load and store addresses with, and what becomes of its elements.
    pub fn addressings(&self) -> impl Iterator<Item = (Addressing<'_>, &[Outcome])> {
        let steps = self.outcomes.iter().enumerate();
        steps.filter_map(|(step, outcomes)| Some((self.addressing(step)?, &outcomes[..])))
    }

    /// What a load or a store addresses with; None for a whole step.
    pub fn addressing(&self, step: usize) -> Option<Addressing<'_>> {
        let types = &self.types[step];
        let addressing = addressing(&self.sheet, &self.sheet.steps[step], types, self.memory_len)?;
        Some(addressing.expect("accepted"))
    }

    /// How many elements of loads and stores have a byte.
    pub fn byte_elements(&self) -> u32 {
        let placed = |outcome: &&Outcome| matches!(outcome, Outcome::Placed(_));
        self.outcomes.iter().flatten().filter(placed).count() as u32
    }

    /// How many divisions rule 3 counts over all elements of loads and stores, skipped ones aside.
    pub fn divisions(&self) -> u32 {
        let mut count = 0;
        for (addressing, _) in self.addressings() {
            for element in 0..addressing.type_.elements() {
                if let Some(index) = addressing.index(element).expect("accepted") {
                    count += divisions(&addressing.layout.dimensions, index);
                }
            }
        }
        count
    }

    /// What a load starts from; None for another step.
    pub fn start(&self, step: usize) -> Option<Start> {
        match self.sheet.steps[step] {
            Step::Load { object, .. } => Some(self.sheet.edition.start(object)),
            _ => None,
        }
    }

    /// Does a step, all before it being done.
    pub fn do_step(&self, number: usize, registers: &mut Registers, memory: &mut [u8]) {
        let (step, outcomes) = (&self.sheet.steps[number], &self.outcomes[number]);
        match *step {
            Step::Load { register, object, .. } => {
                let start = self.sheet.edition.start(object);
                let mut matrix = started(start, register, registers);
                load(&mut matrix, outcomes, memory);
                registers[register] = Some(matrix);
            }
            Step::Store { register, .. } => {
                store(registers[register].as_ref().expect("accepted"), outcomes, memory);
            }
            _ => do_whole(step, registers, memory),
        }
    }
}

/// What carrying out a sheet or running a tape leaves, memory aside.
pub struct Carried {
    pub registers: Registers,
    pub byte_elements: u32,
}

/// Refusals 18, 1 to 6 and 7 to 15, in this order.
pub fn check(sheet: &[u8], memory_len: usize) -> Result<Checked, Refusal> {
    check_memory(memory_len)?;
    let sheet = read_sheet(sheet)?;
    let mut now = Types::default();
    let mut types = Vec::with_capacity(sheet.steps.len());
    let mut outcomes = Vec::with_capacity(sheet.steps.len());
    for (number, step) in sheet.steps.iter().enumerate() {
        types.push(now);
        let of_step = check_step(&sheet, step, &mut now, memory_len);
        outcomes
            .push(of_step.map_err(|(cause, element)| Refusal::at_element(cause, number, element))?);
    }
    Ok(Checked { sheet, memory_len, types, outcomes })
}

/// Checks one step, gives what becomes of its elements and updates the types. A refusal has the
/// element that it names, or 0.
pub fn check_step(
    sheet: &Sheet,
    step: &Step,
    types: &mut Types,
    memory_len: usize,
) -> Result<Vec<Outcome>, (Cause, usize)> {
    let (type_, outcomes) = match addressing(sheet, step, types, memory_len) {
        Some(addressing) => {
            let addressing = addressing.map_err(|cause| (cause, 0))?;
            (addressing.type_, check_access(&addressing)?)
        }
        None => (whole_type(step, types, memory_len).expect("a whole step")?, Vec::new()),
    };
    types[step.register()] = Some(type_);
    Ok(outcomes)
}

/// What a load or a store addresses with, or 7; None for a whole step.
fn addressing<'a>(
    sheet: &'a Sheet,
    step: &Step,
    types: &Types,
    memory_len: usize,
) -> Option<Result<Addressing<'a>, Cause>> {
    let (access, source, layout, view, base) = match *step {
        Step::Load { register, object, layout, view, base } => {
            (Access::Load, object.unwrap_or(register), layout, view, base)
        }
        Step::Store { register, layout, view, base } => {
            (Access::Store, register, layout, view, base)
        }
        _ => return None,
    };
    let layout = &sheet.layouts[layout];
    let view = view.map(|view| &sheet.views[view]);
    let of_type = |type_| Addressing { access, layout, view, base, type_, memory_len };
    Some(read(types[source]).map(of_type))
}

/// Refusals 9 to 15 of a load or a store, and its outcomes.
fn check_access(addressing: &Addressing) -> Result<Vec<Outcome>, (Cause, usize)> {
    check_addressing(addressing).map_err(|cause| (cause, 0))?;
    let mut outcomes = Vec::with_capacity(addressing.type_.elements());
    for element in 0..addressing.type_.elements() {
        outcomes.push(addressing.locate(element).map_err(|cause| (cause, element))?);
    }
    if addressing.access == Access::Store {
        if let Some(element) = later_at_an_earlier_byte(&outcomes) {
            return Err((Cause::SharedByte, element));
        }
    }
    Ok(outcomes)
}

/// Refusals 9, 10 and 11.
fn check_addressing(addressing: &Addressing) -> Result<(), Cause> {
    let dimensions = &addressing.layout.dimensions;
    if !addressing.base.is_multiple_of(16) {
        return Err(Cause::Base);
    }
    if let Some(view) = addressing.view {
        if view.dimensions.is_none() && view.permutation.len() != dimensions.len() {
            return Err(Cause::ViewWithoutDimensions);
        }
    }
    if addressing.access == Access::Store && dimensions.iter().any(|d| d.block_size > 1) {
        return Err(Cause::StoreBlock);
    }
    Ok(())
}

/// Refusal 15: the first element that has an earlier one's byte. Elements of a step have one
/// size and lie a multiple of it from the base, so they share a byte only if they share all.
fn later_at_an_earlier_byte(outcomes: &[Outcome]) -> Option<usize> {
    (0..outcomes.len()).find(|&element| {
        matches!(outcomes[element], Outcome::Placed(_))
            && outcomes[..element].contains(&outcomes[element])
    })
}

/// Carries out a sheet on a memory, which is changed only if the sheet is accepted.
pub fn carry_out(sheet: &[u8], memory: &mut [u8]) -> Result<Carried, Refusal> {
    let checked = check(sheet, memory.len())?;
    let mut registers = Registers::default();
    for step in 0..checked.sheet.steps.len() {
        checked.do_step(step, &mut registers, memory);
    }
    Ok(Carried { registers, byte_elements: checked.byte_elements() })
}

/// The matrix that a load of a register starts from.
fn started(start: Start, register: usize, registers: &Registers) -> Matrix {
    let held = |register: usize| registers[register].as_ref().expect("accepted");
    match start {
        Start::Object(object) => held(object).clone(),
        Start::Own => held(register).clone(),
        Start::Zeros => Matrix::filled(held(register).type_, 0),
    }
}

/// A skipped element keeps what the load started from.
fn load(matrix: &mut Matrix, outcomes: &[Outcome], memory: &[u8]) {
    let size = matrix.type_.kind.size();
    for (element, outcome) in matrix.elements.iter_mut().zip(outcomes) {
        match *outcome {
            Outcome::Filled(bits) => *element = bits,
            Outcome::Placed(byte) => *element = bits_at(memory, byte, size),
            Outcome::Skipped | Outcome::Discarded => {}
        }
    }
}

fn store(matrix: &Matrix, outcomes: &[Outcome], memory: &mut [u8]) {
    let size = matrix.type_.kind.size();
    for (&element, outcome) in matrix.elements.iter().zip(outcomes) {
        if let Outcome::Placed(byte) = *outcome {
            put_bits(memory, byte, size, element);
        }
    }
}

/// The raw bits at a byte, little-endian.
pub fn bits_at(memory: &[u8], byte: usize, size: usize) -> u32 {
    let mut bytes = [0; 4];
    bytes[..size].copy_from_slice(&memory[byte..byte + size]);
    u32::from_le_bytes(bytes)
}

/// Writes raw bits at a byte, little-endian.
pub fn put_bits(memory: &mut [u8], byte: usize, size: usize, bits: u32) {
    memory[byte..byte + size].copy_from_slice(&bits.to_le_bytes()[..size]);
}

#[cfg(test)]
mod tests {
    use super::super::sheet::{sheet_bytes, ClampMode, Clip, Dimension, Layout, View};
    use super::super::{Edition, Kind};
    use super::*;

    fn fill(register: usize, rows: usize, columns: usize) -> Step {
        Step::Fill { register, rows, columns, kind: Kind::U8, value: 0 }
    }

    fn dimension(size: u16, stride: u16, span: u16) -> Dimension {
        Dimension { block_size: 1, size, stride, offset: 0, span }
    }

    /// The divisions of some steps after fills of register 0, 2 by 4, and register 1, 1 by 1. The
    /// layout has spans 2 by 4, of which 1 by 3 places are inside; the view has columns 1 and 2.
    fn divisions_of(steps: &[&Step]) -> u32 {
        let layout = Layout {
            clamp_mode: ClampMode::Constant,
            clamp_value: 0,
            dimensions: vec![dimension(1, 3, 2), dimension(3, 1, 4)],
        };
        let view = View {
            permutation: vec![0, 1],
            dimensions: None,
            clip: Clip { row_offset: 0, row_span: 2, column_offset: 1, column_span: 2 },
        };
        let mut sheet = Sheet { layouts: vec![layout], views: vec![view], ..Sheet::default() };
        sheet.steps = vec![fill(0, 2, 4), fill(1, 1, 1)];
        sheet.steps.extend(steps.iter().copied().cloned());
        check(&sheet_bytes(&sheet), 3).map(|checked| checked.divisions()).expect("accepted")
    }

    #[test]
    fn a_load_without_an_object_reads_its_own_register() {
        let dimensions = vec![dimension(8, 1, 8)];
        let layout = Layout { clamp_mode: ClampMode::Undefined, clamp_value: 0, dimensions };
        let checked = |edition, register, object| {
            let load = Step::Load { register, object, layout: 0, view: None, base: 0 };
            let (layouts, steps) = (vec![layout.clone()], vec![fill(0, 2, 4), load]);
            check(&sheet_bytes(&Sheet { edition, layouts, steps, ..Sheet::default() }), 8)
        };
        let empty = Refusal::at(Cause::EmptyRegister, 1);
        for edition in Edition::ALL {
            assert!(checked(edition, 0, None).is_ok());
            assert!(checked(edition, 1, Some(0)).is_ok());
            assert_eq!(checked(edition, 1, None).err(), Some(empty));
            assert_eq!(checked(edition, 0, Some(1)).err(), Some(empty));
        }
    }

    #[test]
    fn divisions_are_those_of_all_elements_of_loads_and_stores() {
        let load = Step::Load { register: 1, object: Some(0), layout: 0, view: None, base: 0 };
        let clipped = Step::Load { register: 0, object: None, layout: 0, view: Some(0), base: 0 };
        let store = Step::Store { register: 1, layout: 0, view: None, base: 0 };
        let transpose = Step::Transpose { result: 2, source: 0 };
        // The object's indices 0 to 7: one each for 1 to 3, two each from 4 on. Those from 3 on
        // are outside.
        assert_eq!(divisions_of(&[&load]), 11);
        // Four elements are skipped; the others have indices 0 to 3.
        assert_eq!(divisions_of(&[&clipped]), 3);
        assert_eq!(divisions_of(&[&store]), 0);
        assert_eq!(divisions_of(&[&load, &store]), 22);
        assert_eq!(divisions_of(&[&transpose]), 0);
        assert_eq!(divisions_of(&[&clipped, &load, &transpose, &store]), 25);
    }
}
