//! Random sheets with stores next to each other: apart, side by side, and on the same bytes.

use crate::generate::{layout, prepare, view, Generated, StepMaker};
use crate::random::Random;
use crate::reference::{
    sheet_bytes, ClampMode, Dimension, Edition, Kind, Layout, Sheet, Step, Type, Types,
    ELEMENTS_MAX, MEMORY_MAX, REGISTERS,
};

/// Bases are multiples of so many bytes.
const PARAGRAPH: usize = 16;
/// How far apart the bases are, in paragraphs.
const PARAGRAPHS_APART: [usize; 10] = [0, 0, 0, 0, 1, 1, 2, 4, 16, 64];
/// The refusals that one of the stores may get.
const REFUSALS: [u32; 10] = [7, 9, 10, 11, 12, 12, 12, 13, 14, 15];
/// Those that need no layout and no view of their own.
const PLAIN_REFUSALS: [u32; 3] = [7, 9, 14];
/// How many stores are proposed until one is taken.
const TRIES: usize = 200;
/// Shapes beside random ones: one element, and those with which some kinds fill paragraphs.
const SHAPES: [(usize, usize); 7] = [(1, 1), (1, 1), (1, 4), (4, 4), (2, 8), (1, 16), (8, 8)];
/// The most elements of a matrix: no index of an element comes to it.
pub const ELEMENTS: u16 = ELEMENTS_MAX as u16;
/// The first layout of each sheet, by which registers are loaded.
const LINE: usize = 0;

/// A random sheet with a run of neighbouring stores; now and then one of them is refused.
pub fn neighbouring_stores(random: &mut Random, edition: Edition) -> Generated {
    let memory_len = random.pick(&[1_024, 4_096, MEMORY_MAX]);
    let layouts = vec![line(random), every_other(random)];
    let mut sheet = Sheet { edition, layouts, ..Sheet::default() };
    let wanted = random.percent(40).then(|| random.pick(&REFUSALS));
    if let Some(number) = wanted {
        prepare(random, &mut sheet, number);
    }
    if random.percent(50) {
        sheet.layouts.push(layout(random));
    }
    if random.percent(50) {
        let view = view(random, &sheet.layouts);
        sheet.views.push(view);
    }
    let home = PARAGRAPH * random.below(memory_len / PARAGRAPH / 2);
    let maker = StepMaker { random, types: Types::default(), memory_len };
    Neighbours { maker, home }.add_steps(&mut sheet, wanted);
    Generated { sheet: sheet_bytes(&sheet), memory_len }
}

/// Elements one after the other, some of the later ones outside.
pub fn line(random: &mut Random) -> Layout {
    let (size, offset) = (random.pick(&[16, 64, ELEMENTS]), random.pick(&[0, 0, 0, -1, 1]));
    let dimension = Dimension { block_size: 1, size, stride: 1, offset, span: ELEMENTS };
    let clamp_mode = random.pick(&[ClampMode::Constant, ClampMode::Repeat]);
    Layout { clamp_mode, clamp_value: random.bits() as u32, dimensions: vec![dimension] }
}

/// Elements at every second or every fourth place, most often not from the first on. Where they
/// are shorter than another store's, they lie within its elements, past their first bytes.
fn every_other(random: &mut Random) -> Layout {
    let stride = random.pick(&[2, 4]);
    let place = random.below(usize::from(stride)) as i16;
    let dimensions = vec![
        Dimension { block_size: 1, size: stride, stride: 1, offset: place, span: 1 },
        Dimension { block_size: 1, size: ELEMENTS, stride, offset: 0, span: ELEMENTS },
    ];
    Layout { clamp_mode: ClampMode::Constant, clamp_value: 0, dimensions }
}

/// Makes the steps of such a sheet, with bases from one on.
struct Neighbours<'a> {
    maker: StepMaker<'a>,
    home: usize,
}

impl Neighbours<'_> {
    fn add_steps(&mut self, sheet: &mut Sheet, wanted: Option<u32>) {
        for register in 0..self.maker.random.between(2, REGISTERS) {
            self.add_register(sheet, register);
        }
        self.add_others(sheet);
        self.add_stores(sheet, wanted);
        let load = self.load(sheet);
        self.maker.add(sheet, load, None);
        self.add_others(sheet);
    }

    /// A matrix in a register, now and then of the type of the one before, most often with elements
    /// that differ.
    fn add_register(&mut self, sheet: &mut Sheet, register: usize) {
        let before = register.checked_sub(1).and_then(|before| self.maker.types[before]);
        let type_ = match before {
            Some(type_) if self.maker.random.percent(40) => type_,
            _ => self.any_type(),
        };
        let fill = self.maker.fill_of(register, type_);
        self.maker.add(sheet, fill, None);
        if self.maker.random.percent(70) {
            let base = self.base();
            let load = Step::Load { register, object: None, layout: LINE, view: None, base };
            self.maker.add(sheet, load, None);
        }
    }

    fn any_type(&mut self) -> Type {
        let kind = Kind(self.maker.random.below(6) as u8);
        let (rows, columns) = if self.maker.random.percent(80) {
            self.maker.random.pick(&SHAPES)
        } else {
            (self.maker.side(), self.maker.side())
        };
        Type { kind, rows, columns }
    }

    /// Up to three accepted steps of any sort.
    fn add_others(&mut self, sheet: &mut Sheet) {
        let count = sheet.steps.len() + self.maker.random.below(4);
        self.maker.add_steps(sheet, count, None);
    }

    /// Accepted stores, and somewhere among them one with the refusal that is wanted; now and then
    /// another refused one behind it.
    fn add_stores(&mut self, sheet: &mut Sheet, wanted: Option<u32>) {
        let random = &mut *self.maker.random;
        let mut stores = vec![None; random.between(2, 5)];
        if let Some(number) = wanted {
            let place = random.below(stores.len() + 1);
            if random.percent(30) {
                let plain = random.pick(&PLAIN_REFUSALS);
                stores.insert(place, Some(random.pick(&[number, plain])));
            }
            stores.insert(place, wanted);
        }
        for wanted in stores {
            self.add_store(sheet, wanted);
        }
    }

    /// The first of some proposed stores that is accepted, or gets the refusal that is wanted.
    fn add_store(&mut self, sheet: &mut Sheet, wanted: Option<u32>) {
        for _ in 0..TRIES {
            let store = match wanted {
                Some(_) => self.maker.store(sheet),
                None => self.store(sheet),
            };
            if self.maker.add(sheet, store, wanted) {
                return;
            }
        }
    }

    /// A store near the others, now and then at the places of the one before.
    fn store(&mut self, sheet: &Sheet) -> Step {
        let register = self.maker.register();
        if let Some(&Step::Store { layout, view, base, .. }) = sheet.steps.last() {
            if self.maker.random.percent(25) {
                return Step::Store { register, layout, view, base };
            }
        }
        let layout = self.maker.random.below(sheet.layouts.len());
        Step::Store { register, layout, view: self.maker.view(sheet), base: self.base() }
    }

    fn load(&mut self, sheet: &Sheet) -> Step {
        let (register, object) = (self.maker.any_register(), self.maker.register());
        let layout = self.maker.random.below(sheet.layouts.len());
        Step::Load { register, object: Some(object), layout, view: None, base: self.base() }
    }

    fn base(&mut self) -> u32 {
        (self.home + PARAGRAPH * self.maker.random.pick(&PARAGRAPHS_APART)) as u32
    }
}
