//! Random sheets of loads through clips that fit their matrices: without an object, with another
//! register as object, and with their own.

use crate::generate::{view, Generated, StepMaker, UNCLIPPED};
use crate::neighbours::{line, ELEMENTS};
use crate::random::Random;
use crate::reference::{
    sheet_bytes, Clip, Edition, Kind, Layout, Sheet, Type, Types, View, MEMORY_MAX, REGISTERS,
};

/// The refusal of a load whose register, or whose object, is empty.
const EMPTY_REGISTER: u32 = 7;

/// A random sheet of such loads; now and then one of them reads an empty register.
pub fn clipped_loads(random: &mut Random, edition: Edition) -> Generated {
    let memory_len = random.pick(&[4_096, MEMORY_MAX]);
    let layouts = vec![zeros_outside(random)];
    let maker = StepMaker { random, types: Types::default(), memory_len };
    let mut clipped = Clipped::new(maker);
    let views = (0..clipped.maker.random.between(1, 3)).map(|_| clipped.view(&layouts)).collect();
    let mut sheet = Sheet { edition, layouts, views, ..Sheet::default() };
    clipped.add_steps(&mut sheet);
    Generated { sheet: sheet_bytes(&sheet), memory_len }
}

/// Elements one after the other, from the first place on, from before it or from past the last.
/// Where what is outside gets a value, it is most often 0.
fn zeros_outside(random: &mut Random) -> Layout {
    let mut layout = line(random);
    layout.clamp_value = random.pick(&[0, 0, layout.clamp_value]);
    layout.dimensions[0].offset = random.pick(&[0, 0, -1, -4, ELEMENTS as i16]);
    layout
}

/// Makes the steps of such a sheet, most of them of matrices with the same sides.
struct Clipped<'a> {
    maker: StepMaker<'a>,
    rows: usize,
    columns: usize,
}

impl Clipped<'_> {
    fn new(mut maker: StepMaker) -> Clipped {
        let (rows, columns) = (maker.side(), maker.side());
        Clipped { maker, rows, columns }
    }

    fn view(&mut self, layouts: &[Layout]) -> View {
        let clip = self.clip();
        View { clip, ..view(self.maker.random, layouts) }
    }

    /// A clip of some rows and columns; now and then of none.
    fn clip(&mut self) -> Clip {
        let (row_offset, row_span) = self.part(self.rows);
        let (column_offset, column_span) = self.part(self.columns);
        let row_span = if self.maker.random.percent(10) { 0 } else { row_span };
        Clip { row_offset, row_span, column_offset, column_span }
    }

    /// Offset and span of some rows or columns, now and then of all.
    fn part(&mut self, side: usize) -> (u16, u16) {
        let random = &mut *self.maker.random;
        if random.percent(40) {
            return (UNCLIPPED.row_offset, UNCLIPPED.row_span);
        }
        let offset = random.below(side);
        (offset as u16, random.between(1, side - offset) as u16)
    }

    fn add_steps(&mut self, sheet: &mut Sheet) {
        for register in 0..self.maker.random.between(1, REGISTERS) {
            self.add_fill(sheet, register);
        }
        for _ in 0..self.maker.random.between(2, 10) {
            self.add_load(sheet);
        }
        if self.maker.random.percent(20) {
            let (register, object) = (self.maker.any_register(), self.object());
            let load = self.maker.load_of(register, object, sheet);
            self.maker.add(sheet, load, Some(EMPTY_REGISTER));
        }
        let store = self.maker.store(sheet);
        self.maker.add(sheet, store, None);
    }

    fn add_fill(&mut self, sheet: &mut Sheet, register: usize) {
        let Clipped { rows, columns, .. } = *self;
        let kind = Kind(self.maker.random.below(6) as u8);
        let fill = self.maker.fill_of(register, Type { kind, rows, columns });
        self.maker.add(sheet, fill, None);
    }

    /// A load of a register, which was filled before, most often just now.
    fn add_load(&mut self, sheet: &mut Sheet) {
        let register = self.maker.register();
        if self.maker.random.percent(60) {
            self.add_fill(sheet, register);
        }
        let object = self.object();
        let load = self.maker.load_of(register, object, sheet);
        self.maker.add(sheet, load, None);
    }

    /// Most often none.
    fn object(&mut self) -> Option<usize> {
        self.maker.random.percent(40).then(|| self.maker.register())
    }
}
