//! Tapes for a sheet: random ones, most of them accepted, and damaged ones.

use crate::random::Random;
use crate::reference::{
    whole_type, Record, Sheet, Type, Types, RECORDS_MAX, RECORD_NUMBERS, REGISTERS, WHOLE_STEP,
};

/// A tape as it is handed to a run.
#[derive(Clone, PartialEq, Eq)]
pub struct Tape {
    pub numbers: Vec<i32>,
    pub records: usize,
}

impl Tape {
    /// The whole tape of some records.
    pub fn of(records: &[Record]) -> Tape {
        Tape { numbers: records.concat(), records: records.len() }
    }
}

/// A tape of records that fit the sheet and the memory, with few exceptions.
pub fn random_tape(random: &mut Random, sheet: &Sheet, memory_len: usize) -> Tape {
    let length = match random.below(20) {
        0 => 0,
        1 => random.pick(&[100, RECORDS_MAX - 1, RECORDS_MAX, RECORDS_MAX + 1]),
        _ => random.between(1, 24),
    };
    let fault = random.percent(30).then(|| random.below(length + 1));
    let mut maker = RecordMaker { random, types: Types::default(), sheet, memory_len };
    let mut records = Vec::new();
    for number in 0..length {
        let mut record = maker.record();
        if fault == Some(number) {
            damage_record(maker.random, &mut record);
        }
        records.push(record);
    }
    Tape::of(&records)
}

struct RecordMaker<'a> {
    random: &'a mut Random,
    types: Types,
    sheet: &'a Sheet,
    memory_len: usize,
}

impl RecordMaker<'_> {
    fn record(&mut self) -> Record {
        let held: Vec<usize> = (0..REGISTERS).filter(|&r| self.types[r].is_some()).collect();
        if held.is_empty() || self.random.percent(15) {
            return self.whole_step();
        }
        let register = self.random.pick(&held);
        let type_ = self.types[register].expect("held");
        match self.random.below(10) {
            0 => self.copy(register),
            1..=4 => self.bytes(1, register, type_),
            5..=7 => self.bytes(2, register, type_),
            _ => self.fill(register, type_),
        }
    }

    fn copy(&mut self, object: usize) -> Record {
        let register = self.random.below(REGISTERS);
        self.types[register] = self.types[object];
        [0, register as i32, object as i32, 0, 0, 0]
    }

    /// A step of the sheet, where there is one now and then one that gets 14.
    fn whole_step(&mut self) -> Record {
        let number = match self.step_past_memory() {
            Some(number) if self.random.percent(40) => number,
            _ => self.step_to_do(),
        };
        [WHOLE_STEP, number as i32, 0, 0, 0, 0]
    }

    /// A step of the sheet that can be done now, if some tries find one.
    fn step_to_do(&mut self) -> usize {
        let mut number = 0;
        for _ in 0..6 {
            number = self.random.below(self.sheet.steps.len() + 1);
            if let Some(step) = self.sheet.steps.get(number) {
                if let Some(Ok(type_)) = whole_type(step, &self.types, self.memory_len) {
                    self.types[step.register()] = Some(type_);
                    break;
                }
            }
        }
        number
    }

    /// The first vector step whose input fits now, but whose elements do not all lie in memory.
    fn step_past_memory(&self) -> Option<usize> {
        self.sheet.steps.iter().position(|step| {
            let refused = whole_type(step, &self.types, self.memory_len).and_then(Result::err);
            refused.is_some_and(|(cause, _)| cause.number() == 14)
        })
    }

    /// Some elements of a matrix: the first one and their count.
    fn elements(&mut self, type_: Type) -> (usize, usize) {
        let first = self.random.below(type_.elements());
        (first, self.random.between(1, type_.elements() - first))
    }

    /// A take or a put whose bytes lie in memory and may overlap.
    fn bytes(&mut self, op: i32, register: usize, type_: Type) -> Record {
        let (first, count) = self.elements(type_);
        let size = type_.kind.size() as i64;
        let room = self.memory_len as i64 - size;
        let longest = if count > 1 { room / (count as i64 - 1) } else { 65_535 };
        let step = match self.random.below(8) {
            0..=2 => size,
            3 => 1,
            4 => 0,
            5 => longest,
            _ => self.random.below(longest.max(0) as usize + 1) as i64,
        };
        let step = step.clamp(0, longest.clamp(0, 65_535));
        let reach = step * (count as i64 - 1);
        let lowest = match self.random.below(4) {
            0 => 0,
            1 => room - reach,
            _ => self.random.below((room - reach).max(0) as usize + 1) as i64,
        };
        let (byte, step) =
            if self.random.percent(30) { (lowest + reach, -step) } else { (lowest, step) };
        [op, register as i32, first as i32, count as i32, byte as i32, step as i32]
    }

    fn fill(&mut self, register: usize, type_: Type) -> Record {
        let (first, count) = self.elements(type_);
        let bits = match self.random.below(4) {
            0 => type_.kind.low_bits(u32::MAX),
            _ => type_.kind.low_bits(self.random.bits() as u32),
        };
        [3, register as i32, first as i32, count as i32, bits as i32, 0]
    }
}

/// A tape with a number changed, records moved, or another record count.
pub fn damage_tape(random: &mut Random, tape: &Tape) -> Tape {
    let mut tape = tape.clone();
    let records = tape.numbers.len() / RECORD_NUMBERS;
    if records == 0 || random.percent(12) {
        change_count(random, &mut tape);
        return tape;
    }
    let at = RECORD_NUMBERS * random.below(records);
    let other = RECORD_NUMBERS * random.below(records);
    match random.below(10) {
        0 => {
            tape.numbers.drain(at..at + RECORD_NUMBERS);
            tape.records -= 1;
        }
        1 => {
            for i in 0..RECORD_NUMBERS {
                tape.numbers.swap(at + i, other + i);
            }
        }
        2 => {
            let record = tape.numbers[at..at + RECORD_NUMBERS].to_vec();
            tape.numbers.splice(other..other, record);
            tape.records += 1;
        }
        _ => {
            let record = &mut tape.numbers[at..at + RECORD_NUMBERS];
            damage_record(random, record.try_into().expect("six numbers"));
        }
    }
    tape
}

fn damage_record(random: &mut Random, record: &mut Record) {
    let at = random.below(RECORD_NUMBERS);
    let old = record[at];
    record[at] = match random.below(4) {
        0 => old.wrapping_add(1),
        1 => old.wrapping_sub(1),
        2 => random.pick(&[
            -1,
            0,
            1,
            2,
            3,
            4,
            5,
            32,
            255,
            256,
            257,
            65_535,
            65_536,
            -65_535,
            -65_536,
            i32::MIN,
            i32::MAX,
        ]),
        _ => random.bits() as i32,
    };
}

/// A record count that is shorter, longer than the slice, or longer than any tape; and a slice
/// that is no multiple of six numbers long.
fn change_count(random: &mut Random, tape: &mut Tape) {
    match random.below(6) {
        0 => tape.records = random.below(tape.records + 1),
        1 => tape.records += 1,
        2 => tape.records = random.pick(&[RECORDS_MAX, RECORDS_MAX + 1, usize::MAX, 1 << 32]),
        3 => tape.numbers.truncate(tape.numbers.len().saturating_sub(random.between(1, 6))),
        4 => tape.numbers.extend((0..random.between(1, 12)).map(|_| random.bits() as i32)),
        _ => {
            tape.numbers.resize(RECORD_NUMBERS * (RECORDS_MAX + 1), 0);
            tape.records = RECORDS_MAX + 1;
        }
    }
}
