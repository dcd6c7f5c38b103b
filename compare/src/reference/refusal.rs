//! Refusals: a cause, which has a number, and a place.

use super::edition::Edition;

/// Declares the causes beside the editions that brought them and the numbers that they have.
macro_rules! causes {
    ($($edition:ident { $($number:literal: $($cause:ident)+;)+ })+) => {
        /// Why an input is refused. A number has several causes; the comparison sees the number
        /// alone, but asks that the generator met each cause.
        #[derive(Clone, Copy, PartialEq, Eq, PartialOrd, Ord, Debug)]
        pub enum Cause {
            $($($($cause,)+)+)+
        }

        impl Cause {
            /// Every cause.
            pub const ALL: &'static [Cause] = &[$($($(Cause::$cause,)+)+)+];

            /// The refusal's number.
            pub fn number(self) -> u32 {
                match self {
                    $($($(Cause::$cause)|+ => $number,)+)+
                }
            }

            /// The first edition whose sheets can be refused for this.
            pub fn edition(self) -> Edition {
                match self {
                    $($($(Cause::$cause)|+)|+ => Edition::$edition,)+
                }
            }
        }
    };
}

causes! {
    One {
        1: HeadCut ContentCut TraceHeadCut TraceContentCut;
        2: UnknownTag LaterTag TraceTag;
        3: OutOfOrder LaterTagFirst RepeatedEdition TooMany NoEdition;
        4: WrongLength TraceLength;
        5: DimensionCount LengthDisagrees ClampModeRange BlockSize DimensionSize Offset Span
           HasDimensions NotAPermutation ViewDimensionSize RegisterRange Side KindRange FillValue
           NoSuchLayout NoSuchView ReduceModeRange CombineRange UnreadableModel TraceSort TraceByte
           AskedPastSteps AskedWholeStep AskedPastMatrix;
        6: WrongEdition;
        7: EmptyRegister;
        8: ReduceHalves ReduceRows ReduceColumns MultiplyShapes AccumulatorKind;
        9: Base;
        10: ViewWithoutDimensions;
        11: StoreBlock;
        12: IndexTooLarge;
        13: Undefined;
        14: PastMemory;
        15: SharedByte;
        16: TooManyRecords TapeRoom MaskRoom;
        17: RecordCount UnknownOp RecordRegister RecordEmptyRegister RecordElementCount RecordFirst
            RecordPastMatrix RecordByteStep RecordPastMemory RecordValue RecordUnused RecordNoStep
            RecordAccessStep RecordStepEmpty RecordStepShapes;
        18: MemoryTooLong;
        19: SheetRoom TraceRoom;
        26: EarlierStep EarlierElement SameElement;
    }
    Two {
        5: ResultKind InputInterpretation MatrixInterpretation VectorSide MemoryLayoutRange
           BiasRange BiasOffset;
        7: EmptyInput;
        8: InputShape PackedKind PackedShape;
        14: MatrixPastMemory BiasPastMemory;
        17: RecordInputEmpty RecordInputShape RecordMatrixPastMemory RecordBiasPastMemory;
    }
}

/// A refusal: its cause and its place, two numbers of which an unnamed one is 0.
#[derive(Clone, Copy, PartialEq, Eq, Debug)]
pub struct Refusal {
    pub cause: Cause,
    pub place: [u32; 2],
}

impl Refusal {
    /// A refusal whose place is 0.
    pub fn nowhere(cause: Cause) -> Refusal {
        Refusal { cause, place: [0, 0] }
    }

    /// A refusal at a byte, a step or a record. Only a trace has bytes past 2^32 - 1, which then
    /// stands for them.
    pub fn at(cause: Cause, place: usize) -> Refusal {
        Refusal { cause, place: [u32::try_from(place).unwrap_or(u32::MAX), 0] }
    }

    /// A refusal at an element of a step.
    pub fn at_element(cause: Cause, step: usize, element: usize) -> Refusal {
        Refusal { cause, place: [step as u32, element as u32] }
    }
}

#[cfg(test)]
mod tests {
    use super::*;

    #[test]
    fn a_place_past_32_bits_is_the_last_of_them() {
        assert_eq!(Refusal::at(Cause::TraceTag, 0xFFFF_FFFF).place, [u32::MAX, 0]);
        assert_eq!(Refusal::at(Cause::TraceTag, 1 << 32).place, [u32::MAX, 0]);
    }
}
