//! The element kinds.

/// A kind: 0 u8, 1 s8, 2 u16, 3 s16, 4 u32, 5 s32. An element is its raw bits.
#[derive(Clone, Copy, PartialEq, Eq, Debug)]
pub struct Kind(pub u8);

impl Kind {
    pub const U8: Kind = Kind(0);
    pub const S8: Kind = Kind(1);
    pub const U32: Kind = Kind(4);
    pub const S32: Kind = Kind(5);

    /// The bytes of an element.
    pub fn size(self) -> usize {
        match self.0 {
            0 | 1 => 1,
            2 | 3 => 2,
            _ => 4,
        }
    }

    /// Whether elements are read with a sign.
    pub fn is_signed(self) -> bool {
        self.0 % 2 == 1
    }

    /// The bits above which an element is too wide.
    fn mask(self) -> u32 {
        match self.size() {
            1 => 0xFF,
            2 => 0xFFFF,
            _ => 0xFFFF_FFFF,
        }
    }

    /// Whether raw bits are below 2 to the kind's width.
    pub fn holds(self, bits: u32) -> bool {
        bits <= self.mask()
    }

    /// The low bits of a number.
    pub fn low_bits(self, number: u32) -> u32 {
        number & self.mask()
    }

    /// The least and the greatest number that raw bits stand for.
    pub fn range(self) -> (i64, i64) {
        let numbers = i64::from(self.mask()) + 1;
        if self.is_signed() {
            (-numbers / 2, numbers / 2 - 1)
        } else {
            (0, numbers - 1)
        }
    }

    /// The number in the kind's range that is nearest to a number.
    pub fn saturated(self, number: i64) -> i64 {
        let (least, greatest) = self.range();
        number.clamp(least, greatest)
    }

    /// What raw bits stand for.
    pub fn value(self, bits: u32) -> i64 {
        match self.0 {
            1 => i64::from(bits as u8 as i8),
            3 => i64::from(bits as u16 as i16),
            5 => i64::from(bits as i32),
            _ => i64::from(bits),
        }
    }
}
