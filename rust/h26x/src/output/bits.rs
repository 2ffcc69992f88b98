//! The bits of a parameter set (H.264, 7.2 and 9.1; H.265, 7.2 and 9.2).

pub struct Bits {
    bytes: Vec<u8>,
    place: usize,
}

impl Bits {
    /// The payload of a unit behind a header of so many bytes, without what prevents start codes.
    pub fn of(unit: &[u8], header: usize) -> Self {
        let mut bytes = Vec::with_capacity(unit.len());
        let mut zeros = 0;
        for &byte in unit.get(header..).unwrap_or_default() {
            if zeros >= 2 && byte == 3 {
                zeros = 0;
                continue;
            }
            zeros = if byte == 0 { zeros + 1 } else { 0 };
            bytes.push(byte);
        }
        Bits { bytes, place: 0 }
    }

    /// The bytes from the first on.
    pub fn bytes(&self) -> &[u8] {
        &self.bytes
    }

    /// The next bits, 32 at most; nothing where there are fewer.
    pub fn bits(&mut self, count: usize) -> Option<u32> {
        let mut bits = 0;
        for _ in 0..count {
            let byte = self.bytes.get(self.place / 8)?;
            bits = bits << 1 | u32::from(byte >> (7 - self.place % 8) & 1);
            self.place += 1;
        }
        Some(bits)
    }

    pub fn flag(&mut self) -> Option<bool> {
        self.bits(1).map(|it| it == 1)
    }

    /// How many bytes stand before the next bit, and those of which some bits do.
    pub fn bytes_before(&self) -> usize {
        self.place.div_ceil(8)
    }

    /// Passes over bits up to the next whole byte.
    pub fn align(&mut self) {
        self.place = self.place.next_multiple_of(8);
    }

    pub fn skip(&mut self, count: usize) {
        self.place += count;
    }

    /// An Exp-Golomb code, ue(v).
    pub fn number(&mut self) -> Option<u32> {
        let mut zeros = 0;
        while !self.flag()? {
            zeros += 1;
        }
        let rest = self.bits(if zeros < 32 { zeros } else { return None })?;
        Some((1_u32 << zeros) - 1 + rest)
    }

    /// A signed one, se(v).
    pub fn signed(&mut self) -> Option<i64> {
        let number = i64::from(self.number()?);
        Some(if number % 2 == 1 {
            number / 2 + 1
        } else {
            -(number / 2)
        })
    }
}

#[cfg(test)]
mod tests {
    use super::*;

    /// H.264, table 9-2 and 9-3: 1, 010, 011, 00100, 00101.
    #[test]
    fn codes() {
        let unit = [0x67, 0b1010_0110, 0b0100_0010, 0b1000_0000];
        let mut bits = Bits::of(&unit, 1);
        let numbers: Vec<Option<u32>> = (0..5).map(|_| bits.number()).collect();
        assert_eq!(numbers, [0, 1, 2, 3, 4].map(Some));
        let mut bits = Bits::of(&unit, 1);
        let numbers: Vec<Option<i64>> = (0..5).map(|_| bits.signed()).collect();
        assert_eq!(numbers, [0, 1, -1, 2, -2].map(Some));
        assert_eq!(Bits::of(&[1, 0, 0, 3, 1], 1).bytes(), [0, 0, 1]);
        assert_eq!(Bits::of(&[0; 40], 0).number(), None);
        assert_eq!(Bits::of(&[], 2).bits(1), None);
    }
}
