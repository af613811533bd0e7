//! Fields of whole bits in a row of bytes, most significant bit first.
//!
//! A field goes in or out as a whole. It has 1 to 56 bits, so that it fits into a number of 64 bits
//! beside what is left of a byte.

/// Takes fields from the front of a row of bytes.
pub struct BitReader<'a> {
    bytes: &'a [u8],
    at: usize,
}

impl<'a> BitReader<'a> {
    /// The row has at least eight bytes.
    pub fn new(bytes: &'a [u8]) -> Self {
        BitReader { bytes, at: 0 }
    }

    /// The next `width` bits as a number. The caller sees to it that they exist.
    #[inline]
    pub fn take(&mut self, width: usize) -> u64 {
        let field = self.window() >> (64 - width);
        self.at += width;
        field
    }

    /// The next `width` bits in two's complement.
    #[inline]
    pub fn take_signed(&mut self, width: usize) -> i64 {
        let field = self.window() as i64 >> (64 - width);
        self.at += width;
        field
    }

    /// The bits from the next one on, at the top of a number; at least 57, or all that are left.
    #[inline]
    fn window(&self) -> u64 {
        // Eight bytes: from the next bit's own byte on, or the last eight.
        let start = (self.at / 8).min(self.bytes.len() - 8);
        let eight = self.bytes[start..].first_chunk().expect("the row has eight bytes");
        u64::from_be_bytes(*eight) << (self.at - 8 * start)
    }
}

/// Puts fields into a row of bytes, from the front. Each byte is stored when its last bit is put.
pub struct BitWriter<'a> {
    rest: std::slice::IterMut<'a, u8>,
    /// Bits that are put and not stored, the last one lowest.
    held: u64,
    count: usize,
}

impl<'a> BitWriter<'a> {
    pub fn new(bytes: &'a mut [u8]) -> Self {
        BitWriter { rest: bytes.iter_mut(), held: 0, count: 0 }
    }

    /// Puts the low `width` bits of the number.
    #[inline]
    pub fn put(&mut self, width: usize, number: u64) {
        self.held = self.held << width | number & !0 >> (64 - width);
        self.count += width;
        while self.count >= 8 {
            self.count -= 8;
            let byte = self.rest.next().expect("the row has room");
            *byte = (self.held >> self.count) as u8;
        }
    }

    /// Puts the low `width` bits of the number's two's complement.
    #[inline]
    pub fn put_signed(&mut self, width: usize, number: i64) {
        self.put(width, number as u64);
    }
}

/// Puts the low `width` bits of the number over the bits from `at` on.
pub fn put_over(bytes: &mut [u8], at: usize, width: usize, number: u64) {
    for (i, shift) in (at..).zip((0..width).rev()) {
        let bit = (number >> shift & 1) as u8;
        let place = 7 - i % 8;
        bytes[i / 8] = bytes[i / 8] & !(1 << place) | bit << place;
    }
}

#[cfg(test)]
mod tests {
    use super::*;

    #[test]
    fn fields_come_back_across_byte_borders() {
        let mut bytes = [0x5a; 9];
        let mut writer = BitWriter::new(&mut bytes);
        writer.put(3, 0b101);
        writer.put_signed(14, -8192);
        writer.put_signed(14, -1);
        writer.put(33, 0x1_2345_6789);
        assert_eq!(bytes, [0xb0, 0x00, 0x7f, 0xff, 0x23, 0x45, 0x67, 0x89, 0x5a]);
        let mut reader = BitReader::new(&bytes);
        assert_eq!(reader.take(3), 0b101);
        assert_eq!(reader.take_signed(14), -8192);
        assert_eq!(reader.take_signed(14), -1);
        assert_eq!(reader.take(33), 0x1_2345_6789);
        assert_eq!(reader.take(8), 0x5a);
    }

    /// The widest field at each place in a byte, to the end of the row.
    #[test]
    fn wide_fields_come_back() {
        for before in 0..8 {
            let mut bytes = [0x5a; 9];
            bytes[0] = 0;
            let number = 0x81_2345_6789_abcd;
            put_over(&mut bytes, before, 56, number);
            let mut reader = BitReader::new(&bytes);
            if before > 0 {
                assert_eq!(reader.take(before), 0);
            }
            assert_eq!(reader.take(56), number);
            assert_eq!(reader.take(16 - before), 0x5a5a & 0xffff >> before);
        }
    }
}
